"""How the scripts that try many things end: a line for each fault, and `N passed, M failed`."""
import sys


def finish(tries, least=0):
    """Prints what failed and how many did, and ends with status 1 if one did.

    Each try is what was tried, and why it failed or None. Fewer than `least` tries are a failure.
    """
    passed = failed = 0
    for what, why in tries:
        if why is None:
            passed += 1
        else:
            failed += 1
            print(f"{what}: {why}" if what else why, flush=True)
    print(f"{passed} passed, {failed} failed")
    sys.exit(1 if failed or passed < least else 0)
