"""What onefile.py adds to onefile.h: a caller leaves at the end of its `with`, also if another one
enrols or leaves at the same moment. A path with a zero byte is refused. Two memories share a file,
as two processes would: bindings.py [FOLDER]."""
import os
import sys
import threading
import time

from onefile import Caller, Memory, Refusal

MET, END = [], time.monotonic() + 10


def stays(of, number):
    """Enrols a caller and lets it leave, until two have met often, or for ten seconds. Says whether it
    was enrolled still when it should have left."""
    meets = []
    while len(MET) < 100 and time.monotonic() < END:
        try:
            with Caller(of, number):
                MET.extend(meets)
                meets = []
        except Refusal as why:
            if str(why) != "ONEFILE_BUSY":
                return True
            meets = [number]
    return False


def takes_path(path):
    try:
        Memory(path=path, callers=1)
    except ValueError:
        return False
    except Refusal:
        pass
    return True


def shares(path):
    """Two memories of one file: what one answers the other adds to, and may ask for."""
    one, other = (Memory(path=path, callers=2, blocks=4, shared=True) for _ in range(2))
    with Caller(one) as first, Caller(other) as second:
        first.call("add 3 5")
        told = second.call("add 3 6").values[0], one.last_reply_of(second.number).values[0]
        return f"{told[0] * 10 + first.number * 2 + second.number} {told[1]}"


def shares_again(path):
    """All have let the file go, so the next life has all numbers, and the sum."""
    one = Memory(path=path, callers=2, blocks=4, shared=True)
    with Caller(one, 1) as own:
        found = own.call("load 3").values[0]
    one.detach()
    os.remove(path)
    return found


def renumbers():
    """How many sequences are left after a call, and once they have begun anew, and the sum."""
    of, told = Memory(callers=1, limit=3), []
    for _ in range(2):
        with Caller(of, 0) as own:
            told += [own.call("add 3 5").values[0], own.sequences_left()]
        of.renumber()
    return told


def main():
    of, others = Memory(callers=2), []
    thread = threading.Thread(target=lambda: others.append(stays(of, 1)))
    thread.start()
    others.append(stays(of, 0))
    thread.join()
    print("a caller has not left" if any(others) else "each caller has left")
    of.close()
    print("a path with a zero byte:", "taken" if takes_path("/no/such\0folder") else "refused")
    print("sums, and sequences left:", *renumbers())
    path = os.path.join(sys.argv[1] if len(sys.argv) > 1 else "/tmp", "onefile-bindings.py")
    if os.path.exists(path):
        os.remove(path)
    print(f"two that share a file: {shares(path)}, and later {shares_again(path)}")


main()
