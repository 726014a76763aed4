"""visits.py: visits.c in Python, on the same file: visits.py FILE."""
import os
import sys

from onefile import Caller, Memory

if __name__ == "__main__":
    memory = Memory(1, 0, path=sys.argv[1])
    with Caller(memory, 0) as own:
        print("visit", own.call("add 0 1").answers()[0], flush=True)
        os._exit(0)  # as a process that is killed: nothing is closed, and nothing is lost
