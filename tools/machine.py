"""What this machine can do at a time."""
import os
import pathlib
import re

# What a check of the kit takes of the memory, in bytes, and a build without proofs.
MEMORY_OF_A_CHECK, MEMORY_OF_A_BUILD = 4_000_000_000, 3_000_000_000


def at_once(memory):
    """How many processes that take this much memory the processors and the free memory allow."""
    free = re.search(r"MemAvailable:\s+(\d+)", pathlib.Path("/proc/meminfo").read_text())
    return max(1, min(len(os.sched_getaffinity(0)), 1024 * int(free[1]) // memory))
