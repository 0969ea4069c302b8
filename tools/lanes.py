#!/usr/bin/env python3
"""Prints how many checks `rt ci` should do at once here, for RT_JOBS: one for each processor, where there are 5 GB of memory for each.

`rt ci` reckons two to three times the memory that a check of these crates takes, and then leaves processors idle."""
import os

# What a check takes at most, in bytes, with room to spare: the most that was seen is 4 GB.
LANE = 5_000_000_000


def free():
    """Returns the free memory, in bytes."""
    with open("/proc/meminfo", encoding="utf-8") as file:
        return next(1024 * int(line.split()[1]) for line in file if line.startswith("MemAvailable:"))


def lanes():
    """Returns how many checks to do at once."""
    return max(1, min(len(os.sched_getaffinity(0)), free() // LANE))


if __name__ == "__main__":
    print(lanes())
