"""What this machine can do at once."""
import os
import re

MEMORY = 2_500_000  # KiB that compiling a crate takes


def at_once():
    """Returns how many crates may be compiled side by side, by the processors and the memory that there are."""
    with open("/proc/meminfo", encoding="ascii") as file:
        free = int(re.search(r"MemAvailable: *(\d+)", file.read())[1])
    return max(1, min(len(os.sched_getaffinity(0)), free // MEMORY))
