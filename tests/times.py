#!/usr/bin/env python3
"""Runs a command nine times: the quickest, the middle and the slowest time, processor time, and the most memory.

    times.py COMMAND..
"""

import os
import subprocess
import sys
import time


def once():
    """Seconds by the clock, seconds of processor time, most memory in kB."""
    start = time.monotonic()
    process = subprocess.Popen(sys.argv[1:], stdout=subprocess.DEVNULL)
    _, _, used = os.wait4(process.pid, 0)
    return time.monotonic() - start, used.ru_utime + used.ru_stime, used.ru_maxrss


def main():
    clock, processor, memory = zip(*(once() for _ in range(9)))
    for name, times in (("clock, s", clock), ("processor, s", processor)):
        ordered = sorted(times)
        print(f"{name:14}", *(f"{ordered[at]:.3f}" for at in (0, 4, 8)))
    print(f"{'memory, MB':14} {max(memory) / 1024:.1f}")


main()
