#!/usr/bin/env python3
"""A host in Python: a message file through a fresh desk, then each group's month.

    cc -shared -o libemorizugu.so -Wl,--whole-archive "$(pkg-config --variable=prefix emorizugu)/lib/libemorizugu.a" -Wl,--no-whole-archive
    python3 host.py ./libemorizugu.so month.msg
"""

import ctypes
import pathlib
import sys

# Summary, points and versions have these places; the lengths are those of emorizugu.h for any month.
QUARTERS, VERSIONS, BOOK_ROWS, GROUPS, SUMMARY, POINTS = 2980, 512, 162, 64, 46, 9 * 256
OPENED, REFUSED = 2, 5

desk = ctypes.CDLL(sys.argv[1])
desk.emorizugu_replay.restype = ctypes.c_uint64
desk.emorizugu_sum.restype = ctypes.c_int64
file = pathlib.Path(sys.argv[2]).read_bytes()
desk_stores = (VERSIONS * QUARTERS, BOOK_ROWS * QUARTERS, 8 * VERSIONS, GROUPS * QUARTERS)
sizes = (*desk_stores, QUARTERS, len(file) // 3 + 1, SUMMARY, POINTS, 4 * VERSIONS)
stores = [(ctypes.c_uint64 * size)() for size in sizes]
lent = [argument for store in stores for argument in (store, ctypes.c_size_t(len(store)))]
refusal = desk.emorizugu_replay(file, ctypes.c_size_t(len(file)), *lent)
book, summary = stores[1], stores[6]
print(f"{summary[REFUSED]} refused, ending {refusal}")
for group in range(1, GROUPS + 1):
    numbers = (ctypes.c_uint64(number) for number in (summary[OPENED], 1, group - 1))
    if total := desk.emorizugu_sum(book, ctypes.c_size_t(len(book)), *numbers):
        print(f"group {group}: {total} Wh")
