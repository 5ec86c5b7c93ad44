#!/usr/bin/env python3
"""Writes the files that the examples are run on, to the folder given or to its own.

Message files: `example.msg` is the one that document 01 writes out, `month.msg` its sample month, packed from
`month.calls`; `corrected.msg` has corrections with run 1 closed and issued, `settled.msg` the same with both runs,
`older.msg` with both closed alone, as older files have them, `moved.msg` with other delta groups in run 2; the others are
empty or damaged, and each of these is refused for one cause. Books and schedules, all of two quarter hours: `month.book` has the figures of document 01's sample month,
`edges.book` figures at both ends of the 64-bit range, and `short.book` lacks its last byte; `month.lodged` has what some
groups of the sample month planned, `edges.lodged` numbers beside those of `edges.book`, and `short.lodged` lacks its last
byte. `july.csv` has the series of `july.calls`.
"""

import pathlib
import struct
import subprocess
import sys

OWN = pathlib.Path(__file__).resolve().parent


def packed(name):
    """The message file of a text beside this script, by `desk pack`."""
    return subprocess.run([OWN.parent / "desk", "pack", OWN / name], stdout=subprocess.PIPE, check=True).stdout


# Open, activate, and one submission sent twice.
OPEN = bytes.fromhex("01 01 0A 1E 96 01 04 01 02") + 14 * b"\x03"
ACTIVATE = bytes.fromhex("02 01 01 01 00 00")
SUBMIT = bytes.fromhex("04 01 07 02 01 D0 0F")
EXAMPLE = OPEN + ACTIVATE + SUBMIT + SUBMIT

# Point 1 has a version of run 1, point 2 one of each run, point 3 one of run 2, point 4 check data.
CONFIRMED = b"".join(
    (
        OPEN,
        ACTIVATE,
        bytes.fromhex("02 02 02 01 05 00  02 03 03 01 00 00  02 04 05 01 00 00"),
        SUBMIT,
        bytes.fromhex("04 02 01 02 01 14  04 02 02 0B 01 28  04 03 01 0B 01 0A  04 04 01 0B 01 0C"),
        bytes.fromhex("05 02 02 01 1F  05 03 01 01 1F"),
    )
)
# Run 1 closed and issued.
CORRECTED = CONFIRMED + bytes.fromhex("07 01 20  08 01 20")

MESSAGES = {
    "example.msg": EXAMPLE,
    "month.msg": packed("month.calls"),
    "corrected.msg": CORRECTED,
    # Run 2 closed and issued.
    "settled.msg": CORRECTED + bytes.fromhex("07 02 97 01  08 02 97 01"),
    # Both runs closed, and none issued.
    "older.msg": CONFIRMED + bytes.fromhex("07 01 20  07 02 97 01"),
    # After the clearing deadline area 1 goes to group 7, T to group 9.
    "moved.msg": CORRECTED + bytes.fromhex("06 01 07 21  06 00 09 21"),
    "empty.msg": b"",
    # 31: the second submission lacks its last byte.
    "cut.msg": EXAMPLE[:-1],
    # 32: 0 in two bytes.
    "longer.msg": bytes.fromhex("80 00"),
    # 32: after the open a close whose run has ten bytes.
    "ninth.msg": OPEN + b"\x07" + 9 * b"\xff" + b"\x01\x1f",
    # 33: after the activation a call of kind 10.
    "kind.msg": OPEN + ACTIVATE + bytes.fromhex("0A 01 1F"),
    # 34: a submission of 2,981 energies, none of which follows.
    "count.msg": OPEN + ACTIVATE + bytes.fromhex("04 01 07 02 A5 17"),
}

QUARTERS = 2
DELTA_T = 64
MOST = 2**63 - 1
LEAST = -(2**63)


def group(number):
    """The row of a balance group."""
    return number - 1


def area(number):
    """The row of an area's delta."""
    return 64 + number


# Row: figures. Each delta is also added to its delta group, T to 4, area 1 to 1, area 2 to 2.
MONTH = {
    group(1): (11000, 7000),
    group(2): (30200, 19900),
    group(4): (300, -100),
    group(5): (50000, 45000),
    group(6): (8500, 8200),
    DELTA_T: (300, -100),
    area(1): (11000, 7000),
    area(2): (30200, 19900),
}

EDGES = {
    group(1): (MOST, 1),
    group(2): (LEAST, -1),
    group(64): (MOST, LEAST),
}


# What groups planned: 2 more than it took, 4 and 5 as much more as less, 6 what it took but for a watt-hour; 1 nothing.
PLANNED = {
    group(2): (40000, 30000),
    group(4): (299, -99),
    group(5): (49000, 46000),
    group(6): (8500, 8201),
}

# Group 2 is neither over nor under: 0 against -2^63, 2^63 - 1 against -1. The sums of 1 and 64 have 64 bits.
EDGES_PLANNED = {
    group(2): (0, MOST),
    group(64): (MOST - 5, 3),
}


def numbers(stores, rows):
    """The bytes of rows of two quarter hours: eight bytes a number, lowest first, two's complement."""
    nothing = (0,) * QUARTERS
    rows = [store.get(row, nothing) for store in stores for row in range(rows)]
    return b"".join(struct.pack("<q", number) for row in rows for number in row)


def book(run_1, run_2):
    """A book's bytes: two runs of 81 rows."""
    return numbers((run_1, run_2), 81)


def schedules(planned):
    """The bytes of schedules: a row a group."""
    return numbers((planned,), 64)


BOOKS = {
    "month.book": book(MONTH, MONTH),
    "edges.book": book({}, EDGES),
    "short.book": book(MONTH, MONTH)[:-1],
}

SCHEDULES = {
    "month.lodged": schedules(PLANNED),
    "edges.lodged": schedules(EDGES_PLANNED),
    "short.lodged": schedules(PLANNED)[:-1],
}


# July: watt-hours of a quarter hour by the hour of the day, for homes, works and sun.
HOMES = (21, 18, 16, 15, 15, 17, 24, 33, 37, 36, 34, 35, 38, 36, 33, 32, 34, 40, 48, 53, 52, 45, 36, 28)
WORKS = (40, 39, 39, 39, 42, 55, 78, 96, 104, 106, 107, 105, 101, 104, 105, 102, 94, 80, 66, 57, 51, 47, 44, 42)
SUN = (0, 0, 0, 0, 0, 2, 9, 21, 37, 53, 66, 75, 79, 77, 70, 58, 43, 27, 13, 4, 0, 0, 0, 0)


def july(quarter):
    """The series of July in a quarter hour, counted from 0, by column."""
    day, hour, part = quarter // 96, quarter % 96 // 4, quarter % 4

    def curve(hours, scale):
        """Between one hour and the next, in even steps."""
        return (hours[hour] * (4 - part) + hours[(hour + 1) % 24] * part) * scale // 4

    stir = (quarter * 7919 + day * 104729) % 1013
    weekend = day % 7 in (5, 6)
    works = curve(WORKS, 310 if weekend else 700)
    homes = curve(HOMES, 900 if weekend else 800)
    sun = curve(SUN, (190, 420, 560, 610, 330, 120, 480)[day % 7])
    five, seven = homes + stir, works + stir * 3
    row = {
        "border": 2 * homes + 2 * works - sun + 7 * stir,
        "tie": works + homes // 2 - sun // 2 + stir,
        "group_5": five,
        "area_1": homes // 3 + stir // 2,
        "group_6": homes // 4 + 200,
        "transfer": works // 50 - sun // 40,
        "group_7": seven,
        # A meter read again from the 12th to the 14th; a works' own sun left out before.
        "group_5_second": five + (homes // 20 if 11 <= day < 14 else 0),
        "group_7_second": seven - sun // 8,
    }
    return row


def kilowatt_hours(energy):
    """Watt-hours as kilowatt-hours with three decimals."""
    return f"{'-' if energy < 0 else ''}{abs(energy) // 1000}.{abs(energy) % 1000:03}"


def table():
    """The csv of July: a header, then a line a quarter hour."""
    rows = [july(quarter) for quarter in range(31 * 96)]
    lines = [["quarter", *rows[0]]] + [[str(at), *map(kilowatt_hours, row.values())] for at, row in enumerate(rows, 1)]
    return "".join(";".join(line) + "\n" for line in lines).encode()


def main():
    folder = pathlib.Path(sys.argv[1]) if len(sys.argv) > 1 else OWN
    for name, content in {**MESSAGES, **BOOKS, **SCHEDULES, "july.csv": table()}.items():
        (folder / name).write_bytes(content)


if __name__ == "__main__":
    main()
