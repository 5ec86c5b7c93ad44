#!/usr/bin/env python3
"""Writes `july.plan`, the plans that `july.schedules` names, to the folder given or to its own.

A column a group, by the quarter hour, in kilowatt-hours: what the group took on average in that hour on that day of the week, by the first
delivery of `july.csv`, rounded to whole kilowatt-hours.
"""

import csv
import pathlib
import sys

OWN = pathlib.Path(__file__).resolve().parent
DAY, WEEK = 96, 7

# What each group takes, of the columns of july.csv: the deltas of areas 1 and 2, and the group sums.
GROUPS = {
    "group_1": lambda row: row["border"] - row["tie"] - row["group_5"] - row["area_1"],
    "group_2": lambda row: row["tie"] + row["transfer"] - row["group_7"],
    "group_5": lambda row: row["group_5"],
    "group_6": lambda row: row["group_6"],
    "group_7": lambda row: row["group_7"],
}


def watt_hours(cell):
    """Kilowatt-hours with three decimals as watt-hours."""
    return int(cell.replace(".", ""))


def hour_of(quarter):
    """The day of the week and the hour of a quarter hour, counted from 0."""
    return quarter // DAY % WEEK, quarter % DAY // 4


def planned(series):
    """The mean of each hour of the week, in whole kilowatt-hours, by the quarter hour."""
    taken = {}
    for quarter, energy in enumerate(series):
        taken.setdefault(hour_of(quarter), []).append(energy)
    mean = {hour: (2 * sum(energies) + 1000 * len(energies)) // (2000 * len(energies)) for hour, energies in taken.items()}
    return [mean[hour_of(quarter)] for quarter in range(len(series))]


def main():
    folder = pathlib.Path(sys.argv[1]) if len(sys.argv) > 1 else OWN
    with open(OWN / "july.csv", encoding="utf-8", newline="") as file:
        rows = [{name: watt_hours(cell) for name, cell in row.items() if name != "quarter"} for row in csv.DictReader(file, delimiter=";")]
    plans = zip(*(planned([took(row) for row in rows]) for took in GROUPS.values()))
    lines = [["quarter", *GROUPS]] + [[at, *plan] for at, plan in enumerate(plans, 1)]
    text = "".join(";".join(map(str, line)) + "\n" for line in lines)
    (folder / "july.plan").write_text(text, encoding="utf-8")


if __name__ == "__main__":
    main()
