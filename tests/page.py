#!/usr/bin/env python3
"""Compares a page of `desk page` with the figures of `desk figures --all --csv`: each figure, and each group's sums.

    page.py PAGE FIGURES
"""

import base64
import csv
import json
import re
import sys


def figures(text, quarters):
    """The figures of a row: 2v or -2v - 1, seven bits a byte, lowest first."""
    numbers, value, place = [], 0, 0
    for byte in base64.b64decode(text):
        value += byte % 128 << 7 * place
        place += 1
        if byte < 128:
            numbers.append(value // 2 if value % 2 == 0 else -(value // 2) - 1)
            value, place = 0, 0
    assert len(numbers) == quarters, (len(numbers), quarters)
    return numbers


def main():
    page = open(sys.argv[1], encoding="utf-8").read()
    data = json.loads(re.search(r'id="data">(.*?)</script>', page, re.S).group(1))
    shown = {}
    for group in data["groups"]:
        first = figures(group["run_1"], data["quarters"])
        second = first if group["run_2"] is None else figures(group["run_2"], data["quarters"])
        shown[group["group"]] = (first, second)
    sums = {}
    with open(sys.argv[2], encoding="utf-8") as file:
        for row in csv.DictReader(file):
            run, quarter, group, figure = (int(row[name]) for name in ("run", "quarter", "group", "figure"))
            place = shown[group][run - 1][quarter - 1] if group in shown else 0
            assert place == figure, (run, quarter, group, place, figure)
            sums.setdefault(group, [0, 0])[run - 1] += figure
    for group, (first, second) in sums.items():
        cells = re.search(rf'<tr data-group="{group}">(.*?)</tr>', page)
        assert (cells is not None) == (group in shown), group
        if cells:
            numbers = [int(number) for number in re.findall(r'data-n="(-?\d+)"', cells.group(1))]
            assert numbers == [group, first, second, second - first], (group, numbers)


main()
