#!/usr/bin/env python3
"""Writes a large month as text: so many quarter hours, 256 points, 512 versions, both runs closed and issued. Or schedules for it: of most groups, one of them twice.

    month.py QUARTERS [schedules]
"""

import sys

QUARTERS = int(sys.argv[1])


def energies(point, version):
    """A load curve by day, with a share of the point and the version."""
    return ",".join(
        str((1 + point) * 1000 + (quarter % 96 - 48) ** 2 * (7 + point % 5) - version * (quarter % 7) * 10)
        for quarter in range(QUARTERS)
    )


def series():
    """Kind, area and partner of 256 points, no two the same."""
    for area in range(1, 17):
        for partner in range(area):
            yield "exchange", area, partner
    for area in range(1, 9):
        for group in range(1, 15):
            yield "group-sum", area, 16 + group
    for area in range(1, 9):
        yield "area-sum", area, 0


def schedules():
    """Plans above and below what the groups take, by turns, and beside 0 for those that take nothing; groups 3, 6, 9 and so on have none."""
    for group in [5, *(group for group in range(1, 65) if group % 3)]:
        level = 1560000 + 1000 * group if group <= 30 else 0
        plan = (level + (quarter % 17 - 8) * (20000 + group) for quarter in range(QUARTERS))
        print(f"lodge group={group} energies={','.join(map(str, plan))}")


def main():
    groups = " ".join(f"{area}={area}" for area in range(1, 17))
    print(f"open quarters={QUARTERS} first=10 clearing=30 correction=150 T=64 {groups}")
    points = list(enumerate(series(), 1))
    assert len(points) == 256
    for point, (kind, area, partner) in points:
        print(f"activate point={point} kind={kind} area={area} partner={partner} day=0")
    for point, _ in points:
        print(f"submit point={point} version=1 day=2 energies={energies(point, 1)}")
    for point, _ in points:
        print(f"submit point={point} version=2 day=12 energies={energies(point, 2)}")
    for point, _ in points[::3]:
        print(f"notice point={point} version=2 verdict=positive day=20")
    print("close run=1 day=31")
    print("issue run=1 day=31")
    for point, _ in points[1::3]:
        print(f"notice point={point} version=2 verdict=positive day=40")
    print("close run=2 day=151")
    print("issue run=2 day=151")


if sys.argv[2:] == ["schedules"]:
    schedules()
else:
    main()
