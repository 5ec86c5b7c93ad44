#!/usr/bin/env python3
"""Compares the forms of each list of `desk` on a month: text, csv and json have the same rows in the same order, at each run, and the order is total.
Of the points' versions those count that document 01 selects by their statuses, and `desk run` tells the same of each point and of each run.
A group that no series is a sum of has in each run what the deltas add up to that the run books to it, and `desk run` tells which have two groups.
With schedules, in watt-hours and on their lines, each report is what document 02 works out from schedules and figures, and so are both sides of their sum.

    forms.py DESK MONTH [--schedules TEXT] [--group N] [--month M]
"""

import argparse
import csv
import io
import json
import re
import subprocess

STATUSES = ("check data", "settlement data", "settled", "correction settlement data", "correction settled")
FIRST, SECOND, SETTLED = STATUSES[1:3], STATUSES[3:], STATUSES[2::2]

# The columns that a list is ordered by; no two rows are equal in them.
ORDER = {"figures": ("run", "quarter", "group"), "log": ("row",), "points": ("point", "version"), "runs": ("run",), "deltas": ("run", "area"), "report": ("run", "group")}

WORDS = argparse.ArgumentParser()
for word in ("desk", "file", "--schedules", "--group", "--month"):
    WORDS.add_argument(word)
ASKED = WORDS.parse_args()
MONTH = ["--month", ASKED.month] if ASKED.month else []
GROUP = ["--group", ASKED.group] if ASKED.group else []


def written(name, *options):
    """What a command writes of the month."""
    schedules = [ASKED.schedules] if name == "report" else []
    answer = subprocess.run([ASKED.desk, name, ASKED.file, *schedules, *MONTH, *options], stdout=subprocess.PIPE, check=False)
    assert answer.returncode in (0, 1), answer.returncode
    return answer.stdout.decode()


def listed(name, *options):
    """A list of the month; runs have no group."""
    return written(name, *(GROUP if name != "runs" else []), *options)


def highest(versions, statuses):
    """The highest version of some statuses, of rows that rise."""
    return ([row for row in versions if row["status"] in statuses] or [None])[-1]


def selected(versions):
    """What document 01 selects of a point's versions in run 1 and in run 2: its own, and without one what run 1 selects."""
    first = highest(versions, FIRST)
    return first, highest(versions, SECOND) or first


def is_settled(row):
    return row is not None and row["status"] in SETTLED


def series(row):
    area, partner = f"area {row['area']}", row["partner"]
    words = {
        "exchange": f"{area} with " + (f"area {partner}" if partner != "0" else "outside"),
        "group-sum": f"{area} group {partner}",
        "operator-sum": f"group {partner}",
    }
    return f"{row['kind']} {words.get(row['kind'], area)}"


def told_version(row):
    return f"{row['version']} {row['status']}"


def line_of(rows):
    """A point's cells in the table of `desk run`; the other versions as a list."""
    versions = [row for row in rows if row["version"]]
    first, second = selected(versions)
    settled = [name for name, row in (("run 1", first), ("run 2", second)) if is_settled(row)]
    word = "-" if second is None else "both" if len(settled) == 2 else settled[0] if settled else "no"
    others = [row for row in reversed(versions) if row not in (first, second)]
    cells = ["none" if row is None else told_version(row) for row in (first, second)]
    if second is not None and second is first:
        cells[1] = "as run 1"
    return [rows[0]["point"], series(rows[0]), word, *cells, others]


def fitted(others, room):
    """Versions one by one where there is room for them, at least as wide as the column's name, else by status."""
    whole = ", ".join(map(told_version, others))
    if len(whole) <= max(room, len("other versions")):
        return whole
    statuses = [row["status"] for row in others]
    return ", ".join(f"{status} ({statuses.count(status)})" for status in STATUSES if status in statuses)


def told(points):
    """The table of `desk run` has each point's line."""
    text = written("run")
    head, *lines = text[text.index("\npoint  series ") + 1 :].splitlines()
    places = [head.index(word) for word in ("series", "settled", "run 1", "run 2", "other versions")]
    cells = [[one[a:b].strip() for a, b in zip([0, *places], [*places, None])] for one in lines]
    found = {row[0]: row for row in cells}
    assert list(found) == sorted(found, key=int), "desk run"
    for rows in points:
        *wanted, others = line_of(rows)
        *cells_there, rest = found[wanted[0]]
        assert cells_there == wanted, (cells_there, wanted)
        assert rest == fitted(others, 120 - places[-1]), (rest, others)


def points_of(rows):
    """The rows of each point, its versions rising."""
    numbers = sorted({int(row["point"]) for row in rows})
    return [[row for row in rows if int(row["point"]) == number] for number in numbers]


def counted(points):
    """The versions that count are those that are selected, and each is settled by its status."""
    for rows in points:
        versions = [row for row in rows if row["version"]]
        for run, wanted in enumerate(selected(versions), 1):
            for row in versions:
                assert row[f"run_{run}"] == ("yes" if row is wanted else "no"), row
        for row in versions:
            assert row["settled"] == ("yes" if is_settled(row) else "no"), row


def shown(day, date):
    return f"{day} ({date})" if date else day


def run_lines(row):
    """What `desk run` says of a run: whether it is closed and issued, how many of its versions are settled, when that was."""
    state = "issued" if row["issued"] == "yes" else "closed, not issued" if row["closed"] == "yes" else "not closed"
    many = f"{row['settled']} of {row['selected']} selected versions settled"
    many = {"0": "no version selected", "1": many.replace("versions", "version")}.get(row["selected"], many)
    lines = [f"run {row['run']} is {state}: {many}"]
    closed, issued = (shown(row[f"{act}_day"], row[f"{act}_date"]) for act in ("closed", "issued"))
    if issued:
        lines.append(f"    closed on day {closed}, issued on day {issued}")
    elif closed:
        lines.append(f"    closed on day {closed}; to send its statuses: issue run={row['run']} day=")
    return lines


def acted(points):
    """Each run's lines in `desk run` are those of its row, which counts what the list of points says."""
    text = written("run").splitlines()
    for row in csv.DictReader(io.StringIO(written("runs", "--csv"))):
        assert (row["closed"] == "yes") == bool(row["closed_day"]) and (row["issued"] == "yes") == bool(row["issued_day"]), row
        first, *rest = run_lines(row)
        at = [place for place, line in enumerate(text) if line.startswith(first)]
        assert len(at) == 1, (first, at)
        assert text[at[0] + 1].startswith(rest[0]) if rest else not text[at[0] + 1].startswith(" "), (first, rest)
        if not ASKED.group:
            counted_rows = [one for rows in points for one in rows if one[f"run_{row['run']}"] == "yes"]
            settled_rows = [one for one in counted_rows if one["settled"] == "yes"]
            assert (len(counted_rows), len(settled_rows)) == (int(row["selected"]), int(row["settled"])), row


def moved_line(first, second):
    """What `desk run` says of a delta that has two groups, without its day."""
    whose = "T" if first["area"] == "0" else f"area {first['area']}"
    delta = f"{int(second['delta']):,}".replace(",", " ")
    return f"{whose}, run 2: group {second['group']} in the place of {first['group']}, which run 1 keeps; {delta} Wh"


def moved(first, second):
    """`desk run` names the deltas that have two groups, and no others."""
    wanted = [moved_line(*two) for two in zip(first, second) if two[0]["group"] != two[1]["group"]]
    text = re.search(r"^\d+ deltas? (?:has|have) another group in run 2\n((?:    .*\n)*)", written("run"), re.M)
    lines = text.group(1).splitlines() if text else []
    assert [re.sub(r"^    day \d+( \(\S+\))?: ", "", line) for line in lines] == wanted, (lines, wanted)
    assert not text or int(text.group(0).split()[0]) == len(wanted) > 0, text.group(0)


def booked():
    """Each run's deltas, and the groups that have nothing else."""
    rows = list(csv.DictReader(io.StringIO(written("deltas", "--all", "--csv"))))
    runs = [[row for row in rows if row["run"] == run] for run in ("1", "2")]
    assert [[row["area"] for row in run] for run in runs] == [[str(area) for area in range(17)]] * 2, len(rows)
    for run, other in (runs, runs[::-1]):
        for row, there in zip(run, other):
            assert row["other_run_group"] == ("" if row["group"] == there["group"] else there["group"]), row
    sums = {row["partner"] for row in csv.DictReader(io.StringIO(written("points", "--csv"))) if row["kind"] in ("group-sum", "operator-sum")}
    for (run, group), figures in taken().items():
        deltas = [int(row["delta"]) for row in runs[run - 1] if row["group"] == str(group)]
        assert str(group) in sums or sum(figures) == sum(deltas), (run, group, sum(figures), deltas)
    moved(*runs)


def lodged():
    """The schedules of the text by group; a later line replaces an earlier one."""
    with open(ASKED.schedules, encoding="utf-8") as file:
        lines = re.findall(r"^lodge group=(\d+) energies=(\S+)", file.read(), re.M)
    return {int(group): [int(energy) for energy in energies.split(",")] for group, energies in lines}


def taken():
    """The figures by run and group, in the order of their quarter hours."""
    figures = {}
    for row in csv.DictReader(io.StringIO(written("figures", "--all", "--csv"))):
        figures.setdefault((int(row["run"]), int(row["group"])), []).append(int(row["figure"]))
    return figures


def report_of(schedule, figures):
    """Schedule, figure, surplus and shortfall, each summed over the month."""
    apart = [planned - took for planned, took in zip(schedule, figures)]
    return [sum(schedule), sum(figures), sum(max(0, one) for one in apart), sum(max(0, -one) for one in apart)]


def reported():
    """Each report is what document 02 says, and so are both sides of their sum."""
    schedules, figures = lodged(), taken()
    nothing = [0] * len(figures[1, 1])
    wanted = {(run, group): report_of(schedules.get(group, nothing), row) for (run, group), row in figures.items()}
    rows = list(csv.reader(io.StringIO(written("report", "--all", "--csv"))))[1:]
    assert [(int(run), int(group)) for run, group, *_ in rows] == sorted(wanted), len(rows)
    for run, group, whether, *sums in rows:
        assert whether == ("yes" if int(group) in schedules else "no"), (run, group, whether)
        assert list(map(int, sums)) == wanted[int(run), int(group)], (run, group, sums)
    sides(wanted)


def sides(reports):
    """Below the list: the figures of all groups add up to the outside exchange."""
    lines = written("report").split("\n\n")[1].splitlines()
    assert lines.pop() == "both sides are equal in run 1 and in run 2", lines
    table = {label.strip(): cells for label, *cells in (re.split(r"  +", line.rstrip()) for line in map(str.strip, lines))}
    for run in (1, 2):
        schedule, figure, surplus, shortfall = map(sum, zip(*(sums for (of, _), sums in reports.items() if of == run)))
        wanted = {
            "surplus less shortfall": surplus - shortfall,
            "schedules less outside exchange": schedule - figure,
            "schedules": schedule,
            "outside exchange": figure,
        }
        shown = {label: int(table[label][run - 1].replace(" ", "")) for label in wanted}
        assert shown == wanted and surplus - shortfall == schedule - figure, (run, shown, wanted)


def main():
    for name, order in ORDER.items():
        if name == "report" and not ASKED.schedules:
            continue
        table = listed(name, "--csv")
        assert table == listed(name, "--csv"), name
        head, *rows = csv.reader(io.StringIO(table))
        objects = json.loads(listed(name, "--json"))
        assert [list(one) for one in objects] == [head] * len(rows), name
        assert [["" if cell is None else str(cell) for cell in one.values()] for one in objects] == rows, name
        # Columns of a text stand two blanks apart at least; a cell may be empty.
        first, *lines = listed(name).split("\n\n")[0].splitlines()
        assert first.split() == [word for column in head for word in column.split("_")], name
        shown = [[re.sub(r"(?<=\d) (?=\d{3})", "", cell) for cell in re.split(r"  +", line.strip()) if cell] for line in lines]
        assert shown == [[cell for cell in row if cell] for row in rows], name
        keys = [tuple(int(row[head.index(column)] or 0) for column in order) for row in rows]
        assert all(one < next for one, next in zip(keys, keys[1:])), name
    points = points_of(list(csv.DictReader(io.StringIO(listed("points", "--csv")))))
    counted(points)
    told(points)
    acted(points)
    booked()
    if ASKED.schedules:
        reported()


main()
