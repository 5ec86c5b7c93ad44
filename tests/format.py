#!/usr/bin/env python3
"""Holds docs/FORMAT.md to the header, the examples and the desk program: each table of the page, row by row.

What is read here is read by the page's own rules, written down once more: numbers, energies, and the fields of each kind as its table has them.
"""

import pathlib
import re
import subprocess
import sys

TOP = pathlib.Path(__file__).resolve().parent.parent
PAGE = (TOP / "docs/FORMAT.md").read_text()
HEADER = (TOP / "include/emorizugu.h").read_text()


def wanted(what, told, found):
    """Ends the test where the page tells something else."""
    if told != found:
        sys.exit(f"docs/FORMAT.md: {what}: {told!r} is told, and it is {found!r}")


def table(*head):
    """The rows of the page's table with this head."""
    lines = iter(PAGE.splitlines())
    rows = []
    for line in lines:
        if line == f"| {' | '.join(head)} |":
            next(lines)
            for row in lines:
                if not row.startswith("|"):
                    break
                rows.append([cell.strip() for cell in row.strip("|").split("|")])
    if not rows:
        sys.exit(f"docs/FORMAT.md: there is no table of {', '.join(head)}")
    return rows


def encoded(number):
    """Groups of seven bits, lowest first, top bit set when more follow."""
    groups = [number & 127]
    while number := number >> 7:
        groups.append(number & 127)
    return bytes([group | 128 for group in groups[:-1]] + groups[-1:])


def sent(energy):
    """The number that an energy is sent as."""
    return 2 * energy if energy >= 0 else -2 * energy - 1


def decoded(file, at):
    """The number at an offset and where it ends; None where the file ends in it."""
    number = shift = 0
    while at < len(file):
        number |= (file[at] & 127) << shift
        at, shift = at + 1, shift + 7
        if file[at - 1] < 128:
            return number, at
    return None


def numbers():
    """Both tables of numbers."""
    for number, told in table("number", "bytes"):
        wanted(f"the bytes of {number}", bytes.fromhex(told), encoded(int(number)))
    for energy, number, told in table("energy", "number", "bytes"):
        wanted(f"the number of {energy}", int(number), sent(int(energy)))
        wanted(f"the bytes of {energy}", bytes.fromhex(told), encoded(int(number)))


def kinds():
    """The table of calls: by kind its name and its fields. The header has the same names in the same order."""
    found = {}
    names = re.findall(r"EMORIZUGU_\w+", re.search(r"enum \{\s*EMORIZUGU_OPEN = 1,.*?\}", HEADER, re.S)[0])
    for kind, name, fields in table("kind", "call", "fields"):
        wanted(f"kind {kind}", f"EMORIZUGU_{name.upper()}", names[int(kind) - 1])
        fields = [field.split(" ")[0] for field in re.sub(r"\(.*\)", "", fields.split(";")[0]).split(", ")]
        prefix = f"EMORIZUGU_{name.upper()}_"
        places = re.search(rf"enum \{{\s*({prefix}\w+\W.*?){prefix}FIELDS", HEADER, re.S)[1]
        places = re.findall(rf"{prefix}(\w+)", re.sub(r"/\*.*?\*/", "", places, flags=re.S))
        wanted(f"the fields of {name}", fields, [place.lower() for place in places])
        found[int(kind)] = name, fields
    wanted("the kinds", list(found), list(range(1, len(names) + 1)))
    return found


def counted(kinds, kind):
    """How many numbers a kind has as its fields; an opening's groups are 17."""
    return sum(17 if field == "groups" else 1 for field in kinds[kind][1])


def calls(file, kinds):
    """The offsets of a file's calls by the page's table, and behind them where it ends; None for that where it cannot be taken."""
    at, offsets = 0, []
    while at < len(file):
        start = at
        kind = decoded(file, at)
        if kind is None or kind[0] not in kinds:
            return offsets, None
        left, at = counted(kinds, kind[0]) + (kind[0] == 4), kind[1]
        while left > 0:
            step = decoded(file, at)
            if step is None:
                return offsets, None
            left, at = left - 1, step[1]
            if left == 0 and kind[0] == 4:
                left, kind = step[0], (0, 0)
        offsets.append(start)
    return offsets, at


def example(kinds):
    """The worked example: its bytes are the file's, its numbers are its bytes, its words are the table's."""
    file = (TOP / "examples/example.msg").read_bytes()
    at, kind, left, begun = 0, 0, [], []
    for offset, told, words in table("offset", "bytes", "what it is"):
        told = bytes.fromhex(told)
        wanted(f"offset {at}", int(offset), at)
        wanted(f"the bytes at {at}", told, file[at : at + len(told)])
        if words.startswith("kind "):
            wanted(f"the fields left at {at}", left, [])
            kind = decoded(file, at)[0]
            begun.append(at)
            wanted(f"the call at {at}", words, f"kind {kind}, {kinds[kind][0]}")
            left = [name for name in kinds[kind][1] for _ in range(17 if name == "groups" else 1)]
            left += ["count", "energy"] if kind == 4 else []
            at += len(told)
            continue
        name, value = words.split(": ")
        end = at + len(told)
        while at < end:
            number, at = decoded(file, at)
            field = left.pop(0)
            wanted(f"the field before {at}", name.split(" of ")[0].rstrip("s"), field.rstrip("s"))
            wanted(f"{words}, before {at}", sent(int(value)) if field == "energy" else int(value), number)
    wanted("the fields at the end", left, [])
    wanted("the length", at, len(file))
    wanted("the calls", begun, calls(file, kinds)[0])
    wanted("the length told", re.search(r"`examples/example.msg`, (\d+) bytes", PAGE)[1], str(len(file)))
    answers = re.search(r"answers the four calls with (\d+), (\d+), (\d+) and (\d+)", PAGE).groups()
    lines = [line.split(" ") for line in output(file)]
    wanted("the answers", [list(pair) for pair in zip("1234", answers)], [line for line in lines if line[0].isdigit()])


def output(file):
    """The lines of the desk program."""
    done = subprocess.run([TOP / "run", "-"], input=file, stdout=subprocess.PIPE, stderr=subprocess.PIPE, check=True)
    return done.stdout.decode().splitlines()


def damage():
    """The table of damage, by the desk program."""
    for told, number, offset, _ in table("bytes", "number", "offset", "why"):
        wanted(f"the end of {told}", f"F {number} {offset}", output(bytes.fromhex(told))[-1])


def files(kinds):
    """Every example has the calls that the desk program answers."""
    for path in sorted((TOP / "examples").glob("*.msg")):
        file = path.read_bytes()
        offsets, end = calls(file, kinds)
        lines = output(file)
        if lines and lines[-1].startswith("F"):
            _, _, offset = lines[-1].split(" ")
            wanted(f"the calls of {path.name} before the damage", [o for o in offsets if o < int(offset)], offsets[: len(lines) - 1])
        else:
            answered = sum(line[0].isdigit() for line in lines)
            wanted(f"the calls of {path.name}", (len(offsets), end), (answered, len(file)))


numbers()
KINDS = kinds()
example(KINDS)
damage()
files(KINDS)
