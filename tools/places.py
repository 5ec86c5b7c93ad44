#!/usr/bin/env python3
"""places.py [POINT]: the places in crates/*/src that docs/DESIGN-PASS.md counts, a line each, and how many there are of each kind.

What is matched is told beside each count; where a place is kept, docs/DESIGN-PASS.md says why."""
import difflib
import itertools
import pathlib
import re
import sys

TOP = pathlib.Path(__file__).resolve().parent.parent
SOURCES = sorted(TOP.glob("crates/*/src/**/*.rt"))
TEXTS = {path: path.read_text() for path in SOURCES}


def name_of(path):
    return str(path.relative_to(TOP / "crates"))


def line_at(text, at):
    return text.count("\n", 0, at) + 1


def code(text):
    """The text with comments and `ghost use` lines blanked, offsets kept."""
    text = re.sub(r"//[^\n]*", lambda m: " " * len(m.group()), text)
    return re.sub(r"ghost use [^;]*;", lambda m: re.sub(r"[^\n]", " ", m.group()), text)


CODES = {path: code(text) for path, text in TEXTS.items()}


def matches(pattern, flags=re.M):
    for path, text in CODES.items():
        for match in re.finditer(pattern, text, flags):
            yield path, line_at(text, match.start()), " ".join(match.group().split())


def functions():
    """Each function: file, line, name, parameters, result, clauses, body."""
    head = re.compile(r"^( *)(pub )?(extern \"C\" )?fn (\w+)(<[^>]*>)?\(", re.M)
    for path, text in CODES.items():
        for match in head.finditer(text):
            depth, at = 1, match.end()
            while depth:
                depth += {"(": 1, ")": -1}.get(text[at], 0)
                at += 1
            indent = match.group(1)
            opening = text.find("\n" + indent + "{\n", at)
            inline = text.find(" {\n", at)
            if opening < 0 or (0 <= inline < opening and "\n" not in text[at:inline]):
                opening = inline
            closing = text.find("\n" + indent + "}", opening + 1)
            yield (path, line_at(text, match.start()), match.group(4), text[match.end():at - 1], text[at:opening], text[opening:closing])


FUNCTIONS = list(functions())


def enums():
    for path, line, text in matches(r"\benum (\w+) \{.*?^\}", re.M | re.S):
        name = re.match(r"enum (\w+)", text).group(1)
        cases = re.findall(r"\b([A-Z]\w*)\b(?=\s*[,({])", text.split("{", 1)[1])
        depth, own = 0, []
        for piece in re.finditer(r"[{}()]|\b[A-Z]\w*\b", text.split("{", 1)[1]):
            token = piece.group()
            if token in "{(":
                depth += 1
            elif token in "})":
                depth -= 1
            elif depth == 0:
                own.append(token)
        yield path, line, name, own


def two_cases():
    """Point 1: own enums of two cases of which one at least holds nothing, or one is a refusal."""
    for path, line, name, cases in enums():
        if len(cases) == 2:
            yield path, line, f"enum {name}: {', '.join(cases)}"


def flag_beside():
    """Point 1: structs with a flag among their fields."""
    for path, line, text in matches(r"\bstruct (\w+) \{.*?^\}", re.M | re.S):
        flags = re.findall(r"(\w+): bool", text)
        if flags:
            yield path, line, re.match(r"struct \w+", text).group() + ": " + ", ".join(flags)


def number_codes():
    """Point 1: parameters and fields that are a number for one of a few cases, and constants that are such numbers."""
    words = r"kind|run|verdict|which|op|store|refusal|cause"
    for path, line, name, parameters, result, _ in FUNCTIONS:
        found = re.findall(rf"\b({words}): (?:u64|usize)\b", parameters)
        if found:
            yield path, line, f"{name}({', '.join(found)})"
        elif re.search(r"refusal", name) and "-> u64" in result:
            yield path, line, f"{name} -> u64"


def tokens(body):
    return re.findall(r"\w+|[^\s\w]", body)


def twins():
    """Point 2: pairs of functions of at least twelve tokens whose bodies are the same to nine tenths, names and numbers of their own left out."""
    shapes = []
    for path, line, name, parameters, result, body in FUNCTIONS:
        known = {}
        shape = []
        for token in tokens(body):
            if re.match(r"[a-zA-Z_0-9]", token) and token not in KEPT:
                token = known.setdefault(token, f"x{len(known)}")
            shape.append(token)
        if len(shape) >= 30:
            shapes.append((path, line, name, shape))
    for a, b in itertools.combinations(shapes, 2):
        if min(len(a[3]), len(b[3])) < 0.8 * max(len(a[3]), len(b[3])):
            continue
        matcher = difflib.SequenceMatcher(None, a[3], b[3], autojunk=False)
        if matcher.quick_ratio() >= 0.9 and matcher.ratio() >= 0.9:
            yield a[0], a[1], f"{a[2]} ~ {name_of(b[0])}:{b[1]}: {b[2]}"


KEPT = set("if else match while for in let mut return fn as usize u64 u8 u16 bool true false pub struct enum".split())


def loops():
    """Point 3: `while`."""
    yield from matches(r"^ *while [^{]*")


def indexed():
    """Point 3: `for` over a range whose counter is an index in the body."""
    for path, text in CODES.items():
        for match in re.finditer(r"^( *)for (\w+) in [^{\n]*\.\.[^{\n]*\{\n(.*?)^\1\}", text, re.M | re.S):
            if re.search(rf"\[[^\]]*\b{match.group(2)}\b[^\]]*\]", match.group(3)):
                yield path, line_at(text, match.start()), match.group().split("\n")[0].strip()


def conversions():
    """Point 4: functions of one value by value that give a number, a flag or a case for it, and comparisons by fields."""
    for path, line, name, parameters, result, body in FUNCTIONS:
        if re.fullmatch(r"\s*\w+: \w+\s*", parameters) and re.search(r"-> (u64|u8|usize|bool|\w+)\b", result):
            statements = body.strip(" {}\n")
            if re.search(r"\bmatch\b", body) or re.fullmatch(r"\w+ as \w+|if \w+ \{ 1 \} else \{ 0 \}|\w+(\.\d)?( as \w+)?", statements) or "== 1" in statements and "(" in statements:
                yield path, line, f"{name}({parameters.strip()}) {result.split('ensures')[0].strip()}"


def printed():
    """Point 4: functions that put text into a buffer by hand."""
    for path, line, name, parameters, _, _ in FUNCTIONS:
        if re.search(r"out: &mut \[u8\],\s*at: usize", parameters):
            yield path, line, name


def facts():
    """Point 5: words that stand in a `requires` of three functions or more."""
    found = {}
    for path, line, name, _, clauses, _ in FUNCTIONS:
        words = set()
        for clause in re.findall(r"requires ?\w* ?\{(.*)\}", clauses):
            words |= set(re.findall(r"\b([A-Z]\w+|\w+_ok)\b", clause))
        for word in words:
            found.setdefault(word, []).append((path, line, name))
    for word, places in sorted(found.items()):
        if len(places) >= 3:
            for path, line, name in places:
                yield path, line, f"{word}: {name}"


def travelling():
    """Point 5: three parameters with the same names and types in five functions or more."""
    found = {}
    for path, line, name, parameters, _, _ in FUNCTIONS:
        given = re.findall(r"(\w+): ([^,]+(?:\[[^\]]*\])?)", parameters)
        for group in itertools.combinations(sorted(set((n, " ".join(t.split())) for n, t in given)), 3):
            found.setdefault(group, []).append((path, line, name))
    kept = {g: p for g, p in found.items() if len(p) >= 5}
    for group, places in sorted(kept.items(), key=lambda item: -len(item[1])):
        yield places[0][0], places[0][1], f"{', '.join(n for n, _ in group)}: {len(places)} functions"


def buffers():
    """Point 6: a buffer with a place or a count beside it, in parameters, fields and results."""
    for path, line, name, parameters, _, _ in FUNCTIONS:
        if re.search(r"(out|output): &mut \[\w+\],\s*at: usize|at: usize,\s*(n|q): usize|versions: \[VersionRecord; VERSIONS as usize\],\s*count: u64", parameters):
            yield path, line, name
    yield from matches(r"pub (count|used|read|answered): (u64|usize)")


def switches():
    """Point 7: chains of tests of one number against its cases, and matches on a number."""
    for path, line, name, _, _, body in FUNCTIONS:
        tests = re.findall(r"\bif (\w+) == [A-Z0-9]\w* \{", body)
        for word in sorted(set(tests)):
            if tests.count(word) >= 2:
                yield path, line, f"{name}: {tests.count(word)} tests of {word}"
        if re.search(r"match \w+ \{\s*\d+ =>", body):
            yield path, line, f"{name}: match on a number"


def answers():
    """Point 8: answers of one word or search in proofs/, for each crate."""
    for crate in sorted(TOP.glob("crates/*")):
        found = 0
        for path in crate.glob("proofs/**/Answers.antt"):
            found += len(re.findall(r"^[\w-]+( \w+)* = (?:tt|refl|search .*|omega arith)$", path.read_text(), re.M))
        if found:
            yield crate / "src", 0, f"{found} answers"


POINTS = {
    "1": [two_cases, flag_beside, number_codes],
    "2": [twins],
    "3": [loops, indexed],
    "4": [conversions, printed],
    "5": [facts, travelling],
    "6": [buffers],
    "7": [switches],
    "8": [answers],
}


def main():
    wanted = sys.argv[1:] or sorted(POINTS)
    for point in wanted:
        if point not in POINTS:
            sys.exit(f"places.py: no point {point}; points are 1 to 8")
        for kind in POINTS[point]:
            places = list(kind())
            print(f"point {point}: {len(places)} of: {kind.__doc__.split(': ', 1)[1]}")
            for path, line, text in places:
                print(f"    {name_of(path)}{':%d' % line if line else ''}: {text}")


if __name__ == "__main__":
    main()
