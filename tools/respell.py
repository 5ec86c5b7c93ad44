#!/usr/bin/env python3
"""Respells the repository's own names as today's Rattle spells them: a definition's words in snake case, as `most_quarters` for
`mostQuarters`; a record's fields with underscores, as `last_day` for `last-day`; a law's words with hyphens between them, also
where the kit's port.py, which ran before it, gave it underscores because a law of the library has the same words.

    python3 tools/respell.py [FOLDER]

Run once, behind port.py, at the top of the repository. It goes over the .antt and .rt files of crates/ and prints names that fall
together in one file. Functions of src/, exported names, strings, types, modules and operators keep their names.
"""
import pathlib
import re
import sys

FIELDS = """
ascension-2049 book-size book-small corpus-2049 date-range day-before day-range few-quarters first-place first-weekday
friday-2049 group-high group-low last-day last-place leap-years may-2020 may-2023 may-2025 may-2045 monday-2049
next-digits next-place next-weekday no-date no-day no-february no-month none-left not-below not-below-zero
only-no-date only-no-day pentecost-2049 quarter-high quarter-low run-high run-low schedules-size schedules-small
so-far too-early twenty-second twenty-third week-later-2049 year-behind year-end zero-last
""".split()

LAWS = """
a-block a-byte above-more add-at add-read add-row add-wide after-front again-kept alike-at all-append all-held all-in
all-map all-more all-none all-room all-said all-same all-set all-snoc all-then all-there and-both and-left and-right
any-false any-none any-snoc area-in area-small as-plain at-first at-last at-least at-more at-most at-next at-none
at-of at-other at-second back-more best-none both-own by-answer by-count by-first by-kind by-length by-order by-side
byte-at bytes-fit bytes-left bytes-rest closed-after copied-more count-held count-room differ-same div-most each-line
each-same encode-one ends-at entry-next enum-told few-words field-at fields-fit filled-more first-alone first-fits
first-found first-plain first-run first-taken fit-next fits-in found-in found-none fresh-kept fresh-step from-first
from-in given-back goes-on goes-one has-first has-value head-few holds-agree holds-read in-head in-order is-one
is-open is-row kept-on kind-at kind-fits kind-ok known-next last-as le-of-lt left-alone left-by left-in length-moved
length-over length-part lent-at lent-length lies-in lies-out map-same minus-minus mul-at mul-wide new-in next-of
no-kind no-line no-number no-row no-such no-value none-above none-first none-passed none-yet not-same number-in
one-answer one-byte one-less one-line one-more only-at open-free or-left or-right or-same others-keep over-below
over-reads over-word own-first own-in part-at part-length part-small passed-is passed-none passed-to past-after
pick-next picked-all picks-more place-at place-in point-at put-as put-both put-first put-last put-other put-same
put-then put-whole read-all read-back read-keeps read-one read-plain read-short read-step reads-held row-before
row-below row-cons row-ends row-fits row-in row-is row-more row-plain row-put row-room row-within rows-apart rows-fit
rows-more rows-none rows-same run-in run-ok said-goes same-after same-bytes same-count same-digits same-flags
same-length same-number same-place same-read same-row same-sum same-test same-total second-at second-plain second-run
signed-reads signed-word since-of size-none sound-more start-small step-keeps stored-more sub-row sum-is sum-more
sum-same tail-none take-past taken-own takes-first to-in told-is too-few too-small turn-in turn-is turned-zero
two-bytes walk-more walk-none way-back whole-of within-low word-below word-even word-first word-fits word-small
words-more words-of write-keeps write-step written-read yes-of zero-in zero-or zero-word
""".split()

TOP = pathlib.Path(sys.argv[1] if len(sys.argv) > 1 else ".")
WORD = r"[\w₀-₉'ℕℤ]"
TOKEN = re.compile(rf"(?<![\w₀-₉'ℕℤ-]){WORD}+(?:-{WORD}+)*")
HUMP = re.compile(r"(?<=[a-z0-9₀-₉])(?=[A-Z])")
STRING = re.compile(r'"(?:[^"\\\n]|\\.)*"')
UNDERSCORED = {law.replace("-", "_"): law for law in LAWS}


def snake(word):
    """`mostQuarters` is `most_quarters`; a word that begins with a capital is a type, a module or a constant."""
    if not re.match(r"[a-z]", word) or not HUMP.search(word):
        return word
    return re.sub(r"[A-Z]", lambda m: m.group(0).lower(), HUMP.sub("_", word))


def main():
    used, changed = {}, 0
    for f in sorted(p for p in (TOP / "crates").rglob("*") if p.suffix in (".antt", ".rt") and "out" not in p.parts):
        text = f.read_text()
        strings = []

        def keep(m):
            strings.append(m.group(0))
            return f"\0{len(strings) - 1}\0"

        def turn(m):
            old = m.group(0)
            dotted = m.start() > 0 and body[m.start() - 1] == "."
            if old in FIELDS:
                new = old.replace("-", "_")
            elif f.suffix == ".antt" and old in UNDERSCORED and not dotted:
                new = UNDERSCORED[old]
            else:
                new = "-".join(snake(w) for w in old.split("-"))
            if not dotted:
                used.setdefault((f, new), set()).add(old)
            return new

        body = STRING.sub(keep, text) if f.suffix == ".rt" else text
        body = TOKEN.sub(turn, body)
        body = re.sub("\0(\\d+)\0", lambda m: strings[int(m.group(1))], body)
        if body != text:
            f.write_text(body)
            changed += 1
    print(f"{changed} files changed")
    for (f, new), olds in sorted(used.items()):
        if len(olds) > 1:
            print(f"fall together in {f}: {' '.join(sorted(olds))} -> {new}")


main()
