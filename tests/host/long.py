#!/usr/bin/env python3
"""Logs of more than 65,536 events, told in a few lines, with what the reference says of them: ranges without an upper end, and the largest v there is.

    python3 tests/host/long.py            write tests/host/long.txt
    python3 tests/host/long.py --check    say whether it is what would be written

A case is a line 'case' with its title, a line 'sheet' with the sheet's bytes, and lines of stretches: names in turn, separated by commas, c for the clock; how often they come; their time; and the answer
due to each record of the stretch: answer, refusal, mask, place. The host tests make the records. The reference judges a whole list in a moment, but not each beginning of it: so it is asked at a
stretch's first record, at its last and at one between them. What is broken stays so, and only a stretch of one record breaks.
"""
import os
import sys
from collections import namedtuple

HERE = os.path.dirname(os.path.abspath(__file__))
sys.dont_write_bytecode = True
sys.path.insert(0, os.path.join(HERE, "..", "..", "reference"))

from guard import ALL, ALL_SHUFFLED, ANY_SHUFFLED, BROKEN, CLOCK, OPEN, WHOLE, Event, Fragment, Range, Rule, Sheet, names_of, status
from sheets import written

LONG = os.path.join(HERE, "long.txt")
Stretch = namedtuple("Stretch", "names count time")
TRIGGER = 2


def before(kind, *fragments):
    return Rule(kind, fragments, (), TRIGGER, 0)


def row(name, u, v):
    return Fragment(ALL, (Range(name, u, v),))


def pair(join, first, second):
    return Fragment(join, (Range(0, *first), Range(1, *second)))


def sheet(*rules):
    return Sheet(sum({1 << r.name for rule in rules for f in rule.q for r in f.ranges}), rules, 2)


ENDLESS = sheet(before(1, row(0, 3, 0)))
LARGEST_U = sheet(before(1, row(0, 65535, 0)))
GROWING = sheet(Rule(2, (row(0, 2, 0),), (row(9, 1, 2),), 0, 10))
ANSWERED = sheet(Rule(2, (row(0, 1, 1),), (row(9, 1, 0),), 0, 10))
ONCE_MORE = [Stretch((0,), 1, 0)]
THEN = [Stretch((TRIGGER,), 1, 0)]


def of(count, *names):
    return [Stretch(names, count, 0)]


CASES = [
    ("65,537 of 0[3,0] and the trigger, and a round that is one short", ENDLESS, of(65537, 0) + THEN + of(2, 0) + THEN),
    ("65,535 and then 65,536 of 0[3,0], each with its trigger", ENDLESS, of(65535, 0) + THEN + of(65536, 0) + THEN),
    ("65,536 of 0[3,65535]", sheet(before(1, row(0, 3, 65535))), of(65535, 0) + ONCE_MORE),
    ("65,535 of 0[3,65535] and the trigger", sheet(before(1, row(0, 3, 65535))), of(65535, 0) + THEN),
    ("0[3,0] beside 0[3,65535]: the second breaks", sheet(before(0, row(0, 3, 0)), before(1, row(0, 3, 65535)), before(1, row(0, 1, 0))), of(65535, 0) + ONCE_MORE),
    ("65,534 of 0[65535,0] and the trigger", LARGEST_U, of(65534, 0) + THEN),
    ("65,535 of 0[65535,0] and the trigger", LARGEST_U, of(65535, 0) + THEN),
    ("65,537 of 0[65535,0] and the trigger", LARGEST_U, of(65537, 0) + THEN),
    ("0[3,0] and 1[1,1] in a row: after 1 no 0", sheet(before(0, pair(ALL, (3, 0), (1, 1)))), of(65537, 0) + of(1, 1) + ONCE_MORE),
    ("0[3,0] and 1[2,0] shuffled, in turn", sheet(before(1, pair(ALL_SHUFFLED, (3, 0), (2, 0)))), of(65537, 0, 1) + THEN + of(3, 0) + of(1, 1) + THEN),
    ("0[3,0] or 1[2,65535] shuffled, one 1 too few", sheet(before(1, pair(ANY_SHUFFLED, (3, 0), (2, 65535)))), of(65537, 0) + of(1, 1) + of(65536, 0) + THEN),
    ("a P of 0[2,0] holds its deadline off, and is answered", GROWING,
     of(65537, 0) + [Stretch((CLOCK,), 1, 99), Stretch((0,), 1, 100), Stretch((9,), 2, 110), Stretch((9,), 1, 110)]),
    ("a P of 0[2,0] answered late", GROWING, of(65537, 0) + [Stretch((9,), 1, 11)]),
    ("a Q of 9[1,0] in time, the clock, and one more", ANSWERED, of(1, 0) + [Stretch((9,), 65537, 10), Stretch((CLOCK,), 1, 11), Stretch((9,), 1, 11)]),
]


def judged(rules, events):
    """The answer due to the last of these events: answer, refusal, mask, place."""
    masks = {WHOLE: 0, OPEN: 0, BROKEN: 0}
    for number, rule in enumerate(rules):
        own = names_of(rule)
        masks[status(rule, [e for e in events if e.name in own], events[-1].time)] |= 1 << number
    if masks[BROKEN]:
        return BROKEN, 0, masks[BROKEN], len(events)
    return (OPEN if masks[OPEN] else WHOLE), 0, masks[OPEN], 0


def told(rules, stretches):
    events = []
    for stretch in stretches:
        start, records = len(events), [Event(name, stretch.time) for name in stretch.names] * stretch.count
        events += records
        dues = {judged(rules, events[:place]) for place in {start + 1, start + (len(records) + 1) // 2, len(events)}}
        assert len(dues) == 1 and (len(records) == 1 or min(dues)[0] != BROKEN), (stretch, dues)
        names = ",".join("c" if name == CLOCK else str(name) for name in stretch.names)
        yield " ".join([names, str(stretch.count), str(stretch.time)] + [str(n) for n in min(dues)])


def lines():
    yield "# Made by long.py, which says what a line is."
    for title, book, stretches in CASES:
        yield "case " + title
        yield "sheet " + written(book)[0].hex().upper()
        yield from told(book.rules, stretches)


def main():
    text = "".join(line + "\n" for line in lines())
    if sys.argv[1:] != ["--check"]:
        with open(LONG, "w") as f:
            f.write(text)
        return
    with open(LONG) as f:
        if f.read() != text:
            sys.exit("tests/host/long.txt is not what is due")
    print("long logs: %d, each with more than 65,533 events of one name" % len(CASES))


main()
