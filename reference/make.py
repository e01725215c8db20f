"""Makes the cases that the program `vectors` runs through the guard, and the rounds that it plays, with what is due for each.

    python3 make.py FOLDER

writes FOLDER/data/cases.bin, FOLDER/data/plays.bin, FOLDER/cases.txt and FOLDER/stdout. Everything
follows from SEED: two runs write the same bytes. The format of cases.bin (all numbers little-endian):

    u32 number of cases, u32 number of cases to be shown, which come first; then each case:
    u16 length of the sheet, the sheet, u16 length of the log, the log, u32 budget,
    the 12 bytes due, u8 cause: what the due break came by (0 none, 1 an own event of a rule in the
    mask, 2 an event foreign to those rules, 3 a clock reading)

and of plays.bin:

    u32 number of sheets; then each sheet: u16 length, the sheet, u16 number of its plays; then each of them:
    u16 length of the choice, the choice, u16 length of the output, u32 rule, u32 time,
    u64 the number of records due, or 2^64 - 17 or 2^64 - 18, u16 length of the records, the records
"""

import itertools
import os
import random
import struct
import sys
from collections import Counter, namedtuple

import guard
import playing
import plays
import reused
import words
import writing
from endless import SCENARIOS, endless_cases
from guard import (ALL, ALL_SHUFFLED, ANY, ANY_SHUFFLED, BROKEN, CLOCK, IN_ANY_MIX, JOINS, MOST, OPEN, REFUSED, Fragment, Range,
                   Refused, Rule, Sheet)
from logs import deadline_log, log_bytes, some_log, with_refusal
from sheets import (FAULTS, NAME_FAULTS, VERSION_FAULTS, Dice, faulty, largest_sheet, prolonged, some_sheet, truncated, twice_faulty,
                    written)

SEED = 20161114
Case = namedtuple('Case', 'family sheet log budget about', defaults=('',))     # about: the field that a faulty sheet is refused for, or what an endless range meets

ANSWERS = ['whole', 'open', 'broken', 'refused']
CAUSES = ['', 'an own event', 'a foreign event', 'the clock']
REFUSALS = list(range(1, 13)) + [14]
SHOWN = ['traces of document 01', 'traces of change 1', 'traces of change 2']
AT_LEAST = 100


# ---------------------------------------------------------------------------------------------
# The traces of document 01 and of changes 1 and 2, with the five numbers that their words give
# ---------------------------------------------------------------------------------------------

def single(name, u, v):
    return Fragment(ALL, (Range(name, u, v),))


def pair(join, first=(1, 1), second=(1, 1)):
    return Fragment(join, (Range(0, *first), Range(1, *second)))


T = Sheet(2, (Rule(2, (single(0, 2, 3),), (single(1, 1, 2),), 0, 10),))
R = Sheet(0, (Rule(1, (pair(ALL),), (), 2, 0),))
N = Sheet(0, (Rule(0, (pair(ANY),), (), 2, 0),))


def answered(*p, most=2):
    """P, then 9[1,most] within 10, in a sheet of version 2."""
    return Sheet(512, (Rule(2, p, (single(9, 1, most),), 0, 10),), 2)


S = answered(pair(ALL_SHUFFLED, (1, 2), (1, 1)))
A = answered(single(3, 1, 1), pair(ANY, (1, 1), (2, 2)))
O = Sheet(0, (Rule(1, (pair(ANY_SHUFFLED, (2, 3), (1, 2)),), (), 2, 0),), 2)
W = Sheet(0, (Rule(1, (pair(ALL_SHUFFLED, (1, 2), (2, 2)), Fragment(ANY_SHUFFLED, (Range(3, 1, 1), Range(4, 2, 2)))), (), 2, 0),), 2)
E = answered(single(0, 2, 0))
F, G = (answered(pair(join, (1, 0), (1, 1)), most=0) for join in (ALL, ALL_SHUFFLED))
H = Sheet(0, (Rule(1, (single(0, 2, 0), Fragment(ANY_SHUFFLED, (Range(1, 1, 0), Range(3, 2, 2)))), (), 2, 0),), 2)

TRACES = [
    (T, '', '0 0 0 0 0'),
    (T, '0@0 0@5 1@15', '0 0 0 3 0'),
    (T, '0@0 0@5 1@16', '2 0 1 3 3'),
    (T, '0@0 0@5 c@100', '1 0 1 3 0'),
    (T, '0@0 0@1 0@2 c@12', '1 0 1 4 0'),
    (T, '0@0 0@1 0@2 c@13', '2 0 1 4 4'),
    (T, '0@0 0@5 1@15 c@99', '0 0 0 4 0'),
    (T, '0@0 0@5 1@15 c@99 1@99', '2 0 1 5 5'),
    (T, '0@0 1@0', '2 0 1 2 2'),
    (T, '0@0 0@0 0@0 0@0', '2 0 1 4 4'),
    (T, '0@7 1@6', '3 11 1 1 5'),
    (R, '1@0 0@0 2@0', '0 0 0 3 0'),
    (R, '0@0 1@0 0@0', '2 0 1 3 3'),
    (N, '0@0 2@0 2@0 1@0', '0 0 0 4 0'),
    (N, '2@0', '2 0 1 1 1'),
]
SHUFFLED_TRACES = [
    (S, '0@0 1@0 0@0 9@10', '0 0 0 4 0'),
    (S, '0@0 1@0 1@0', '2 0 1 3 3'),
    (S, '0@0 0@0 9@0', '2 0 1 3 3'),
    (S, '0@0 1@0 c@99', '1 0 1 3 0'),
    (S, '0@0 1@0 0@0 c@99', '2 0 1 4 4'),
    (A, '3@0 0@50 1@60 c@70', '1 0 1 4 0'),
    (A, '3@0 1@50 c@999 1@999', '1 0 1 4 0'),
    (O, '0@0 1@0 1@0', '1 0 1 3 0'),
    (O, '0@0 1@0 2@0', '2 0 1 3 3'),
    (O, '0@0 1@0 0@0 2@0', '0 0 0 4 0'),
    (O, '1@0 2@0', '0 0 0 2 0'),
    (O, '2@0', '2 0 1 1 1'),
    (O, '1@0 0@0 1@0 1@0', '2 0 1 4 4'),
    (O, '1@0 1@0 2@0 1@0 1@0 2@0', '0 0 0 6 0'),
    (W, '0@0 1@0 0@0 1@0 4@0 3@0 4@0 2@0', '0 0 0 8 0'),
    (W, '0@0 1@0 0@0 1@0 4@0 3@0 2@0', '2 0 1 7 7'),
]
ENDLESS_TRACES = [
    (E, '0@0 9@0', '2 0 1 2 2'),
    (E, '0@0 0@0 9@10', '0 0 0 3 0'),
    (E, '0@0 0@0 0@0 0@0 0@0 9@10', '0 0 0 6 0'),
    (E, '0@0 0@0 0@0 0@0 c@99', '1 0 1 5 0'),
    (E, '0@0 0@0 0@50 9@60', '0 0 0 4 0'),
    (E, '0@0 0@0 0@50 9@61', '2 0 1 4 4'),
    (E, '0@0 0@0 9@0 9@0 9@0', '2 0 1 5 5'),
    (H, '0@0 0@0 1@0 0@0', '2 0 1 4 4'),
    (F, '0@0 0@0 1@0 0@0', '2 0 1 4 4'),
    (F, '0@0 0@0 1@0 c@11', '2 0 1 4 4'),
    (F, '1@0 0@0 0@0 c@99', '1 0 1 4 0'),
    (G, '0@0 0@0 1@0 0@0 9@10', '0 0 0 5 0'),
    (G, '0@0 0@0 1@0 c@99', '1 0 1 4 0'),
    (H, '0@0 0@0 1@0 3@0 1@0 3@0 1@0 2@0', '0 0 0 8 0'),
    (H, '0@0 0@0 1@0 3@0 1@0 2@0', '2 0 1 6 6'),
    (F, '1@0 0@0 9@1 9@2 9@10 c@99', '0 0 0 6 0'),
    (F, '1@0 0@0 9@1 9@2 9@10 c@99 9@99', '2 0 1 7 7'),
    (F, '1@0 0@0 9@1 9@2 9@10 c@99 0@99', '1 0 1 7 0'),
]
PRINTED_BOOK = bytes.fromhex('4C4F42 0100 0000000000000000 01 01 01 00 02 00000000 00 02 00 0100 0100 01 0100 0100')
PRINTED_TRACE, PRINTED_LINE = '1@5 0@5 2@9 2@10', '2 0 1 4 4'


def observations(text):
    pairs = (word.split('@') for word in text.split())
    return [(int(time), CLOCK if name == 'c' else int(name)) for name, time in pairs]


def settled_cases(family, rows):
    for book, text, due in rows:
        log = log_bytes(observations(text))
        said = ' '.join(map(str, guard.run(book, log, MOST)))
        assert said == due, (text, said, due)
        yield Case(family, book, log, MOST)


def document_cases():
    """The cases to be shown."""
    def rows(traces):
        return [(written(sheet)[0], text, due) for sheet, text, due in traces]
    yield from settled_cases(SHOWN[0], rows(TRACES) + [(PRINTED_BOOK, PRINTED_TRACE, PRINTED_LINE)])
    yield from settled_cases(SHOWN[1], rows(SHUFFLED_TRACES))
    yield from settled_cases(SHOWN[2], rows(ENDLESS_TRACES))


# ---------------------------------------------------------------------------------------------
# Every short log of a few small rules
# ---------------------------------------------------------------------------------------------

def short_logs(names, steps, most):
    """Every log of at most `most` records over these names, each time one of the steps after the last."""
    records = [(name, step) for name in names for step in steps]
    for length in range(most + 1):
        for choice in itertools.product(records, repeat=length):
            times = itertools.accumulate(step for _, step in choice)
            yield [(time, name) for (name, _), time in zip(choice, times)]


def short_cases():
    for kind, join in itertools.product((0, 1), (0, 1)):
        book = written(Sheet(0, (Rule(kind, (pair(join),), (), 2, 0),)))[0]
        for log in short_logs((0, 1, 2), (0,), 4):
            yield Case('every short log', book, log_bytes(log), MOST)
    for t, most in ((10, 4), (0, 3)):
        book = written(Sheet(2, (T.rules[0]._replace(t=t),)))[0]
        for log in short_logs((0, 1, CLOCK), (0, t + 1), most):
            yield Case('every short log', book, log_bytes(log), MOST)
    timed = Rule(2, (single(0, 1, 2),), (pair(1)._replace(ranges=(Range(1, 1, 1), Range(2, 2, 2))),), 0, 5)
    book = written(Sheet(6, (timed,)))[0]
    for log in short_logs((0, 1, 2), (0, 5, 6), 3):
        yield Case('every short log', book, log_bytes(log), MOST)


def short_shuffled_cases():
    """The same of rules with a shuffled fragment: all and any of 0[2,3] and 1[1,2] before 2, and all and any of 0[1,2] and 1[1,1] answered by 9."""
    family = 'every short log, shuffled'
    for kind, join in itertools.product((0, 1), IN_ANY_MIX):
        book = written(Sheet(0, (Rule(kind, (pair(join, (2, 3), (1, 2)),), (), 2, 0),), 2))[0]
        for log in short_logs((0, 1, 2), (0,), 5):
            yield Case(family, book, log_bytes(log), MOST)
    for join in IN_ANY_MIX:
        book = written(answered(pair(join, (1, 2), (1, 1))))[0]
        for log in short_logs((0, 1, 9, CLOCK), (0, 11), 3):
            yield Case(family, book, log_bytes(log), MOST)


def short_endless_cases():
    """The same of rules with a range that has no upper end: 0[1,0] and 1[1,1], by every join, before 2, and answered by 9[1,0]."""
    family = 'every short log, no upper end'
    for kind, join in itertools.product((0, 1), JOINS):
        book = written(Sheet(0, (Rule(kind, (pair(join, (1, 0), (1, 1)),), (), 2, 0),), 2))[0]
        for log in short_logs((0, 1, 2), (0,), 4):
            yield Case(family, book, log_bytes(log), MOST)
    for join in (ANY, ALL_SHUFFLED):
        book = written(answered(pair(join, (1, 0), (1, 1)), most=0))[0]
        for log in short_logs((0, 1, 9, CLOCK), (0, 11), 3):
            yield Case(family, book, log_bytes(log), MOST)


# ---------------------------------------------------------------------------------------------
# Random sheets and logs
# ---------------------------------------------------------------------------------------------

def some_budget(dice, records):
    return dice.pick([MOST, MOST, MOST, MOST, records, max(0, records - 1), dice.below(records + 1), 0, records + 1, 1 << 31])


def log_cases(dice, count, version=1):
    """Logs that follow their rules, most of them with something changed."""
    for i in range(count):
        sheet = some_sheet(dice, dice.chance(0.4), version)
        most = dice.pick([4, 8, 10, 12, 14]) if i % 50 else 60
        log = some_log(dice, sheet, most)
        yield Case('followed logs', written(sheet)[0], log_bytes(log), some_budget(dice, len(log)))


def deadline_cases(dice, count, version=1):
    """Logs of rules of kind 2 up to a deadline, and one observation at it or next to it."""
    for _ in range(count):
        sheet = until_found(lambda: timed_sheet(dice, version))
        log = deadline_log(dice, sheet)
        yield Case('deadlines', written(sheet)[0], log_bytes(log), some_budget(dice, len(log)))


SHORT, LAST = 0, 1      # ranges of the fragment below: one that can be complete and below v, and the one of P's last event


def growth_rule(dice):
    """A rule of kind 2 whose P ends in a shuffled fragment, and a name that is not the rule's."""
    size, names = dice.between(2, 4), dice.shuffled(range(64))
    bounds = [(u, u + dice.below(3)) for u in (dice.between(1, 2) for _ in range(size))]
    bounds[SHORT] = (bounds[SHORT][0], bounds[SHORT][0] + dice.between(1, 2))
    fragment = Fragment(dice.pick(IN_ANY_MIX), tuple(Range(name, u, v) for name, (u, v) in zip(names, bounds)))
    lead = (single(names[-1], 1, 1),) if dice.chance(0.3) else ()
    return Rule(2, lead + (fragment,), (single(names[-2], 1, 1),), 0, dice.pick([0, 1, 10, 1000])), names[-3]


def growth_cases(dice, count):
    """A complete P that ends in a shuffled fragment, its last event's range at v; then the clock or a foreign event after the deadline, and perhaps one event more. In half of the cases
    another range is below v, or unused where it may be: then P can grow, wherever its last event was."""
    for i in range(count):
        rule, foreign = growth_rule(dice)
        fragment = rule.p[-1]
        totals = [r.v for r in fragment.ranges]
        if i % 2:
            r = fragment.ranges[SHORT]
            totals[SHORT] = 0 if fragment.join == ANY_SHUFFLED and dice.chance(0.4) else dice.between(r.u, r.v - 1)
        totals[LAST] -= 1
        names = [r.name for lead in rule.p[:-1] for r in lead.ranges]
        names += dice.shuffled([r.name for r, k in zip(fragment.ranges, totals) for _ in range(k)]) + [fragment.ranges[LAST].name]
        times = sorted(dice.below(4) for _ in names)
        log = list(zip(times, names)) + [(times[-1] + rule.t + dice.pick([1, 1, 2, 50]), dice.pick([CLOCK, CLOCK, foreign]))]
        if dice.chance(0.4):
            log.append((log[-1][0], dice.pick([fragment.ranges[SHORT].name, rule.q[0].ranges[0].name])))
        book = written(Sheet(1 << rule.q[0].ranges[0].name, (rule,), 2))[0]
        yield Case('a shuffled P after its deadline', book, log_bytes(log), some_budget(dice, len(log)))


def timed_sheet(dice, version=1):
    sheet = some_sheet(dice, dice.chance(0.3), version)
    return sheet if any(rule.kind == 2 for rule in sheet.rules) else None


def refused_log_cases(dice, count, version=1):
    """Records refused by 12 and 11, and lengths refused by 14."""
    for i in range(count):
        sheet = some_sheet(dice, False, version)
        log = some_log(dice, sheet, dice.pick([3, 6, 10]))
        kind = (11, 12, 14)[i % 3]
        if kind != 14:
            log = with_refusal(dice, log, kind)
            if dice.chance(0.2):
                log = with_refusal(dice, log, dice.pick([11, 12]))
        data = log_bytes(log)
        if kind == 14:
            data = data + bytes(dice.below(256) for _ in range(dice.between(1, 4)))
        yield Case('refused logs', written(sheet)[0], data, some_budget(dice, len(log)))


def attached_log(dice, sheet):
    """What goes with a sheet that is refused: any log, and one in five of a refused length."""
    log = log_bytes(some_log(dice, sheet, 3)) if dice.chance(0.5) else b''
    return log + bytes(dice.below(256) for _ in range(dice.between(1, 4))) if dice.chance(0.2) else log


def until_found(make):
    """What `make` gives, tried until it is not None."""
    while True:
        made = make()
        if made is not None:
            return made


def faulty_case(dice, version, make):
    """A sheet with a known fault, held to that fault here."""
    def attempt():
        sheet = some_sheet(dice, dice.chance(0.5), version)
        made = make(sheet)
        return None if made is None else (sheet, made)
    sheet, (book, refusal, place) = until_found(attempt)
    about = {f.at: f.what for f in written(sheet)[1]}.get(place, '')
    case = Case('faulty sheets', book, attached_log(dice, sheet), some_budget(dice, 2), about)
    result = guard.run(case.sheet, case.log, case.budget)
    assert result == (REFUSED, refusal, 0, 0, place), (result, refusal, place)
    return case


def fault_cases(dice, each, version=1):
    for fault in FAULTS + VERSION_FAULTS[version]:
        for _ in range(each if fault in FAULTS else AT_LEAST):
            yield faulty_case(dice, version, lambda sheet: faulty(dice, sheet, fault))
    for _ in range(3 * each):
        yield faulty_case(dice, version, lambda sheet: truncated(dice, sheet))
    for _ in range(2 * each):
        yield faulty_case(dice, version, lambda sheet: prolonged(dice, sheet))
    for _ in range(5 * each):
        yield faulty_case(dice, version, lambda sheet: twice_faulty(dice, sheet, dice.pick(FAULTS), dice.pick(FAULTS)))


def name_fault_cases(dice):
    """Names that the rule has already, and sheets that end before a name of Q (change 6)."""
    for version, _ in itertools.product(guard.LAST_JOIN, range(AT_LEAST)):
        for fault in NAME_FAULTS:
            yield faulty_case(dice, version, lambda sheet: faulty(dice, sheet, fault))
        yield faulty_case(dice, version, lambda sheet: truncated(dice, sheet, 'Q name'))


def every_truncation():
    """Each beginning of a sheet with all kinds of rule, of one with all joins, and of one with ranges that have no upper end."""
    for sheet in (Sheet(2, (T.rules[0], R.rules[0], N.rules[0])), Sheet(512, A.rules + S.rules + O.rules, 2), Sheet(512, E.rules + G.rules + H.rules, 2)):
        book = written(sheet)[0]
        for length in range(len(book) + 1):
            yield Case('every truncation', book[:length], b'', MOST)


def flipped_cases(dice, count, version=1):
    """Sheets with one or two bytes changed, whatever comes of it, and a log that follows the sheet as it was."""
    for _ in range(count):
        sheet = some_sheet(dice, dice.chance(0.5), version)
        book = bytearray(written(sheet)[0])
        for _ in range(dice.pick([1, 1, 2])):
            at = dice.below(len(book)) if dice.chance(0.4) else dice.between(5, len(book) - 1)
            book[at] = dice.below(256) if dice.chance(0.3) else book[at] ^ 1 << dice.below(8)
        yield Case('flipped bytes', bytes(book), log_bytes(some_log(dice, sheet, 8)), MOST)


SIXTEEN_LOGS = ('', '0@0', '0@0 0@1 2@1', '0@0 0@1 0@2 c@12', '0@0 0@1 0@2 c@13', '1@0', '5@0 c@9', '3@0 1@0 0@1 1@2', '3@0 1@0 0@1 1@2 0@2')


def edge_cases():
    """The largest sheet and its neighbours; empty sheets and logs; the order of 12 and 11; the last time."""
    family = 'edges'
    start = log_bytes([(time, time // 2) for time in range(8)])
    for largest in (written(largest_sheet(version))[0] for version in guard.LAST_JOIN):
        assert len(largest) == 5774
        for book in (largest, largest + b'\0', largest[:-1]):
            for log in (b'', start, b'\0'):
                yield Case(family, book, log, MOST)
    sixteen = Sheet(2, (T.rules + R._replace(outputs=2).rules + N.rules) * 5 + T.rules)
    mixed = Sheet(512, (S.rules + O.rules + A.rules) * 5 + O.rules, 2)
    endless = Sheet(512, (E.rules + G.rules + H.rules) * 5 + F.rules, 2)
    for sheet, text in itertools.product((sixteen, mixed, endless), SIXTEEN_LOGS):
        yield Case(family, written(sheet)[0], log_bytes(observations(text)), MOST)
    book = written(T)[0]
    for log in (b'', b'\0', b'\xff' * 4, b'\xff' * 5, b'\xff' * 10, b'\x40' * 5, b'\0' * 5):
        for budget in (0, 1, 2, MOST):
            for sheet in (book, b'', b'L', b'LO', b'LOB', b'XY', b'XYZ'):
                yield Case(family, sheet, log, budget)
    for name in (0, 2, 63, 64, 128, 254, 255):
        for time in (4, 5, 6):
            yield Case(family, book, log_bytes([(5, 0), (time, name), (7, 200)]), MOST)
    for t in (0, 5, MOST):
        late = written(Sheet(2, (T.rules[0]._replace(t=t),)))[0]
        for end in (MOST, MOST - 1, MOST - 5, MOST - 6):
            for name in (1, 5, CLOCK):
                yield Case(family, late, log_bytes([(end, 0)] * 3 + [(MOST, name)]), MOST)


def all_cases():
    dice = Dice(random.Random(SEED).random)
    yield from document_cases()
    yield from edge_cases()
    yield from short_cases()
    yield from every_truncation()
    yield from fault_cases(dice, 80)
    yield from flipped_cases(dice, 600)
    yield from refused_log_cases(dice, 1200)
    yield from deadline_cases(dice, 2000)
    yield from log_cases(dice, 4500)
    yield from short_shuffled_cases()
    yield from fault_cases(dice, 80, 2)
    yield from flipped_cases(dice, 300, 2)
    yield from refused_log_cases(dice, 800, 2)
    yield from deadline_cases(dice, 2000, 2)
    yield from growth_cases(dice, 600)
    yield from log_cases(dice, 2000, 2)
    yield from short_endless_cases()
    for book, log, about in endless_cases(dice, 15):
        yield Case('ranges without an upper end', book, log, MOST, about)
    yield from name_fault_cases(dice)


# ---------------------------------------------------------------------------------------------
# What is written
# ---------------------------------------------------------------------------------------------

def cause(case, result):
    """What a break came by: its record's name, held against the rules in the mask."""
    if result.answer != BROKEN:
        return 0
    name = case.log[5 * (result.place - 1)]
    if name == CLOCK:
        return 3
    rules = guard.read_sheet(case.sheet).rules
    broken = [rule for number, rule in enumerate(rules) if result.mask >> number & 1]
    return 1 if any(name in guard.names_of(rule) for rule in broken) else 2


def case_bytes(case, result, why):
    return b''.join((struct.pack('<H', len(case.sheet)), case.sheet, struct.pack('<H', len(case.log)), case.log,
                     struct.pack('<I', case.budget), guard.answer_bytes(result), bytes([why])))


WRITTEN = 'books written back'     # change 3: each accepted case's
PLAYED = {'rounds played': 'records', 'refusal 17': 'refusal 17', 'refusal 18': 'refusal 18'}     # change 5: the plays' lines, by the words of plays.py

# What changes 1, 2 and 6 bring, by a word for each. 'join 2 is not 0': with join 0 in the place of 2 the case is due something else; 'no upper end is not u': with v = u in the place of v = 0.
SWAPS = {'join 2 is not 0': (ALL_SHUFFLED, ALL), 'join 3 is not 1': (ANY_SHUFFLED, ANY),
         'join 2 is not 3': (ALL_SHUFFLED, ANY_SHUFFLED), 'join 3 is not 2': (ANY_SHUFFLED, ALL_SHUFFLED)}
PARTS = [(0, 'P'), (1, 'P'), (2, 'P'), (2, 'Q')]
FEATURES = (['version 2 ' + word for word in ANSWERS] + ['version 2 refusal %d' % r for r in REFUSALS if r != 3] + ['version 2 broken by ' + word for word in CAUSES[1:]]
            + ['join %d %s' % row for row in itertools.product(IN_ANY_MIX, ANSWERS[:3])] + list(SWAPS)
            + ['shuffled P can grow', 'shuffled P cannot grow', 'version 3', 'join 2 in version 1', 'join 3 in version 1', 'join 4 in version 2']
            + ['no upper end: kind %d, %s, join %d' % (kind, part, join) for (kind, part), join in itertools.product(PARTS, JOINS)]
            + ['no upper end ' + word for word in ANSWERS[:3]] + ['no upper end is not u'] + ['no upper end: ' + word for word in SCENARIOS]
            + ['v = 0 in version 1', 'u = 0 and v = 0 in version 1', 'u = 0 and v = 0 in version 2', '0 < v < u in version 2']
            + reused.COUNTED)


def with_join(sheet, old, new):
    """The sheet with one join in the place of another."""
    def ordering(fragments):
        return tuple(f._replace(join=new) if f.join == old else f for f in fragments)
    return sheet._replace(rules=tuple(rule._replace(p=ordering(rule.p), q=ordering(rule.q)) for rule in sheet.rules))


def with_upper_ends(sheet):
    """The sheet with v = u wherever v is 0."""
    def ordering(fragments):
        return tuple(f._replace(ranges=tuple(r._replace(v=r.v or r.u) for r in f.ranges)) for f in fragments)
    return sheet._replace(rules=tuple(rule._replace(p=ordering(rule.p), q=ordering(rule.q)) for rule in sheet.rules))


def refused_value(case, refusal, version):
    """What the refusal of a faulty sheet is about, as far as changes 1 and 2 have to do with it."""
    there = case.sheet[refusal.place:]
    if refusal.number == 3 and there[:2] == b'\3\0':
        yield 'version 3'
    if refusal.number == 4 and case.about == 'join':
        yield 'join %d in version %d' % (there[0], version)
    if refusal.number == 7 and case.about == 'u' and there[:4] == b'\0\0\0\0':
        yield 'u = 0 and v = 0 in version %d' % version
    if refusal.number == 7 and case.about == 'v':
        yield ('v = 0' if there[:2] == b'\0\0' else '0 < v < u') + ' in version %d' % version


def endless_features(case, sheet, result):
    """Where the sheet has ranges without an upper end, and what comes of it."""
    places = {(rule.kind, part, fragment.join) for rule in sheet.rules for part, ordering in (('P', rule.p), ('Q', rule.q))
              for fragment in ordering if any(r.v == 0 for r in fragment.ranges)}
    yield from ('no upper end: kind %d, %s, join %d' % place for place in places)
    if places and result.answer != REFUSED:
        yield 'no upper end ' + ANSWERS[result.answer]
        if guard.run(written(with_upper_ends(sheet))[0], case.log, case.budget) != result:
            yield 'no upper end is not u'
    if case.family == 'ranges without an upper end':
        yield 'no upper end: ' + case.about


def features(case, result, why):
    yield from reused.words(case.sheet, reused.hold(case.sheet))
    version = int.from_bytes(case.sheet[3:5], 'little')
    if version == 2:
        yield 'version 2 ' + ANSWERS[result.answer]
        yield 'version 2 refusal %d' % result.refusal
        yield 'version 2 broken by ' + CAUSES[why]
    try:
        sheet = guard.read_sheet(case.sheet)
    except Refused as refusal:
        if refusal.number in (3, 4, 7):
            yield from refused_value(case, refusal, version)
        return
    assert guard.write(sheet) == case.sheet, case      # the writer gives back what was read
    yield WRITTEN
    if case.family == 'a shuffled P after its deadline' and result.taken == len(case.log) // 5 and result.answer == OPEN:
        yield 'shuffled P can grow'
    if case.family == 'a shuffled P after its deadline' and why > 1:
        yield 'shuffled P cannot grow'
    if version == 2 and result.answer != REFUSED:
        joins = {fragment.join for rule in sheet.rules for fragment in rule.p + rule.q}
        yield from ('join %d %s' % (join, ANSWERS[result.answer]) for join in joins)
        for word, (old, new) in SWAPS.items():
            if old in joins and guard.run(written(with_join(sheet, old, new))[0], case.log, case.budget) != result:
                yield word
    yield from endless_features(case, sheet, result)


class Tally:
    def __init__(self):
        self.cases = 0
        self.families, self.answers, self.refusals, self.causes, self.features = Counter(), Counter(), Counter(), Counter(), Counter()
        self.several = 0
        self.plays = Counter()

    def add(self, case, result, why):
        self.cases += 1
        self.families[case.family] += 1
        self.answers[result.answer] += 1
        self.refusals[result.refusal] += 1
        self.causes[why] += 1
        self.several += bin(result.mask).count('1') > 1
        self.features.update(features(case, result, why))

    def hold(self):
        """Every answer, refusal, cause and feature is there often enough."""
        assert self.cases >= 10000
        assert all(self.answers[a] >= AT_LEAST for a in range(4)), self.answers
        assert all(self.refusals[r] >= AT_LEAST for r in REFUSALS), self.refusals
        assert all(self.causes[c] >= AT_LEAST for c in (1, 2, 3)), self.causes
        assert all(self.features[f] >= AT_LEAST for f in FEATURES), self.features

    def lines(self, number):
        """The lines of agreement, each count in the form that `number` gives it."""
        yield 'cases: ' + number(self.cases)
        for a, word in enumerate(ANSWERS):
            yield word + ': ' + number(self.answers[a])
        for r in REFUSALS:
            yield 'refusal %d: ' % r + number(self.refusals[r])
        for c in (1, 2, 3):
            yield 'broken by ' + CAUSES[c] + ': ' + number(self.causes[c])
        yield WRITTEN + ': ' + number(self.features[WRITTEN])
        for line, word in PLAYED.items():
            yield line + ': ' + number(self.plays[word])


# ---------------------------------------------------------------------------------------------
# The plays
# ---------------------------------------------------------------------------------------------

PLAY_ROOM = 2048     # of choice bytes, and of output: the longer ones are played by tests/host


def play_bytes(case, due):
    return b''.join((struct.pack('<H', len(case.choice)), case.choice, struct.pack('<HIIQ', case.length, case.number, case.time, due.answer % 2 ** 64),
                     struct.pack('<H', len(due.records)), due.records))


def stored_plays(met):
    """The bytes of plays.bin; `met` counts what is in it."""
    cases = (case for case in plays.all_plays(Dice(random.Random(SEED).random)) if max(len(case.choice), case.length) <= PLAY_ROOM)
    body = list(plays.by_sheet(cases, play_bytes, met, plays.features, plays.other_readings))
    plays.hold_met(met, plays.FEW)
    return struct.pack('<I', len(body)) + b''.join(body)


def write(folder):
    words.hold()
    writing.hold()
    playing.hold()
    body, shown, tally = [], [], Tally()
    for case in all_cases():
        result = guard.run(case.sheet, case.log, case.budget)
        why = cause(case, result)
        body.append(case_bytes(case, result, why))
        tally.add(case, result, why)
        if case.family in SHOWN:
            shown.append(' '.join(map(str, result)))
    tally.hold()
    os.makedirs(os.path.join(folder, 'data'), exist_ok=True)
    with open(os.path.join(folder, 'data', 'cases.bin'), 'wb') as f:
        f.write(struct.pack('<II', len(body), len(shown)) + b''.join(body))
    with open(os.path.join(folder, 'data', 'plays.bin'), 'wb') as f:
        f.write(stored_plays(tally.plays))
    with open(os.path.join(folder, 'cases.txt'), 'w') as f:
        f.write('seed %d\n' % SEED)
        f.writelines(line + '\n' for line in tally.lines(str))
        f.write('more than one rule in the mask: %d\n' % tally.several)
        f.writelines('%s: %d\n' % row for row in tally.families.items())
        f.writelines('%s: %d\n' % (feature, tally.features[feature]) for feature in FEATURES)
        f.writelines('playing: %s: %d\n' % (feature, tally.plays[feature]) for feature in [*plays.FEATURES, *plays.FEW] if feature not in PLAYED.values())
    with open(os.path.join(folder, 'stdout'), 'w') as f:
        f.writelines(line + '\n' for line in shown)
        f.writelines(line + '\n' for line in tally.lines(lambda n: '%d of %d' % (n, n)))


if __name__ == '__main__':
    write(sys.argv[1])
