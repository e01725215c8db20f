#!/usr/bin/env python3
"""Runs explain and holds what it says to what is due.

    python3 tests/explain/cases.py EXPLAIN STUBBED [SEED]

EXPLAIN is the program, STUBBED the same program over stub.c. What is due comes from due.py, and in by_hand.py and calls.py from document 01 by hand. A line is printed for
each group of cases; a difference, or a group with nothing in it, is a failure.
"""

import importlib.util
import itertools
import os
import random
import re
import sys
import tempfile

HERE = os.path.dirname(os.path.abspath(__file__))
ROOT = os.path.join(HERE, '..', '..')
sys.dont_write_bytecode = True
sys.path[:0] = [os.path.join(ROOT, 'reference'), HERE]

import by_hand
import calls
import due
import guard
import make
import sheets
from guard import CLOCK, MOST, REFUSED, Fragment, Range, Rule, Sheet
from logs import log_bytes
from runs import TEXTS, Group, Runs, file_bytes
from sheets import Dice, written

SEED = 1505


# ---- the intercom


def words_of(text):
    """Names of a text file of the intercom."""
    return {int(number): name for _, number, name in re.findall(r'^(in|out)\s+(\d+)\s+(\S+)', text, re.M)}


def component_of(sheet):
    return sheet.split('-')[0] + '.txt'


def intercom(runs):
    """Each log with the verdict of due.txt, first by its line alone, and then every line."""
    group = Group('the intercom with its names, verdicts by due.txt and every line by the reference')
    for line in file_bytes('examples', 'intercom', 'cases', 'due.txt').decode().splitlines():
        log, sheet, *numbers = line.split()
        result = guard.Result(*map(int, numbers))
        names = file_bytes('examples', 'intercom', component_of(sheet))
        book, trace = (file_bytes('examples', 'intercom', 'cases', name) for name in (sheet + '.lob', log + '.lot'))
        said = runs.on(book, trace, names)
        group.hold_that(log, due.verdict_line(result.answer, result.place or result.taken, result.mask) in said[0] and said[2] == due.STATUS[result.answer], said)
        group.hold(log, said, *due.of_log(book, trace, result, words_of(names.decode()), TEXTS))
    return group


# ---- random cases


def faults(runs, dice, count):
    """Sheets with known faults, some with words for their names."""
    group = Group('faulty sheets, with the field')

    def makers(known):
        faulty = [lambda s, fault=fault: sheets.faulty(dice, s, fault) for fault in known]
        faulty += [lambda s: sheets.truncated(dice, s), lambda s: sheets.prolonged(dice, s)] * 4
        return faulty + [lambda s: sheets.twice_faulty(dice, s, dice.pick(known), dice.pick(known))] * 4
    makers_of = {version: makers(sheets.FAULTS + sheets.NAME_FAULTS + faults) for version, faults in sheets.VERSION_FAULTS.items()}
    while group.count < count:
        version = dice.pick([1, 2])
        sheet = sheets.some_sheet(dice, dice.chance(0.5), version)
        fault = makers_of[version][group.count % len(makers_of[version])](sheet)
        if fault is None:
            continue
        names = {n: 'w%d' % n for n in range(64)} if dice.chance(0.3) else {}
        file = ''.join('%s %d %s\n' % (('in', 'out')[sheet.outputs >> n & 1], n, word) for n, word in names.items()).encode()
        said = runs.on(fault[0], b'', file)
        group.hold(fault, said, *due.of_fault(sheet, written(sheet), fault, names, TEXTS))
    return group


def growing_cases(dice, count):
    """A P that can still grow, so that the clock alone finds nothing late; foreign events and clock readings; then an event of Q at the deadline, next to it or long after it."""
    for _ in range(count):
        u, t = dice.between(1, 3), dice.pick([0, 1, 10, 1000, 4000000000])
        rule = Rule(2, (make.single(0, u, u + dice.between(1, 3)),), (Fragment(dice.below(2), (Range(1, 1, 1 + dice.below(3)), Range(3, 1, 2))),), 0, t)
        end = dice.below(100)
        log = [(end, 0)] * u + [(end, 1)] * dice.below(2)
        last = min(MOST, end + t + dice.pick([-1, 0, 1, 2, 100000000])) if end + t > 0 else 1
        log += [(max(end, last - dice.below(3)), dice.pick([9, CLOCK])) for _ in range(dice.below(2))]
        log.append((max(last, log[-1][0]), dice.pick([1, 1, 3])))
        yield make.Case('growing', written(Sheet(10, (rule,)))[0], log_bytes(log), MOST)


PHRASES = ('late: the last', 'was in time until', 'out of order', 'waits for', '(until', 'whole after', 'refused 11', 'refused 12', 'refused 14')


def random_logs(runs, dice, count):
    """The reference's cases under another seed: logs that follow their rules, those that go up to a deadline, and refused ones."""
    group, met = Group('sheets and logs by the reference: what was expected, and until when'), set()
    each = count // 8
    for case in itertools.chain(make.log_cases(dice, 2 * each), make.deadline_cases(dice, each), growing_cases(dice, each), make.refused_log_cases(dice, each),
                                make.log_cases(dice, 2 * each, 2), make.deadline_cases(dice, each, 2)):
        lines, status = due.of_log(case.sheet, case.log, guard.run(case.sheet, case.log, MOST), {}, TEXTS)
        group.hold((case.sheet.hex(), case.log.hex()), runs.on(case.sheet, case.log), lines, status)
        met |= {phrase for phrase in PHRASES if any(phrase in line for line in lines)}
    group.hold_that('each kind of line', len(met) == len(PHRASES), met)
    return group


def intercom_make():
    """The intercom's make.py, which has the name of the reference's."""
    spec = importlib.util.spec_from_file_location('intercom_make', os.path.join(ROOT, 'examples', 'intercom', 'make.py'))
    module = importlib.util.module_from_spec(spec)
    spec.loader.exec_module(module)
    return module


def notation(runs, dice, count):
    """What explain prints of a sheet, read by the intercom's own reader of that notation, is the sheet again."""
    group, notes = Group('version and rules printed, and read back to the same bytes'), intercom_make()
    while group.count < count:
        version = 1 + group.count % 2
        sheet = sheets.largest_sheet(version) if group.count < 2 else sheets.some_sheet(dice, dice.chance(0.5), version)
        component, names = notes.Component(), ['%s %d n%d' % ('out' if sheet.outputs >> n & 1 else 'in', n, n) for n in range(64)]
        said = runs.on(written(sheet)[0], b'', '\n'.join(names).encode())
        head = [line.replace('version: ', 'sheet s version ') for line in said[0] if line.startswith('version: ')]
        for number, line in enumerate(names + head + [line for line in said[0] if line.startswith('rule ')], 1):
            component.read_line(number, line)
        group.hold_that(sheet, component.sheet_bytes('s') == written(sheet)[0] and said[2] == 0, said)
    return group


def scrambled(dice, data):
    """The bytes with some changed, cut off or put in, or others altogether."""
    data = bytearray(data)
    for _ in range(dice.below(6)):
        at = dice.below(len(data) + 1)
        data[at:at + dice.below(3)] = bytes(dice.pick([0, 1, 2, 3, 4, 8, 9, 63, 64, 255, dice.below(256)]) for _ in range(dice.below(3)))
    if dice.chance(0.1):
        data = bytes(dice.below(256) for _ in range(dice.below(400)))
    return bytes(data)


def any_bytes(runs, dice, count):
    """Any bytes as sheet, log and names: the verdict is the reference's, and names that are no names are found so."""
    group = Group('any bytes as sheet, log and names')
    for number in range(count):
        case = next(make.log_cases(dice, 1, 1 + number % 2))
        book, log = scrambled(dice, case.sheet) if dice.chance(0.7) else case.sheet, scrambled(dice, case.log)
        names = scrambled(dice, b'in 3 recalc\nout 5 finish # last\n  \nrule A each 3 << 5\n') if dice.chance(0.3) else None
        result = guard.run(book, log, MOST)
        line = due.refused_line(result, TEXTS) if result.answer == REFUSED else due.verdict_line(result.answer, result.place or result.taken, result.mask)
        out, err, status = said = runs.on(book, log, names)
        right = line in out and status == due.STATUS[result.answer] and err == ''
        wrong_names = names is not None and status == 3 and out == [] and re.fullmatch(r'explain: \S*names, line \d+: [^\n]*\n', err)
        group.hold_that((book, log, names), right or wrong_names, said)
    return group


def main(program, stub, seed):
    dice = Dice(random.Random(seed).random)
    with tempfile.TemporaryDirectory() as folder:
        runs, stubbed = Runs(program, folder), Runs(stub, folder)
        groups = [by_hand.traces(runs), by_hand.shown(runs), by_hand.refusals(runs, stubbed), intercom(runs), faults(runs, dice, 240), random_logs(runs, dice, 640), any_bytes(runs, dice, 200),
                  notation(runs, dice, 60), calls.arguments(runs), calls.names(runs), calls.documented(runs), calls.other_library(stubbed)]
    return any([group.tell() for group in groups])


if __name__ == '__main__':
    sys.exit(main(os.path.abspath(sys.argv[1]), os.path.abspath(sys.argv[2]), int(sys.argv[3]) if len(sys.argv) > 3 else SEED))
