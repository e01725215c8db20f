"""How explain is called: arguments, files, names, and a library that answers otherwise."""

import os
import re

import make
from by_hand import HEADS, O, R, changed
from logs import log_bytes
from runs import ROOT, TEXTS, Group, file_bytes
from sheets import written


def arguments(runs):
    group = Group('arguments, files and the exit status')
    book, log = runs.file('book', R), runs.file('log', b'')
    out, err, status = said = runs.arguments('--help')
    group.hold_that('--help', status == 0 and err == '' and out[0] == 'explain SHEET LOG [NAMES]' and 'Exit status: 0 whole or open, 1 broken, 2 refused, 3 could not run.' in out, said)
    for wrong in ([], [book], [book, log, log, log], ['--help', book, log, log], ['-x']):
        out, err, status = said = runs.arguments(*wrong)
        group.hold_that(wrong, status == 3 and out == [] and err.startswith('explain SHEET LOG [NAMES]\n'), said)
    none = os.path.join(runs.folder, 'none')
    for wrong, why in (([none, log], 'opened'), ([book, none], 'opened'), ([book, log, none], 'opened'), ([runs.folder, log], 'read'), ([book, runs.folder], 'read')):
        out, err, status = said = runs.arguments(*wrong)
        group.hold_that(wrong, status == 3 and out == [] and re.fullmatch(r"explain: \S+: it can't be %s\n" % why, err), said)
    with open('/dev/full', 'wb') as full:
        out, err, status = said = runs.arguments(book, log, out=full)
        group.hold_that('/dev/full', status == 3 and err == "explain: the output can't be written\n", said)
    return group


def documented(runs):
    """The example of docs/EMBEDDING.md: the command, then the end of what it prints."""
    group = Group('the example of docs/EMBEDDING.md')
    paths, lines = re.search(r'^    \$ ./explain (.*)\n    \.\.\n((?:    .*\n)+)', file_bytes('docs', 'EMBEDDING.md').decode(), re.M).groups()
    due = [line[4:] for line in lines.splitlines()]
    out, err, status = said = runs.arguments(*(os.path.join(ROOT, path) for path in paths.split()))
    group.hold_that(paths, out[-len(due):] == due and err == '' and status == 1, said)
    return group


NAMES = [
    (b'in 64 a\n', 1, 'number'), (b'\nout -1 a', 2, 'number'), (b'in 1x a', 1, 'number'), (b'in 4294967296 a', 1, 'number'), (b'#\n#\nin 0', 3, 'followed'), (b'out', 1, 'followed'),
    (b'in 0 a b', 1, 'followed'), (b'in 0 a/b', 1, 'letters'), (b'in 0 a\x1b[1m', 1, 'letters'), (b'in 0 a\0', 1, 'letters'), (b'in 0 ' + b'a' * 1001, 1, 'letters'),
    (b'in 0 a\nin 0 b\n', 2, 'number has'), (b'in 0 a\r\nout 1 a', 2, 'another number'),
]


def names(runs):
    group = Group('files of names')
    for file, line, why in NAMES:
        out, err, status = said = runs.on(R, b'', file)
        group.hold_that(file, status == 3 and out == [] and re.search(r', line %d: .*%s' % (line, why), err), said)
    file = b'  in 0\tset-a  # the first\r\nout 1 set_b\nin 007 \xc3\xa9t\xc3\xa9\n7 in 2 x\nlog in\nsheet out 2 y\nin 2 go'
    lines = ['version: 1', 'inputs: set-a, set_b, go', 'outputs: none', 'of the other direction in the file of names: set_b', 'rule 0  each all{set-a, set_b} << go']
    wait = ['open after 1: rules 0', lines[-1], '  waits for: set-a']
    group.hold('words', runs.on(R, log_bytes([(3, 1)]), file), lines + wait, 0)
    late = ['broken at 2: rules 0', 'record 2: \u00e9t\u00e9 at 9', 'rule 0  within 1 set-a => \u00e9t\u00e9', '  late: the last millisecond in time was 4', '  expected at 4: \u00e9t\u00e9 (until 4)']
    book = written(make.Sheet(128, (make.Rule(2, (make.single(0, 1, 1),), (make.single(7, 1, 1),), 0, 1),)))[0]
    heads = ['version: 1', 'inputs: set-a', 'outputs: \u00e9t\u00e9', 'of the other direction in the file of names: set_b, \u00e9t\u00e9', 'rule 0  within 1 set-a => \u00e9t\u00e9']
    group.hold('words', runs.on(book, log_bytes([(3, 0), (9, 7)]), file), heads + late, 1)
    return group


def other_library(stubbed):
    """Numbers that this version doesn't have, records that the log doesn't have, and a sheet of version 3."""
    group = Group('a library that answers otherwise')
    log = log_bytes(make.observations('1@5 0@6'))
    group.hold('19', stubbed.on(R, log, GUARD_STUB='3 19 0 0 7'), HEADS[R] + ['refused 19 at byte 7: unknown refusal'], 2)
    group.hold('0', stubbed.on(R, log, GUARD_STUB='3 0 0 0 0'), HEADS[R] + ['refused 0 at byte 0: unknown refusal'], 2)
    group.hold('no field', stubbed.on(R, log, GUARD_STUB='3 7 0 0 26'), HEADS[R] + ['refused 7 at byte 26: ' + TEXTS[7], '  no field that this program knows begins there'], 2)
    answers = ('4 0 0 0 0', '255 0 0 0 0', '2 0 1 1 0', '2 0 1 3 3', '1 0 1 3 0', '3 12 0 2 10', '3 11 0 0 4294967295')
    for says, book in [(says, R) for says in answers] + [('0 0 0 0 0', other) for other in (changed(R, 3, 3), R[:20], R + b'\0', changed(R, 22, 2), changed(O, 22, 4), changed(R, 24, 64), b'')]:
        out, err, status = said = stubbed.on(book, log, GUARD_STUB=says)
        group.hold_that((says, book), status == 3 and re.fullmatch(r"explain: the library .* that this program doesn't know\n", err), said)
    return group
