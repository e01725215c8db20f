"""Cases by hand: what the words of document 01 and of changes 1 and 2 say of their traces, and of each refusal."""

import make
from logs import log_bytes
from runs import TEXTS, Group
from sheets import written

T, R, N, S, O, E, F, H = (written(sheet)[0] for sheet in (make.T, make.R, make.N, make.S, make.O, make.E, make.F, make.H))
PATIENT = written(make.Sheet(2, (make.T.rules[0]._replace(t=4000000000),)))[0]

TRACES = [
    (T, '0@0 0@1 0@2 c@13', ['late: the last millisecond in time was 12', 'expected at 12: 1 (until 12)']),
    (T, '0@0 0@1 0@2 9@4294967295', ['late: the last millisecond in time was 12', 'expected at 12: 1 (until 12)']),
    (PATIENT, '0@0 0@1 0@2 c@4000000003', ['late: the last millisecond in time was 4000000002', 'expected at 4000000002: 1 (until 4000000002)']),
    (T, '0@0 0@5 1@16', ['late: 1 was in time until 15', 'expected at 16: 0']),
    (T, '0@0 0@5 1@4294967295', ['late: 1 was in time until 15', 'expected at 4294967295: 0']),
    (T, '0@0 0@5 1@15 c@99 1@99', ['late: 1 was in time until 15', 'expected at 99: 0']),
    (T, '0@0 1@0', ['out of order: 1 is not taken there', 'expected at 0: 0']),
    (T, '0@0 0@0 0@0 0@0', ['out of order: 0 is not taken there', 'expected at 0: 1 (until 10)']),
    (T, '0@4294967290 0@4294967290 0@4294967290 0@4294967290', ['out of order: 0 is not taken there', 'expected at 4294967290: 1']),
    (R, '0@0 1@0 0@0', ['out of order: 0 is not taken there', 'expected at 0: 2']),
    (R, '1@5 0@5 2@9 2@10', ['out of order: 2 is not taken there', 'expected at 10: 0, 1']),
    (N, '2@0', ['out of order: 2 is not taken there', 'expected at 0: 0, 1']),
    (T, '0@0 0@5 c@100', ['waits for: 0']),
    (T, '0@0 0@5 c@14', ['waits for: 0, 1 (until 15)']),
    (T, '0@0 0@1 0@2 c@12', ['waits for: 1 (until 12)']),
    (N, '0@0', ['waits for: 1, 2']),
    (S, '0@0 1@0', ['waits for: 0, 9 (until 10)']),
    (S, '0@0 1@0 0@0', ['waits for: 9 (until 10)']),
    (S, '0@0 1@0 1@0', ['out of order: 1 is not taken there', 'expected at 0: 0, 9 (until 10)']),
    (S, '0@0 1@0 0@0 c@99', ['late: the last millisecond in time was 10', 'expected at 10: 9 (until 10)']),
    (O, '0@0 1@0 1@0', ['waits for: 0']),
    (O, '0@0 1@0 2@0', ['out of order: 2 is not taken there', 'expected at 0: 0, 1']),
    (O, '0@0 1@0 0@0', ['waits for: 0, 1, 2']),
    (E, '0@0', ['waits for: 0']),
    (E, '0@0 0@0 0@0 0@5', ['waits for: 0, 9 (until 15)']),
    (E, '0@0 0@0 0@0 0@5 c@99', ['waits for: 0']),
    (E, '0@0 0@5 9@16', ['late: 9 was in time until 15', 'expected at 16: 0']),
    (E, '0@0 9@0', ['out of order: 9 is not taken there', 'expected at 0: 0']),
    (F, '0@0 0@0 1@0 0@0', ['out of order: 0 is not taken there', 'expected at 0: 9 (until 10)']),
    (F, '0@0 0@0 1@0 c@11', ['late: the last millisecond in time was 10', 'expected at 10: 9 (until 10)']),
    (F, '1@0 0@0 9@1 9@2 9@10 c@99 9@99', ['late: 9 was in time until 10', 'expected at 99: 0, 1']),
    (H, '0@0 0@0 0@0 1@0 1@0', ['waits for: 1, 2, 3']),
]


def traces(runs):
    """Traces of document 01 and of changes 1 and 2: what their words say of what comes next, and until when."""
    group = Group('traces of document 01 and of changes 1 and 2 by hand')
    for book, text, lines in TRACES:
        out, err, _ = said = runs.on(book, log_bytes(make.observations(text)))
        group.hold_that(text, out[-len(lines):] == ['  ' + line for line in lines] and not err, said)
    return group


def shown(runs):
    """What is said of a sheet: its version, its names, its rules, what shuffled means where it is, and what has no upper end."""
    group = Group('sheets of both versions by hand')
    for book, heads in HEADS.items():
        group.hold(heads, runs.on(book, b''), heads + ['whole after 0'], 0)
    return group


def changed(book, at, byte):
    return book[:at] + bytes([byte]) + book[at + 1:]


FIRST, SECOND = 'rule 0, fragment 1 of 1 in P, range 1 of 2, ', 'rule 0, fragment 1 of 1 in P, range 2 of 2, '
IN_Q = 'rule 0, fragment 1 of 1 in Q, range 1 of 1, '
SHEETS = [
    (1, b'', b'', 0, 'mark: found 0 of its 3 bytes'),
    (1, R[:8], b'', 5, 'outputs: found 3 of its 8 bytes'),
    (1, R[:33], b'', 32, SECOND + 'v: found 1 of its 2 bytes'),
    (1, changed(R, 13, 2), b'', 34, 'rule 1, kind: found 0 of its 1 bytes'),
    (2, b'LOL' + R[3:], b'', 0, 'mark: found 4C 4F 4C; due 4C 4F 42'),
    (3, changed(R, 4, 1), b'', 3, 'version: found 257; due 1 or 2'),
    (3, changed(S, 3, 3), b'', 3, 'version: found 3; due 1 or 2'),
    (4, changed(R, 13, 17), b'', 13, 'rule count: found 17; due 1 to 16'),
    (4, changed(R, 14, 3), b'', 14, 'rule 0, kind: found 3; due 0, 1 or 2'),
    (4, changed(R, 15, 9), b'', 15, 'rule 0, P count: found 9; due 1 to 8'),
    (4, changed(T, 16, 0), b'', 16, 'rule 0, Q count: found 0; due 1 to 8'),
    (4, changed(R, 22, 2), b'', 22, 'rule 0, fragment 1 of 1 in P, join: found 2; due 0 or 1 in version 1; 2 and 3, shuffled, are of version 2'),
    (4, changed(O, 3, 1), b'', 22, 'rule 0, fragment 1 of 1 in P, join: found 3; due 0 or 1 in version 1; 2 and 3, shuffled, are of version 2'),
    (4, changed(O, 22, 4), b'', 22, 'rule 0, fragment 1 of 1 in P, join: found 4; due 0 to 3 in version 2'),
    (4, changed(T, 30, 0), b'', 30, 'rule 0, fragment 1 of 1 in Q, range count: found 0; due 1 to 8'),
    (5, changed(R, 16, 9), b'', 16, 'rule 0, Q count: found 9; due 0 in kinds 0 and 1'),
    (5, changed(T, 17, 70), b'', 17, 'rule 0, trigger: found 70; due 0 in kind 2'),
    (5, changed(R, 21, 1), b'', 18, 'rule 0, t: found 16777216; due 0 in kinds 0 and 1'),
    (6, changed(R, 17, 64), b'', 17, 'rule 0, trigger: found 64; due an input, 0 to 63'),
    (6, changed(R, 29, 255), b'', 29, SECOND + 'name: found 255; due 0 to 63, and not in the rule yet'),
    (7, changed(R, 25, 0), b'', 25, FIRST + 'u: found 0; due 1 to 65535'),
    (7, changed(changed(R, 25, 5), 27, 4), b'', 27, FIRST + 'v: found 4; due from u to 65535, u is 5; 0, no upper end, is of version 2'),
    (7, changed(R, 27, 0), b'', 27, FIRST + 'v: found 0; due from u to 65535, u is 1; 0, no upper end, is of version 2'),
    (7, changed(changed(R, 25, 0), 27, 0), b'', 25, FIRST + 'u: found 0; due 1 to 65535'),
    (7, changed(changed(changed(R, 3, 2), 25, 5), 27, 4), b'', 27, FIRST + 'v: found 4; due 0, which is no upper end, or from u to 65535, u is 5'),
    (7, changed(changed(E, 25, 0), 27, 0), b'', 25, 'rule 0, fragment 1 of 1 in P, range 1 of 1, u: found 0; due 1 to 65535'),
    (8, changed(R, 29, 0), b'', 29, SECOND + 'name: found 0; due 0 to 63, and not in the rule yet'),
    (8, changed(changed(T, 5, 3), 31, 0), b'', 31, IN_Q + 'name: found 0; due an output, 0 to 63, that the rule does not have yet'),
    (9, changed(R, 5, 4), b'', 17, 'rule 0, trigger: found 2; due an input, 0 to 63'),
    (9, changed(T, 5, 0), b'', 31, IN_Q + 'name: found 1; due an output, 0 to 63, that the rule does not have yet'),
    (9, changed(T, 31, 0), b'', 31, IN_Q + 'name: found 0; due an output, 0 to 63, that the rule does not have yet'),
    (10, R + b'\7\0\0', b'', 34, 'after the last rule: found 3 more, the first is 7; due none'),
    (14, R, b'\0' * 19, 0, '19 bytes: 3 records and 4 bytes more'),
]
RECORDS = [
    (11, '1@5 0@4', 5, 'record 2: 0 at 4; the latest time is 5', ['open after 1: rules 0', 'rule 0  each all{0, 1} << 2', '  waits for: 0']),
    (11, '9@5 c@4', 5, 'record 2: a clock reading at 4; the latest time is 5', ['whole after 1']),
    (12, '1@5 64@4', 5, 'record 2: 64 at 4; the latest time is 5', ['open after 1: rules 0', 'rule 0  each all{0, 1} << 2', '  waits for: 0']),
    (12, '254@9', 0, 'record 1: 254 at 9; the latest time is 0', ['whole after 0']),
]
HEADS = {
    R: ['version: 1', 'inputs: 0, 1, 2', 'outputs: none', 'rule 0  each all{0, 1} << 2'],
    S: ['version: 2', 'inputs: 0, 1', 'outputs: 9', 'rule 0  within 10 all{0[1,2], 1} shuffled => 9[1,2]',
        'all{..} shuffled: every name, mixed in any way; its bounds are for how often it comes in all'],
    O: ['version: 2', 'inputs: 0, 1, 2', 'outputs: none', 'rule 0  each any{0[2,3], 1[1,2]} shuffled << 2',
        'any{..} shuffled: at least one name, mixed in any way; the bounds of each that comes are for how often it comes in all'],
    E: ['version: 2', 'inputs: 0', 'outputs: 9', 'rule 0  within 10 0[2,] => 9[1,2]', 'no upper end in rule 0: 0, 2 or more', 'deadline of rule 0: held off while P can grow by 0'],
    F: ['version: 2', 'inputs: 0, 1', 'outputs: 9', 'rule 0  within 10 all{0[1,], 1} => 9[1,]', 'no upper end in rule 0: 0, 1 or more; 9, 1 or more',
        'deadline of rule 0: held off while P can grow by 0'],
    H: ['version: 2', 'inputs: 0, 1, 2, 3', 'outputs: none', 'rule 0  each 0[2,] < any{1[1,], 3[2,2]} shuffled << 2',
        'any{..} shuffled: at least one name, mixed in any way; the bounds of each that comes are for how often it comes in all', 'no upper end in rule 0: 0, 2 or more; 1, 1 or more'],
}


def refusals(runs, stubbed):
    """Every refusal from 1 to 14; 13 by the stub, since no log gets there."""
    group, met = Group('refusals 1 to 14 by hand, with the field or the record'), {13}
    for number, book, log, place, line in SHEETS:
        read = HEADS[R] if number in (10, 14) or place == 34 else []
        met.add(number)
        group.hold('%d at %d' % (number, place), runs.on(book, log), read + ['refused %d at byte %d: %s' % (number, place, TEXTS[number]), '  ' + line], 2)
    for number, text, place, record, after in RECORDS:
        met.add(number)
        lines = HEADS[R] + ['refused %d at byte %d: %s' % (number, place, TEXTS[number]), record] + after
        group.hold(text, runs.on(R, log_bytes(make.observations(text))), lines, 2)
    record = ['record 2: 0 at 6; the latest time is 5', 'whole after 1']
    said = stubbed.on(R, log_bytes(make.observations('1@5 0@6')), GUARD_STUB='3 13 0 1 5')
    group.hold('13', said, HEADS[R] + ['refused 13 at byte 5: ' + TEXTS[13]] + record, 2)
    group.hold_that('each number', met == set(range(1, 15)), met)
    return group
