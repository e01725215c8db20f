"""Cases of playing a rule (document 02, change 5): a sheet, a rule's number, a time, choice bytes and the length of an output, with what playing.py says of each.

Some cases stand for what the page docs/PLAYING.md says and is easily read in another way: each such reading is written out here, and enough cases are due something else with it.
"""

import itertools
import struct
from collections import Counter, namedtuple

import reused
from guard import ALL, ANY_SHUFFLED, IN_ANY_MIX, JOINS, MOST, Fragment, Range, Rule, Sheet, read_sheet
from playing import RECORD, Moment, bytes_of, chosen, looked_at, one, page_examples, play, sheet_of, small_rules, steps
from sheets import largest_sheet, some_kind, some_pool, some_rule, some_sheet, written

Play = namedtuple('Play', 'sheet number time choice length')         # sheet: its bytes; length: the output's
Due = namedtuple('Due', 'answer records looked')                     # looked: how many bytes the round has looked at when it is over, the missing ones too; 0 where there is no rule

AT_LEAST = 100
NO_SUCH = [16, 17, 255, 256, 65535, 65536, 1 << 31, MOST]             # numbers that no sheet has a rule of
TIMES = [0, 1, 255, 65536, 0x12345678, 1 << 31, MOST - 1, MOST]
LONG = 1000                                                          # records of a long round


def due(case, sheet):
    """What the call says of a case, whose sheet is read already."""
    out = bytearray(case.length)
    said = play(sheet, case.number, case.time, case.choice, out)
    if said == -17:
        return Due(said, b'', 0)
    rule = sheet.rules[case.number]
    return Due(said, bytes(out[:RECORD * said]) if said > 0 else b'', looked_at(rule, chosen(rule, case.choice)))


def by_sheet(cases, play_bytes, met, *features):
    """The bytes of the cases, those of one sheet after the other as one entry: u16 length, the sheet, u16 number of its cases, and what `play_bytes` gives of each; `met` counts what they are."""
    for data, group in itertools.groupby(cases, lambda case: case.sheet):
        sheet, made = read_sheet(data), []
        assert reused.hold(data) is None, data
        for case in group:
            said = due(case, sheet)
            for words in features:
                met.update(words(case, sheet, said))
            made.append(play_bytes(case, said))
        yield struct.pack('<H', len(data)) + data + struct.pack('<H', len(made)) + b''.join(made)


# ---------------------------------------------------------------------------------------------
# Choice bytes and outputs
# ---------------------------------------------------------------------------------------------

def some_choice(dice, rule):
    """Any bytes; numbers of ranges; zeros now and then, so that fragments are left early; bytes of a round already picked, and more behind them; none."""
    style, length = dice.below(8), dice.pick([1, 2, 3, 5, 8, 13, 21, 40])
    if style == 0:
        return b''
    if style < 3:
        return bytes(dice.below(256) for _ in range(length))
    if style == 3:
        return bytes(dice.pick([0, dice.below(9), dice.below(9)]) for _ in range(length))
    if style == 4:
        return bytes([dice.pick([0, 1, 2, 9, 255])]) * length
    numbers = bytes(dice.between(1, 4) for _ in range(length))
    if style == 5:
        return numbers
    return bytes_of(rule, chosen(rule, numbers)[:2 * LONG]) + bytes(dice.below(256) for _ in range(dice.below(4)))


def some_length(dice, least):
    """Outputs for a round that needs `least` bytes: just these, some more, one record or one byte less, and short ones."""
    enough = [least, least, least + dice.between(1, 4), least + 5, least + dice.below(60)]
    return max(0, dice.pick(enough + [least - 1, least - 1, least - dice.between(2, 5), 12, dice.below(12), 0, dice.below(least + 1)]))


def some_play(dice, data, sheet, number):
    choice = some_choice(dice, sheet.rules[number]) if number < len(sheet.rules) else bytes(dice.below(256) for _ in range(dice.below(5)))
    least = RECORD * len(chosen(sheet.rules[number], choice)) if number < len(sheet.rules) else RECORD * dice.below(5)
    return Play(data, number, dice.pick(TIMES) if dice.chance(0.7) else dice.below(1 << 32), choice, some_length(dice, least))


def some_number(dice, count):
    """A number that a sheet of so many rules has no rule of: next to its last one, beyond any, and those whose low byte or bytes are a rule's."""
    return dice.pick([count, count, count + 1, dice.between(count, 16), dice.pick(NO_SUCH), dice.pick([256, 65536, 1 << 16 | 256, 1 << 31]) + dice.below(count)])


# ---------------------------------------------------------------------------------------------
# The families
# ---------------------------------------------------------------------------------------------

def example_plays():
    """The page's rows, in an output of just the round's length, one with room behind it, and one that is a byte short."""
    for rule, choice, names in page_examples():
        data = written(sheet_of(rule))[0]
        for extra, time in ((0, 0), (7, MOST), (-1, 5)):
            yield Play(data, 0, time, choice, RECORD * len(names) + extra)


def short_plays():
    """Small rules with every short choice of their ranges' numbers and one above them."""
    for rule in list(small_rules())[::9]:
        data, n = written(sheet_of(rule))[0], max(len(fragment.ranges) for fragment in rule.p + rule.q)
        for length in range(4):
            for choice in itertools.product(range(n + 2), repeat=length):
                yield Play(data, 0, 3, bytes(choice), 12 * RECORD)


def every_byte_plays():
    """Each value of a byte, at fragments of one to eight ranges: a byte counts modulo n + 1, from 2 to 9."""
    for n in range(1, 9):
        p = Fragment(IN_ANY_MIX[n % 2], tuple(Range(7 * k % 61, 1, 2) for k in range(n)))
        data = written(sheet_of(Rule(1, (p,), (), 63, 0)))[0]
        for byte in range(256):
            yield Play(data, 0, byte, bytes([byte, 255 - byte]), RECORD * 20)


def room_plays():
    """Every length of an output around a round's, and those that no round fits in; a number that is no rule's beside them."""
    sheet = sheet_of(Rule(0, (Fragment(ANY_SHUFFLED, (Range(5, 1, 0), Range(3, 2, 2))),), (), 63, 0), Rule(2, (one(ALL, 0, (1, 3)),), (one(ALL, 4, (2, 0)),), 0, 0))
    data = written(sheet)[0]
    for number, choice in itertools.product((0, 1, 2), (b'', b'\1\1', b'\2', b'\1\1\0\1\1\1\1')):
        for length in range(50):
            yield Play(data, number, MOST, choice, length)


def sixteen_plays(dice, each):
    """Books of sixteen rules: every number up to 16, and larger ones."""
    for i in range(each):
        version = 1 + i % 2
        if i % 8 < 2:
            sheet = largest_sheet(version)
        else:
            pool, outputs = some_pool(dice, 64)
            sheet = Sheet(outputs, tuple(some_rule(dice, pool[4 * k:4 * k + 4], outputs, some_kind(dice), version) for k in range(16)), version)
        data = written(sheet)[0]
        for number in list(range(17)) + NO_SUCH[1:]:
            yield some_play(dice, data, sheet, number)


def random_plays(dice, count):
    for i in range(count):
        sheet = some_sheet(dice, dice.chance(0.5), 1 + (i % 3 > 0))
        data = written(sheet)[0]
        for number in list(range(len(sheet.rules))) * 2 + [some_number(dice, len(sheet.rules))]:
            yield some_play(dice, data, sheet, number)


def before(*fragments):
    return sheet_of(Rule(1, fragments, (), 2, 0))


def long_rounds():
    """Sheets and choice bytes of rounds that are long by their u, or by as many bytes: up to and beyond 65,535 of one name."""
    yield before(one(ALL, 0, (2, 0))), b'\1' * 70000
    yield before(one(ALL, 0, (3, 65535))), b'\1' * 65540
    yield before(one(ALL, 0, (65535, 65535))), b''
    yield before(one(ALL, 0, (65535, 0))), b'\1' * 65537
    for join in JOINS:
        yield before(one(join, 0, (65535, 0)), one(ALL, 1, (1, 1))), b'\1' * 3
        for choice in (b'', b'\2\1\3' * 500, b'\3' * 800 + b'\2' * 901 + b'\1', b'\1\2\3'):
            yield before(Fragment(join, (Range(0, 700, 0), Range(1, 600, 900), Range(3, 1, 0)))), choice
    timed = Rule(2, (one(ALL, 0, (300, 1000)),), (one(ANY_SHUFFLED, 9, (256, 0)), one(ALL, 10, (1000, 1000))), 0, 0)
    for choice in (b'', b'\1' * 1001, b'\0' * 400 + b'\1' * 3000):
        yield sheet_of(timed), choice


def long_plays():
    for sheet, choice in long_rounds():
        data, least = written(sheet)[0], RECORD * len(chosen(sheet.rules[0], choice))
        for length in (least, least - 1, least + 3):
            yield Play(data, 0, 0x01020304, choice, length)


def all_plays(dice):
    yield from example_plays()
    yield from short_plays()
    yield from every_byte_plays()
    yield from room_plays()
    yield from long_plays()
    yield from sixteen_plays(dice, 80)
    yield from random_plays(dice, 1200)


# ---------------------------------------------------------------------------------------------
# Readings of the page that are not meant
# ---------------------------------------------------------------------------------------------

class OneLess(Moment):
    def picked(self, byte):
        k = byte % len(self.ranges)
        return self.ranges[k] if self.may_come(self.ranges[k]) else self.towards_the_end()


class Spoils(Moment):
    """A name that may not come leaves the fragment where it may be left, and is else written all the same."""

    def picked(self, byte):
        k = byte % (len(self.ranges) + 1)
        if k == 0:
            return self.towards_the_end()
        return self.ranges[k - 1] if self.may_come(self.ranges[k - 1]) or not self.may_be_left() else None


class FirstLacking(Moment):
    def needed(self):
        return [r for r in self.ranges if not self.has_its_u(r)][0]


class LastLacking(Moment):
    def needed(self):
        lacking = [r for r in self.ranges if not self.has_its_u(r)]
        return ([r for r in lacking if self.come[r.name] > 0] or lacking)[-1]


class NoneLeftOut(Moment):
    def may_be_left_out(self, r):
        return False


class AllLeftOut(Moment):
    def may_be_left_out(self, r):
        return self.come[r.name] == 0


class UpToU(Moment):
    def takes_one_more(self, r):
        return self.come[r.name] < (r.v or r.u)


class OneTooMany(Moment):
    def takes_one_more(self, r):
        return r.v == 0 or self.come[r.name] <= r.v


class InARow(Moment):
    def may_come(self, r):
        return self.takes_one_more(r) if r == self.last else self.come[r.name] == 0 and (self.last is None or self.has_its_u(self.last))


class Shuffled(Moment):
    def may_come(self, r):
        return self.takes_one_more(r)


class ClosedByHalf(Moment):
    """In a row, a sibling may begin though the last block has not its u."""

    def may_come(self, r):
        return self.takes_one_more(r) if self.join in IN_ANY_MIX or r == self.last else self.come[r.name] == 0


READINGS = {'modulo n + 1 is not modulo n': OneLess, 'a byte that may not come counts as 0': Spoils, 'begun before not begun': FirstLacking, 'the first needed is not the last': LastLacking,
            'any is not all': NoneLeftOut, 'all is not any': AllLeftOut, 'no upper end is not u': UpToU, 'v is not one more': OneTooMany, 'shuffled is not in a row': InARow,
            'in a row is not shuffled': Shuffled, 'a block that lacks its u is not closed': ClosedByHalf}


# ---------------------------------------------------------------------------------------------
# What occurs
# ---------------------------------------------------------------------------------------------

ANSWERS = ['records', 'refusal 17', 'refusal 18']
FEATURES = (ANSWERS + ['just the round', 'one byte less', '12 bytes of output', 'no output', 'no choice bytes', 'bytes after the round', 'bytes missing', 'a byte above n']
            + ['time 0', 'time %d' % MOST, 'refusal 17 with room', 'refusal 17 without an output'] + ['kind %d' % kind for kind in range(3)] + ['version %d' % v for v in (1, 2)]
            + ['join %d' % join for join in JOINS] + ['no upper end'] + list(READINGS))
# those that have fewer: each rule's number, and numbers that no rule has; and what takes much room
FEW = {**{'rule %d' % n: 15 for n in range(16)}, **{'no rule %d' % n: 40 for n in [1] + NO_SUCH}}
LONG_ONES = {'a long round': 20, 'a long round, 18': 10, 'more than 65535 of a name': 3}


def other_readings(case, sheet, said):
    """The readings by which a case is due another round. A round that is read wrongly may have no end, so only its beginning is looked at."""
    if 0 < said.answer < 100:
        rule = sheet.rules[case.number]
        for word, moment in READINGS.items():
            begun = (name for name in itertools.islice(steps(rule, case.choice, moment), 500) if name is not None)
            if tuple(itertools.islice(begun, said.answer + 1)) != chosen(rule, case.choice):
                yield word


def features(case, sheet, said):
    """What a case is, by a word for each thing."""
    if said.answer == -17:
        yield from ('refusal 17', 'no rule %d' % case.number)
        if case.length == 0 or case.length >= 20:
            yield 'refusal 17 with room' if case.length else 'refusal 17 without an output'
        return
    rule = sheet.rules[case.number]
    names = chosen(rule, case.choice)
    least = RECORD * len(names)
    if case.length == least:
        yield 'just the round'
    if case.length == least - 1:
        yield 'one byte less'
    if len(names) > LONG:
        yield 'a long round' if said.answer > 0 else 'a long round, 18'
    if case.length in (0, 12):
        yield '12 bytes of output' if case.length else 'no output'
    if not case.choice:
        yield 'no choice bytes'
    if said.answer == -18:
        yield 'refusal 18'
    else:
        yield from played_features(case, sheet, rule, names)


def played_features(case, sheet, rule, names):
    looked = looked_at(rule, names)
    yield from ('records', 'rule %d' % case.number, 'time %d' % case.time, 'kind %d' % rule.kind, 'version %d' % sheet.version)
    yield 'bytes after the round' if looked < len(case.choice) else 'bytes missing' if looked > len(case.choice) else ''
    if len(names) > 65535 and max(Counter(names).values()) > 65535:
        yield 'more than 65535 of a name'
    if any(byte > 8 for byte in case.choice[:looked]):
        yield 'a byte above n'
    yield from {'join %d' % f.join for f in rule.p + rule.q if len(f.ranges) > 1}
    if any(r.v == 0 for f in rule.p + rule.q for r in f.ranges):
        yield 'no upper end'


def hold_met(met, fewer):
    assert all(met[feature] >= AT_LEAST for feature in FEATURES), {f: met[f] for f in FEATURES if met[f] < AT_LEAST}
    assert all(met[feature] >= least for feature, least in fewer.items()), met
