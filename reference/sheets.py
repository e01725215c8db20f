"""Sheets for the cases: a writer of sheet bytes that remembers its fields, random rules, and faults.

A fault is one field of a sound sheet with a value that one refusal names. What the reader must say
of it follows from the fault itself: the refusal's number at the field's offset.
"""

from collections import namedtuple

from guard import LAST_JOIN, Fragment, Range, Rule, Sheet, names_of

# what: the field's kind. rule: the rule it stands in (None in the header). used: the names that the
# rule has before this field. low: for a v, the u before it.
Field = namedtuple('Field', 'at size what rule used low')


class Dice:
    """Choices from one stream of numbers in [0, 1), so that every Python gives the same ones."""

    def __init__(self, random):
        self.random = random

    def below(self, n):
        return int(self.random() * n)

    def between(self, low, high):
        return low + self.below(high - low + 1)

    def chance(self, p):
        return self.random() < p

    def pick(self, items):
        return items[self.below(len(items))]

    def shuffled(self, items):
        out = list(items)
        for i in range(len(out) - 1, 0, -1):
            j = self.below(i + 1)
            out[i], out[j] = out[j], out[i]
        return out


# ---------------------------------------------------------------------------------------------
# Writing a sheet
# ---------------------------------------------------------------------------------------------

class Writer:
    def __init__(self):
        self.data, self.fields = bytearray(), []

    def put(self, value, size, what, rule=None, used=(), low=0):
        self.fields.append(Field(len(self.data), size, what, rule, frozenset(used), low))
        self.data += value.to_bytes(size, 'little')


def written(sheet):
    """The bytes of a sheet and the list of its fields."""
    w = Writer()
    w.put(int.from_bytes(b'LOB', 'little'), 3, 'mark')
    w.put(sheet.version, 2, 'version')
    w.put(sheet.outputs, 8, 'outputs')
    w.put(len(sheet.rules), 1, 'rule count')
    for rule in sheet.rules:
        timed = rule.kind == 2
        w.put(rule.kind, 1, 'kind', rule)
        w.put(len(rule.p), 1, 'P count', rule)
        w.put(len(rule.q), 1, 'Q count' if timed else 'zero Q count', rule)
        w.put(rule.trigger, 1, 'zero trigger' if timed else 'trigger', rule)
        w.put(rule.t, 4, 't' if timed else 'zero t', rule)
        used = set() if timed else {rule.trigger}
        for part, ordering in (('P', rule.p), ('Q', rule.q)):
            for fragment in ordering:
                w.put(fragment.join, 1, 'join', rule)
                w.put(len(fragment.ranges), 1, 'range count', rule)
                for r in fragment.ranges:
                    w.put(r.name, 1, part + ' name', rule, used)
                    used.add(r.name)
                    w.put(r.u, 2, 'u', rule)
                    w.put(r.v, 2, 'v', rule, (), r.u)
    return bytes(w.data), w.fields


# ---------------------------------------------------------------------------------------------
# Random rules
# ---------------------------------------------------------------------------------------------

def some_range(dice, name, version):
    """Small bounds as a rule; now and then a large v, and seldom a large u. From version 2 on one range in four has no upper end."""
    u = dice.pick([1, 1, 1, 2, 2, 3])
    v = u + dice.pick([0, 0, 0, 1, 1, 2])
    if dice.chance(0.03):
        v = dice.pick([255, 256, 1000, 65535])
        u = dice.pick([u, u, v])
    return Range(name, u, 0 if version > 1 and dice.chance(0.25) else v)


RANGE_COUNTS = {1: [1, 1, 1, 2, 2, 3], 2: [1, 2, 2, 3, 3, 4]}    # by version: a mix needs two ranges


def some_fragment(dice, names, version):
    count = min(len(names), dice.pick(RANGE_COUNTS[version]))
    return Fragment(dice.below(LAST_JOIN[version] + 1), tuple(some_range(dice, names.pop(), version) for _ in range(count)))


def some_ordering(dice, names, version):
    """One to three fragments; what they use is taken off the end of `names`, which is not empty."""
    fragments = [some_fragment(dice, names, version)]
    for _ in range(dice.pick([0, 0, 0, 0, 1, 1, 2])):
        if names:
            fragments.append(some_fragment(dice, names, version))
    return tuple(fragments)


def some_rule(dice, pool, outputs, kind, version=1):
    """A rule on names of the pool, which has at least two inputs and two outputs."""
    inputs = dice.shuffled([n for n in pool if not outputs >> n & 1])
    plugin = dice.shuffled([n for n in pool if outputs >> n & 1])
    if kind == 2:
        q = some_ordering(dice, plugin, version)
        p = some_ordering(dice, dice.shuffled(inputs + plugin), version)
        return Rule(2, p, q, 0, dice.pick([0, 1, 2, 3, 5, 10, 10, 100, 4294967295]))
    trigger = inputs.pop()
    return Rule(kind, some_ordering(dice, dice.shuffled(inputs + plugin), version), (), trigger, 0)


def other_bounds(dice, r, version):
    """Bounds that differ by one at most, where they can; from version 2 on now and then no upper end where there was one, and the other way round."""
    u = min(max(1, r.u + dice.pick([-1, 0, 0, 1])), 65535)
    v = min(max(u, r.v + dice.pick([-1, 0, 1])), 65535)
    if version > 1 and (r.v == 0) != dice.chance(0.2):
        v = 0
    return Range(r.name, u, v)


def other_join(dice, join, version):
    """Now and then the other of all and any; from version 2 on also shuffled where it was not, and the other way round."""
    join ^= dice.chance(0.2)
    return join ^ 2 if version > 1 and dice.chance(0.2) else join


def variant(dice, rule, version=1):
    """A rule on the same names in the same places, so that one log goes some way through both."""
    def ordering(fragments):
        return tuple(Fragment(other_join(dice, f.join, version), tuple(other_bounds(dice, r, version) for r in f.ranges))
                     for f in fragments)
    kind = rule.kind if rule.kind == 2 or dice.chance(0.5) else 1 - rule.kind
    t = dice.pick([rule.t, 0, 1, 5, 10]) if kind == 2 else 0
    return Rule(kind, ordering(rule.p), ordering(rule.q), rule.trigger, t)


def some_pool(dice, size):
    """Names for one or more rules, and the set of outputs, which has every second one of them."""
    pool = dice.shuffled(range(64 if dice.chance(0.5) else size))[:size]
    if 63 not in pool and dice.chance(0.3):
        pool[dice.below(size)] = 63
    outputs = 0 if dice.chance(0.5) else dice.below(1 << 32) | dice.below(1 << 32) << 32
    for i, name in enumerate(pool):
        bit = 1 << name
        outputs = outputs | bit if i % 2 == 0 else outputs & ~bit
    return pool, outputs


def some_kind(dice):
    return dice.pick([0, 1, 1, 2, 2, 2])


def some_sheet(dice, shared, version=1):
    """One to four rules. If shared, they have names in common: two to four variants of one rule, or
    rules on one small pool of names. Else no name is in two rules."""
    count = dice.pick([1, 1, 1, 1, 2, 2, 3, 4])
    if shared:
        pool, outputs = some_pool(dice, dice.pick([4, 6, 8, 12]))
        rules = [some_rule(dice, pool, outputs, some_kind(dice), version) for _ in range(count)]
        if dice.chance(0.7):
            rules = rules[:1] + [variant(dice, rules[0], version) for _ in range(max(1, count - 1))]
        rules = dice.shuffled(rules)
    else:
        pool, outputs = some_pool(dice, 12 * count)
        rules = [some_rule(dice, pool[12 * i:12 * i + 12], outputs, some_kind(dice), version) for i in range(count)]
    return Sheet(outputs, tuple(rules), version)


def largest_sheet(version=1):
    """Sixteen rules of kind 2, each with sixteen fragments and all 64 names: 5,774 bytes. In version 2 every join and every fourth range without an upper end."""
    def ordering(first):
        joins, tops = LAST_JOIN[version] + 1, (1, 2, 3, 4 if version == 1 else 0)
        return tuple(Fragment(i % joins, tuple(Range(first + 4 * i + j, 1, v) for j, v in enumerate(tops))) for i in range(8))
    rule = Rule(2, ordering(0), ordering(32), 0, 7)
    return Sheet((1 << 64) - (1 << 32), (rule,) * 16, version)


# ---------------------------------------------------------------------------------------------
# Faults
# ---------------------------------------------------------------------------------------------

def outside(low, high):
    """Values of a byte outside low to high, those next to it among them."""
    def value(dice, sheet, field):
        near = [x for x in (low - 1, high + 1, 255) if 0 <= x <= 255]
        return dice.pick(near) if dice.chance(0.6) else dice.pick([x for x in range(256) if not low <= x <= high])
    return value


def one_of(*values):
    def value(dice, sheet, field):
        return dice.pick(values)
    return value


def no_join(dice, sheet, field):
    """A join outside those of the sheet's version."""
    return outside(0, LAST_JOIN[sheet.version])(dice, sheet, field)


def join_past(by):
    """A join so far past the last one of the sheet's version: in version 1 that of a later version."""
    def value(dice, sheet, field):
        return LAST_JOIN[sheet.version] + by
    return value


def above_63(dice, sheet, field):
    return dice.pick([64, 65, 70, 127, 128, 200, 255])


def other_mark(dice, sheet, field):
    mark = bytearray(b'LOB')
    mark[dice.below(3)] ^= 1 << dice.below(8)
    return int.from_bytes(mark, 'little')


def too_small(dice, sheet, field):
    """A v below u: in version 1 also 0, which from version 2 on is no bound."""
    if sheet.version == 1:
        return dice.pick([0, field.low - 1, dice.below(field.low)])
    return dice.pick([1, field.low - 1]) if field.low > 1 else None


def is_output(sheet, name):
    return sheet.outputs >> name & 1 == 1


def in_rule(dice, sheet, field):
    return dice.pick(sorted(field.used)) if field.used else None


def input_in_rule(dice, sheet, field):
    names = sorted(n for n in field.used if not is_output(sheet, n))
    return dice.pick(names) if names else None


def output_in(part):
    """An output that the rule has before this field, in P or in Q."""
    def value(dice, sheet, field):
        ordering = field.rule.p if part == 'P' else field.rule.q
        names = [r.name for fragment in ordering for r in fragment.ranges if r.name in field.used and is_output(sheet, r.name)]
        return dice.pick(names) if names else None
    return value


def again_in_q(sheet, name):
    """What a Q name that the rule has already is due. Change 6: an input meets 8 and 9, and 9 comes first; an output meets 8 alone."""
    return 8 if is_output(sheet, name) else 9


def an_output(dice, sheet, field):
    names = [n for n in range(64) if is_output(sheet, n)]
    return dice.pick(names) if names else None


def an_input(dice, sheet, field):
    """An input that the rule does not have, so that 9 alone is met."""
    names = [n for n in range(64) if not is_output(sheet, n) and n not in names_of(field.rule)]
    return dice.pick(names) if names else None


# refusal, or what gives it for the sheet and the value; kind of field; a value that the refusal names (None where the sheet has no such value); and how many bytes it has where that is not
# the field's own
Fault = namedtuple('Fault', 'refusal what value size', defaults=(None,))
FAULTS = [Fault(*row) for row in (
    (2, 'mark', other_mark),
    (3, 'version', one_of(0, 4, 256, 257, 258, 513, 65535)),
    (4, 'rule count', outside(1, 16)),
    (4, 'kind', outside(0, 2)),
    (4, 'P count', outside(1, 8)),
    (4, 'Q count', outside(1, 8)),
    (4, 'join', no_join),
    (4, 'range count', outside(1, 8)),
    (5, 'zero Q count', one_of(1, 2, 8, 9, 255)),
    (5, 'zero trigger', one_of(1, 2, 63, 64, 70, 255)),
    (5, 'zero t', one_of(1, 10, 256, 65536, 1 << 24, 4294967295)),
    (6, 'trigger', above_63),
    (6, 'P name', above_63),
    (6, 'Q name', above_63),
    (7, 'u', one_of(0)),
    (7, 'v', too_small),
    (8, 'P name', in_rule),
    (again_in_q, 'Q name', in_rule),
    (9, 'trigger', an_output),
    (9, 'Q name', an_input),
)]
# those whose number or whose values are the version's; and a u of 0 before a v of 0, which is never looked at
BOTH_VERSIONS = [Fault(3, 'version', one_of(3)), Fault(4, 'join', join_past(1)), Fault(4, 'join', join_past(2)), Fault(7, 'u', one_of(0), 4)]
VERSION_FAULTS = {1: BOTH_VERSIONS + [Fault(7, 'v', one_of(0))], 2: BOTH_VERSIONS + [Fault(7, 'v', too_small)]}
# a name that the rule has already (change 6): in Q an input is 9, and was 8; an output is 8, from P and from Q; in P, where there is no 9, both are 8
NAME_FAULTS = [Fault(*row) for row in (
    (9, 'Q name', input_in_rule),
    (8, 'Q name', output_in('P')),
    (8, 'Q name', output_in('Q')),
    (8, 'P name', input_in_rule),
    (8, 'P name', output_in('P')),
)]


def faulty(dice, sheet, fault):
    """The sheet's bytes with the fault in one field, and the refusal and place due; None if it has no such field."""
    data, fields = written(sheet)
    fields = [f for f in fields if f.what == fault.what]
    if not fields:
        return None
    field = dice.pick(fields)
    new, size = fault.value(dice, sheet, field), fault.size or field.size
    if new is None:
        return None
    refusal = fault.refusal(sheet, new) if callable(fault.refusal) else fault.refusal
    return data[:field.at] + new.to_bytes(size, 'little') + data[field.at + size:], refusal, field.at


def twice_faulty(dice, sheet, first, second):
    """Two faults in two fields of one sheet: the one that comes first in the file is due."""
    one, two = faulty(dice, sheet, first), faulty(dice, sheet, second)
    if one is None or two is None or one[2] == two[2]:
        return None
    sound = written(sheet)[0]
    mixed = bytes(a if a != s else b for a, b, s in zip(one[0], two[0], sound))
    return (mixed,) + min(one[1:], two[1:], key=lambda due: due[1])


def truncated(dice, sheet, what=None):
    """A sheet cut off in or before one of its fields, or one of this kind; None if it has no such field."""
    data, fields = written(sheet)
    fields = [f for f in fields if what in (None, f.what)]
    if not fields:
        return None
    field = dice.pick(fields)
    return data[:field.at + dice.below(field.size)], 1, field.at


def prolonged(dice, sheet):
    data, _ = written(sheet)
    return data + bytes(dice.below(256) for _ in range(dice.pick([1, 1, 2, 5, 8]))), 10, len(data)
