"""The configurations that are measured, as C: python3 configurations.py > configurations.h

Each has a sheet, names that open the log once, and the names of one round, which follow again and again. Record i has
the time i. A log never breaks a rule, so that no record is looked at by a stopped book.

A round that is played has a sheet, a rule's number and choice bytes (docs/PLAYING.md).
"""

import os
import random
import sys
from collections import namedtuple

sys.dont_write_bytecode = True
sys.path.insert(0, os.path.join(os.path.dirname(os.path.abspath(__file__)), '..', 'reference'))
from guard import ALL, ALL_SHUFFLED, ANY, ANY_SHUFFLED, CLOCK, Fragment, Range, Rule, Sheet
from sheets import written

ONCE, REPEATED, TIMED = 0, 1, 2
FOREIGN = 63
NO_UPPER_END = 0       # as v

# figure and table: (operations, bits) that the papers give the direct monitor, Figure 6 of document 003 and Table 7.2 of document 000
Configuration = namedtuple('Configuration', 'part title sheet opening round figure table', defaults=(None, None))


def one(name, u=1, v=1):
    return Fragment(ALL, (Range(name, u, v),))


def some(join, *names):
    return Fragment(join, tuple(Range(n, 1, 1) for n in names))


def requirement(kind, p, trigger):
    return Rule(kind, tuple(p), (), trigger, 0)


def timed(p, q, t):
    return Rule(TIMED, tuple(p), tuple(q), 0, t)


def sheet(*rules):
    """The names of every Q are outputs, and all others inputs. The version is 2 where a fragment is shuffled or a range has no upper end."""
    outputs = {r.name for rule in rules for f in rule.q for r in f.ranges}
    fragments = [f for rule in rules for f in rule.p + rule.q]
    newer = any(f.join in (ALL_SHUFFLED, ANY_SHUFFLED) or any(r.v == NO_UPPER_END for r in f.ranges) for f in fragments)
    return Sheet(sum(1 << n for n in outputs), rules, 2 if newer else 1)


# ---------------------------------------------------------------------------------------------
# 1 and 16 rules: one shape of each pattern, over four names a, b, c, d; its round is a b c c c d
# ---------------------------------------------------------------------------------------------

ROUND = (0, 1, 2, 2, 2, 3)
BUSY = (0, 1)          # after these a deadline of the timed shape runs
LONG = 0xFFFFFFFF      # a deadline that no log here reaches


def required(a=0):
    return requirement(REPEATED, (some(ALL, a, a + 1), one(a + 2, 2, 4)), a + 3)


def within(a=0, t=1000):
    return timed((some(ANY, a, a + 1),), (one(a + 2, 2, 4), one(a + 3)), t)


def disjoint(shape, names=ROUND):
    """Sixteen rules with four names each; their rounds go side by side, so that every record concerns one of them in turn."""
    return sheet(*(shape(4 * r) for r in range(16))), [4 * r + n for n in names for r in range(16)]


def general():
    yield Configuration('general', '1 rule: ({a,b},∧) < c[2,4] ≪ d, repeated', sheet(required()), (), ROUND)
    yield Configuration('general', '1 rule: ({a,b},∨) ⇒ c[2,4] < d, t', sheet(within()), (), ROUND)
    yield Configuration('general', '4 rules of the case study: A2-, T1-, T2-, T3-LCDC', *case_study())
    for text, shape in (('the first', required), ('the second', within)):
        rules, names = disjoint(shape)
        yield Configuration('general', '16 rules like %s, disjoint names' % text, rules, (), names)
        yield Configuration('general', '16 rules like %s, the same names' % text, sheet(*[shape()] * 16), (), ROUND)


def case_study():
    """The liquid crystal display controller of document 000, section 3.4.3, with the least number of reads. T2's P joins the interrupts 1 and 3 by ∨:
    from the second round on it takes both."""
    set_addr, start, irq_neg = 0, 1, (2, 3, 4)
    read, irq_pos = (5, 6, 7), (8, 9, 10)

    def refresh(i):
        return one(read[i], 100, 19000), one(irq_pos[i]), one(irq_neg[i])

    rules = (requirement(ONCE, (one(set_addr),), start),
             timed((one(set_addr), one(start)), refresh(0), 300),
             timed((some(ANY, irq_neg[0], irq_neg[2]),), refresh(1), 300),
             timed((one(irq_neg[1]),), refresh(2), 300))
    names = [set_addr, start]
    for i in range(3):
        names += [read[i]] * 100 + [irq_pos[i], irq_neg[i]]
    return sheet(*rules), (), names


# ---------------------------------------------------------------------------------------------
# Shuffled fragments: each range three times, one after the other in turn, so that every record but the trigger's is on another range than the one before
# ---------------------------------------------------------------------------------------------

def fragment(join, count, a=0):
    return Fragment(join, tuple(Range(a + i, 2, 4) for i in range(count)))


def mixed(count, a=0):
    return requirement(REPEATED, (fragment(ALL_SHUFFLED, count, a),), a + count)


def in_turn(count):
    return [*range(count)] * 3 + [count]


def in_blocks(count):
    return [n for n in range(count) for _ in range(3)] + [count]


def shuffled():
    for count, names in ((2, 'n1,n2'), (4, 'n1..n4'), (8, 'n1..n8')):
        title = '({%s}[2,4],∧,shuffled) ≪ i, repeated' % names
        yield Configuration('shuffled', '1 rule: ' + title, sheet(mixed(count)), (), in_turn(count))
        if count < 4: # of the others sixteen have more than 64 names
            rules, round_of_all = disjoint(lambda a: mixed(count, a), in_turn(count))
            yield Configuration('shuffled', '16 such rules of %d ranges, disjoint names' % count, rules, (), round_of_all)
        yield Configuration('shuffled', '16 such rules of %d ranges, the same names' % count, sheet(*[mixed(count)] * 16), (), in_turn(count))
    blocks = requirement(REPEATED, (fragment(ALL, 8),), 8)
    yield Configuration('shuffled', '1 rule: ({n1..n8}[2,4],∧) ≪ i, repeated: in blocks', sheet(blocks), (), in_blocks(8))
    some_of_four = timed((one(4),), (fragment(ANY_SHUFFLED, 4),), 1000)
    yield Configuration('shuffled', '1 rule: n ⇒ ({n1..n4}[2,4],∨,shuffled), t', sheet(some_of_four), (), [4] + in_turn(4)[:-1])
    yield Configuration('shuffled', '1 rule: T1-IPU, the two kinds of read in turn', *alternating())


def alternating():
    """The image processing unit of document 000, section 3.4.2: between fragments of one range a shuffled one of two, whose calls alternate, 100 of each. The thesis has
    [10000,2000000] for the gallery, which is beyond a sheet's v."""
    set_addr, start, image, gallery, irq_pos, irq_neg = range(6)
    reads = Fragment(ALL_SHUFFLED, (Range(image, 100, 19000), Range(gallery, 100, 65535)))
    rule = timed((one(set_addr), one(start)), (reads, one(irq_pos), one(irq_neg)), 500)
    return sheet(rule), (), [set_addr, start] + [image, gallery] * 100 + [irq_pos, irq_neg]


# ---------------------------------------------------------------------------------------------
# Ranges without an upper end, at work: twenty calls of each in a round, in a row or in turn
# ---------------------------------------------------------------------------------------------

MANY = 20


def endless(join, count, a=0):
    return requirement(REPEATED, (Fragment(join, tuple(Range(a + i, 2, NO_UPPER_END) for i in range(count))),), a + count)


def without_upper_end():
    for join, count, title in ((ALL, 1, 'n[2,∞] ≪ i, repeated'), (ALL_SHUFFLED, 2, '({n1,n2}[2,∞],∧,shuffled) ≪ i, repeated')):
        names = [*range(count)] * MANY + [count]
        such = '16 such rules of %d endless range%s, ' % (count, 's' * (count > 1))
        yield Configuration('endless', '1 rule: ' + title, sheet(endless(join, count)), (), names)
        rules, round_of_all = disjoint(lambda a: endless(join, count, a), names)
        yield Configuration('endless', such + 'disjoint names', rules, (), round_of_all)
        yield Configuration('endless', such + 'the same names', sheet(*[endless(join, count)] * 16), (), names)
    progress = timed((one(0),), (one(1, 2, NO_UPPER_END), one(2)), LONG)
    yield Configuration('endless', '1 rule: n1 ⇒ n2[2,∞] < n3, t', sheet(progress), (), [0] + [1] * MANY + [2])
    growing = timed((one(0, 1, NO_UPPER_END),), (one(1),), LONG)
    yield Configuration('endless', '1 rule: n1[1,∞] ⇒ n2, t: n1 again and again', sheet(growing), (), (0,))


# ---------------------------------------------------------------------------------------------
# Most names in Q: where a sheet's reader looks at a name for its direction too, before it looks whether the rule has it
# ---------------------------------------------------------------------------------------------

def many_in_q():
    seven = [some(ALL, *range(a, a + 8)) for a in range(1, 57, 8)]
    rule = timed((one(0),), seven, LONG)
    yield Configuration('names', '16 rules: n ⇒ seven of ({n1..n8},∧), t, the same names', sheet(*[rule] * 16), (), range(57))


# ---------------------------------------------------------------------------------------------
# The configurations of the papers
# ---------------------------------------------------------------------------------------------

def before(kind, *p):
    """An ordering before the trigger, the name after P's."""
    names = [r.name for f in p for r in f.ranges]
    trigger = max(names) + 1
    return sheet(requirement(kind, p, trigger)), (), [r.name for f in p for r in f.ranges for _ in range(r.u)] + [trigger]


def implies(*q):
    return sheet(timed((one(0),), q, 1000)), (), [0] + [r.name for f in q for r in f.ranges for _ in range(r.u)]


def papers():
    yield Configuration('paper', '(n ≪ i, true)', *before(REPEATED, one(0)), (80, 192), (99, 496))
    yield Configuration('paper', '(n[100,60000] ≪ i, true)', *before(REPEATED, one(0, 100, 60000)), (80, 192))
    yield Configuration('paper', '(n[100,19000] ≪ i, true)', *before(REPEATED, one(0, 100, 19000)), None, (99, 496))
    four, five = some(ALL, *range(4)), some(ALL, *range(5))
    yield Configuration('paper', '(({n1..n4},∧) ≪ i, false)', *before(ONCE, four), (230, 1132), (279, 1384))
    yield Configuration('paper', 'the same, repeated', *before(REPEATED, four), (230, 1132), (279, 1384))
    yield Configuration('paper', '(({n1..n5},∧) ≪ i, false)', *before(ONCE, five), (280, 1568), (339, 1680))
    yield Configuration('paper', 'the same, repeated', *before(REPEATED, five), (280, 1568), (339, 1680))
    yield Configuration('paper', '(n1 ⇒ n2 < n3 < n4, T)', *implies(one(1), one(2), one(3)), (296, 1051), (379, 1888))
    yield Configuration('paper', '(n1 ⇒ n2[100,60000] < n3 < n4, T)', *implies(one(1, 100, 60000), one(2), one(3)), (296, 1051))


# ---------------------------------------------------------------------------------------------
# Records that concern no rule
# ---------------------------------------------------------------------------------------------

def quiet():
    one_rule, sixteen = sheet(required()), sheet(*[required()] * 16)
    yield Configuration('quiet', 'event on no rule\'s name, 1 rule', one_rule, BUSY, (FOREIGN,))
    yield Configuration('quiet', 'event on no rule\'s name, 16 rules', sixteen, BUSY, (FOREIGN,))
    yield Configuration('quiet', 'clock reading, 1 rule', one_rule, BUSY, (CLOCK,))
    yield Configuration('quiet', 'clock reading, 16 rules', sixteen, BUSY, (CLOCK,))
    yield Configuration('quiet', 'clock reading, 1 rule whose deadline runs', sheet(within(0, LONG)), BUSY, (CLOCK,))
    yield Configuration('quiet', 'clock reading, 16 rules whose deadlines run', sheet(*[within(0, LONG)] * 16), BUSY, (CLOCK,))


# ---------------------------------------------------------------------------------------------
# Rounds that are played: by no bytes, by random ones, the same in each run, and by many
# ---------------------------------------------------------------------------------------------

Played = namedtuple('Played', 'title sheet rule choice')


def some_bytes(count):
    return random.Random(count).choices(range(256), k=count)


def full():
    """Every name in one rule: four fragments of eight ranges in P, and as many in Q."""
    fragments = [Fragment(ALL, tuple(Range(8 * f + i, 1, 3) for i in range(8))) for f in range(8)]
    return timed(fragments[:4], fragments[4:], 0)


def played():
    few, title = sheet(required()), '({a,b},∧) < c[2,4] ≪ d'
    yield Played('1 rule: %s, no bytes' % title, few, 0, ())
    yield Played('1 rule: %s, random bytes' % title, few, 0, some_bytes(12))
    yield Played('the last of 16 such rules, disjoint names, no bytes', disjoint(required)[0], 15, ())
    yield Played('1 rule: four fragments of {n1..n8}[1,3],∧ ⇒ four, no bytes', sheet(full()), 0, ())
    yield Played('1 rule: four fragments of {n1..n8}[1,3],∧ ⇒ four, random bytes', sheet(full()), 0, some_bytes(400))
    yield Played('1 rule: ({n1..n8}[2,4],∧,shuffled) ≪ i, random bytes', sheet(mixed(8)), 0, some_bytes(60))
    yield Played('1 rule: n1 ⇒ n2[100,60000] < n3 < n4, no bytes', implies(one(1, 100, 60000), one(2), one(3))[0], 0, ())
    yield Played('1 rule: n[2,∞] ≪ i, 10,000 events', sheet(endless(ALL, 1)), 0, [1] * 10000)


# ---------------------------------------------------------------------------------------------

def names_of(rule):
    return [r.name for f in rule.p + rule.q for r in f.ranges] + ([] if rule.kind == TIMED else [rule.trigger])


def tables_bits(rules):
    """What a book has of these rules alone, in bits: a cell of 64 for each name of a rule, its trigger included, and a word of 64 for its t."""
    return sum(64 * len(names_of(rule)) + 64 for rule in rules)


def array(values):
    return '(const uint8_t[]){%s}, %d' % (', '.join(map(str, values)) or '0', len(values))


def entry(c):
    assert c.part != 'paper' or not any(FOREIGN in names_of(rule) for rule in c.sheet.rules)
    numbers = (c.figure or (0, 0)) + (c.table or (0, 0)) + (len(c.sheet.rules), tables_bits(c.sheet.rules))
    return '    {"%s", "%s", %s, %s, %s, %s},' % (
        c.part, c.title, array(written(c.sheet)[0]), array(c.opening), array(c.round), ', '.join(map(str, numbers)))


if __name__ == '__main__':
    print('enum { FOREIGN = %d }; /* a name that no rule of a paper\'s configuration has */\n' % FOREIGN)
    print('static const configuration configurations[] = {')
    for group in (general(), shuffled(), without_upper_end(), many_in_q(), papers(), quiet()):
        for configuration in group:
            print(entry(configuration))
    print('};\n')
    print('static const round_played rounds[] = {')
    for p in played():
        print('    {"%s", %s, %d, %s},' % (p.title, array(written(p.sheet)[0]), p.rule, array(p.choice)))
    print('};')
