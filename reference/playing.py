"""One round of a rule, picked by choice bytes (document 02, change 5).

The rounds of a rule are taken from what a rule means, by guard.py's cut and, a second time, by words.py's words written out. The
round that bytes pick is written from the words of docs/PLAYING.md, and every choice of bytes and every round of small rules is
held to the rounds; so is each row of that page's tables.
"""

import functools
import itertools
import os
import re
import struct

import guard
from guard import ALL, ALL_SHUFFLED, ANY, ANY_SHUFFLED, IN_ANY_MIX, JOINS, MOST, SOME_WILL_DO, WHOLE, Cut, Event, Fragment, Range, Rule, Sheet, names_of
from words import BOUNDS, ordering_words, pair

NO_RULE, LONGER = 17, 18
RECORD = 5


# ---------------------------------------------------------------------------------------------
# The rounds of a rule: "each a P and then one i", "each a P and then a Q"; "For kind 0 a round ends with the first trigger."
# ---------------------------------------------------------------------------------------------

def is_round(rule, names, time=0):
    """Whether events on these names, all at that time, are one round."""
    cut = Cut(rule, [Event(name, time) for name in names], time)
    return cut.n in cut.round_ends(0)


def rounds(rule, most):
    """Every round of at most `most` events. At one time every deadline is kept."""
    ends = ordering_words(rule.q, most) if rule.kind == 2 else {(rule.trigger,)}
    return {p + end for p in ordering_words(rule.p, most) for end in ends if len(p + end) <= most}


# ---------------------------------------------------------------------------------------------
# The round that bytes pick: docs/PLAYING.md, "The rule"
# ---------------------------------------------------------------------------------------------

def fragments_of(rule):
    """A round goes through its fragments one after the other; a trigger is a last fragment of one range [1,1]."""
    return rule.p + (rule.q if rule.kind == 2 else (Fragment(ALL, (Range(rule.trigger, 1, 1),)),))


class Moment:
    """A current fragment, how often each of its names has come, and which came last."""

    def __init__(self, fragment):
        self.join, self.ranges = fragment.join, fragment.ranges
        self.come, self.last = dict.fromkeys((r.name for r in fragment.ranges), 0), None

    def takes_one_more(self, r):
        return r.v == 0 or self.come[r.name] < r.v

    def has_its_u(self, r):
        return self.come[r.name] >= r.u

    def may_come(self, r):
        if self.join in IN_ANY_MIX or r == self.last:
            return self.takes_one_more(r)
        return self.come[r.name] == 0 and (self.last is None or self.has_its_u(self.last))

    def may_be_left_out(self, r):
        return self.join in SOME_WILL_DO and self.come[r.name] == 0

    def may_be_left(self):
        return self.last is not None and all(self.has_its_u(r) or self.may_be_left_out(r) for r in self.ranges)

    def needed(self):
        lacking = [r for r in self.ranges if not self.has_its_u(r)]
        begun = [r for r in lacking if self.come[r.name] > 0]
        return (begun or lacking)[0]

    def towards_the_end(self):
        return None if self.may_be_left() else self.needed()

    def picked(self, byte):
        """The range whose name one byte writes; None where it leaves the fragment."""
        k = byte % (len(self.ranges) + 1)
        if k > 0 and self.may_come(self.ranges[k - 1]):
            return self.ranges[k - 1]
        return self.towards_the_end()

    def write(self, r):
        self.come[r.name] += 1
        self.last = r


def steps(rule, choice, moment=Moment):
    """What each byte does until the round is over, the missing ones too: a name, or None where a fragment is left."""
    following = itertools.chain(choice, itertools.repeat(0))
    for fragment in fragments_of(rule):
        at = moment(fragment)
        r = at.picked(next(following))
        while r is not None:
            at.write(r)
            yield r.name
            r = at.picked(next(following))
        yield None


@functools.lru_cache(maxsize=16)
def chosen(rule, choice, moment=Moment):
    """The names of the round that the bytes pick."""
    return tuple(name for name in steps(rule, choice, moment) if name is not None)


def looked_at(rule, names):
    """How many bytes are looked at until the round is over, the missing ones too: one for each name, and one for each fragment that is left."""
    return len(names) + len(fragments_of(rule))


def bytes_of(rule, names):
    """Bytes that pick a round: for each fragment the numbers of its ranges, from 1 on, in the order in which their names come, and then a 0."""
    out = []
    for fragment in fragments_of(rule):
        places = {r.name: k for k, r in enumerate(fragment.ranges, 1)}
        out += [places[name] for name in names if name in places] + [0]
    return bytes(out)


# ---------------------------------------------------------------------------------------------
# The call
# ---------------------------------------------------------------------------------------------

def records(names, time):
    return b''.join(struct.pack('<BI', name, time) for name in names)


def play(sheet, number, time, choice, out):
    """The number of records, which are written into `out`, a bytearray; or minus 17 or 18, and nothing is."""
    if number >= len(sheet.rules):
        return -NO_RULE
    names = chosen(sheet.rules[number], choice)
    if len(names) > len(out) // RECORD:
        return -LONGER
    out[:RECORD * len(names)] = records(names, time)
    return len(names)


# ---------------------------------------------------------------------------------------------
# The page's examples
# ---------------------------------------------------------------------------------------------

PAGE = os.path.join(os.path.dirname(os.path.abspath(__file__)), '..', 'docs', 'PLAYING.md')
JOIN_WORDS = {'all': ALL, 'any': ANY, 'all, shuffled': ALL_SHUFFLED, 'any, shuffled': ANY_SHUFFLED}


def letter(text):
    return ord(text) - ord('a')


def page_ordering(text):
    """Fragments in the page's words, such as all(a[1,1] b[2,]): no upper end is a v of 0."""
    def ranges(words):
        return tuple(Range(letter(name), int(u), int(v or 0)) for name, u, v in re.findall(r'(\w)\[(\d+),(\d*)\]', words))
    return tuple(Fragment(JOIN_WORDS[join], ranges(words)) for join, words in re.findall(r'((?:all|any)(?:, shuffled)?) ?\(([^)]*)\)', text))


def page_rules(text):
    """The rules that a heading stands for: of kinds 0 and 1, or with a Q of kind 2 and any t."""
    p, trigger, q = re.fullmatch(r'P = (.*), (?:trigger (\w)|Q = (.*))', text).groups()
    if q is None:
        return [Rule(kind, page_ordering(p), (), letter(trigger), 0) for kind in (0, 1)]
    return [Rule(2, page_ordering(p), page_ordering(q), 0, t) for t in (0, 10, MOST)]


def page_words(cell):
    """What a cell of a table says, word for word: `02 02`, or 300 times `01`."""
    return [word for times, words in re.findall(r'(?:(\d+) times )?`([^`]*)`', cell) for word in words.split() * int(times or 1)]


def page_examples():
    """Each row of the page's tables: a rule, choice bytes, and the names due. A row counts once for each rule that its heading stands for."""
    with open(PAGE, encoding='utf-8') as f:
        lines = f.read().split('\n## Examples\n')[1].split('\n## ')[0].splitlines()
    rules = []
    for line in lines:
        heading = re.match(r'\*\*(P = .*?)\.?\*\*', line)
        if heading:
            rules = page_rules(heading[1])
        elif line.startswith('| ') and not line.startswith('| choice bytes '):
            choice, names, _ = line.strip('|').split('|', 2)
            assert choice.strip() == 'none' or page_words(choice), line
            for rule in rules:
                yield rule, bytes(int(word, 16) for word in page_words(choice)), tuple(letter(word) for word in page_words(names))


# ---------------------------------------------------------------------------------------------
# What is held
# ---------------------------------------------------------------------------------------------

ROWS = 14        # of the page's tables, at least


def sheet_of(*rules):
    return Sheet(sum({1 << r.name for rule in rules for fragment in rule.q for r in fragment.ranges}), rules, 2)


def hold_examples():
    """The rounds of the page's tables are picked, they are rounds, and a monitor of the rule finds them whole."""
    rows = set()
    for rule, choice, names in page_examples():
        rows.add((rule.p, choice))
        assert chosen(rule, choice) == names, (rule, choice, names, chosen(rule, choice))
        assert looked_at(rule, names) == sum(1 for _ in steps(rule, choice))
        assert is_round(rule, names) and is_round(rule, names, MOST), (rule, names)
        if len(names) < 20:
            result = guard.run(guard.write(sheet_of(rule)), records(names, 7), MOST)
            assert result == (WHOLE, 0, 0, len(names), 0), (rule, names, result)
    assert len(rows) >= ROWS, len(rows)


def one(join, name, bounds):
    return Fragment(join, (Range(name, *bounds),))


def three(join, *bounds):
    return Fragment(join, tuple(Range(name, *b) for name, b in enumerate(bounds)))


def small_rules():
    """Rules of every kind with one to three fragments in P, of one to three ranges, joined in every way, with and without upper ends."""
    orderings = [(pair(join, first, second),) for join, first, second in itertools.product(JOINS, BOUNDS, BOUNDS)]
    orderings += [(one(join, 0, bounds),) for join, bounds in itertools.product(JOINS, BOUNDS)]
    orderings += [(three(join, (1, 1), middle, (1, 2)),) for join, middle in itertools.product(JOINS, [(1, 0), (2, 0)])]
    orderings += [(one(ALL, 0, (1, 2)), one(join, 1, (1, 0)), one(ANY, 2, (2, 2))) for join in JOINS]
    orderings += [(pair(first, (1, 2), (2, 0)), one(ALL, 2, (1, 0)), one(ANY, 3, (2, 2)))[:size] for first, size in itertools.product(JOINS, (2, 3))]
    orderings += [(one(ALL, 2, (1, 2)), pair(last, (2, 2), (1, 0))) for last in JOINS]
    for i, p in enumerate(orderings):
        yield Rule(i % 2, p, (), 9, 0)
        yield Rule(2, p, (Fragment(JOINS[i % 4], (Range(10, *BOUNDS[i % 5]), Range(11, 1, 1))[:1 + i % 2]),), 0, 0)


MOST_STRINGS = 1100


def hold_rule(rule):
    """Every string of bytes up to a length picks a round, and every round up to the length that they suffice for is picked by one of them.
    It is picked by its own bytes too, and so are longer ones."""
    fragments = fragments_of(rule)
    numbers = range(max(len(fragment.ranges) for fragment in fragments) + 1)
    length = max(n for n in range(1, 20) if len(numbers) ** n <= MOST_STRINGS)
    picked = {choice: chosen(rule, choice) for choice in itertools.product(numbers, repeat=length)}
    for n in range(length):
        for choice in itertools.product(numbers, repeat=n):
            assert chosen(rule, choice) == picked[choice + (0,) * (length - n)], (rule, choice)     # missing choice bytes counting as 0
    found = set(picked.values())
    assert all(is_round(rule, names) for names in found), rule
    most = length - len(fragments) + 1       # of a round's own bytes the last one is a 0, and need not be there
    due = rounds(rule, most)
    assert {names for names in found if len(names) <= most} == due, rule
    longer = rounds(rule, max(most + 2, len(chosen(rule, b'')) + 1))
    assert all(is_round(rule, names) and chosen(rule, bytes_of(rule, names)) == names for names in longer), rule
    return len(due), len(longer)


def hold_words():
    """The two readings of the rounds agree, on every word of up to six events."""
    for join in JOINS:
        for rule in (Rule(1, (pair(join, (1, 2), (2, 0)),), (), 9, 0), Rule(2, (pair(join, (2, 2), (1, 0)),), (one(join, 9, (1, 2)),), 0, 0)):
            due = rounds(rule, 6)
            for n in range(7):
                for names in itertools.product(sorted(names_of(rule)), repeat=n):
                    assert is_round(rule, names) == (names in due), (rule, names)


def hold_rules():
    """How many rules, and rounds that were looked for among all strings of bytes and by their own. A rule whose shortest round is too long for the one still has the other."""
    held = [hold_rule(rule) for rule in small_rules()]
    assert sum(due > 0 for due, _ in held) >= 300 and all(longer > 0 for _, longer in held), held
    return len(held), sum(due for due, _ in held), sum(longer for _, longer in held)


def hold_call():
    """17 before 18, neither writes; just the round's length is enough, and what stands behind it stays."""
    rule = Rule(1, (pair(ALL, (1, 1), (1, 2)),), (), 9, 0)
    sheet = sheet_of(rule, rule._replace(kind=0))
    due = bytes.fromhex('01 78563412 01 78563412 00 78563412 09 78563412')
    for number, length in itertools.product((0, 1, 2, 15, 16, 255, 65536, MOST), range(30)):
        out = bytearray(b'\xA5' * length)
        said = play(sheet, number, 0x12345678, b'\2\2', out)
        if number < 2 and length >= 20:
            assert said == 4 and out == due + b'\xA5' * (length - 20), (number, length)
        else:
            assert said == (-18 if number < 2 else -17) and out == b'\xA5' * length, (number, length)


def hold():
    hold_examples()
    hold_words()
    hold_call()
    return hold_rules()


if __name__ == '__main__':
    print('rules: %d, rounds found among all strings of bytes: %d, rounds picked by their own: %d' % hold())
