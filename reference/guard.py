"""The guard of document 01, with changes 1 to 3 and 6 of document 02, written a second time from its definitions.

Nothing here knows of recogniser states, of a move table or of a translated book. A sheet is read
field by field; a rule is judged by cutting the list of its own events into rounds, fragments and
blocks; a log is run by keeping the list of the observations taken and judging every rule anew at
each of them. That is slow and short, which is what it is for.

    python3 guard.py book.lob trace.lot     prints what the program prints for these two files
"""

import struct
import sys
from collections import namedtuple

WHOLE, OPEN, BROKEN, REFUSED = 0, 1, 2, 3
CLOCK = 0xFF
MOST = 4294967295
ALL, ANY, ALL_SHUFFLED, ANY_SHUFFLED = JOINS = range(4)
LAST_JOIN = {1: ANY, 2: ANY_SHUFFLED}                     # the versions of a sheet, and the last join of each
NO_UPPER_END = {1: (), 2: (0,)}                           # the v of each version that is no bound: u or more occurrences
# The faults of a range's name behind 1, which comes before any look at its value. Change 6: "At a range name the order becomes 1, 6, 9, 8"; document 01 had "1, 6, 8, 9", which is kept to
# hold what the change affects to its sentence (reused.py).
NAME_ORDER, OLD_NAME_ORDER = (6, 9, 8), (6, 8, 9)
SOME_WILL_DO, IN_ANY_MIX = (ANY, ANY_SHUFFLED), (ALL_SHUFFLED, ANY_SHUFFLED)

Range = namedtuple('Range', 'name u v')
Fragment = namedtuple('Fragment', 'join ranges')
Rule = namedtuple('Rule', 'kind p q trigger t')           # p, q: tuples of fragments
Sheet = namedtuple('Sheet', 'outputs rules version', defaults=(1,))
Event = namedtuple('Event', 'name time')                  # a clock reading has the name CLOCK
Result = namedtuple('Result', 'answer refusal mask taken place')


class Refused(Exception):
    """A refusal of a sheet: its number and the offset of the field."""

    def __init__(self, number, place):
        super().__init__(number, place)
        self.number, self.place = number, place


# ---------------------------------------------------------------------------------------------
# The sheet
# ---------------------------------------------------------------------------------------------

class Fields:
    """The bytes of a sheet, taken field by field. `at` is the offset of the field taken last; `name_order` is the order of the faults of a range's name."""

    def __init__(self, data, name_order):
        self.data, self.next, self.at, self.name_order = data, 0, 0, name_order

    def take(self, size):
        self.at = self.next
        if len(self.data) - self.at < size:
            raise Refused(1, self.at)
        self.next = self.at + size
        return self.data[self.at:self.next]

    def number(self, size):
        return int.from_bytes(self.take(size), 'little')

    def refuse(self, number, condition):
        if condition:
            raise Refused(number, self.at)

    def within(self, low, high):
        """A one-byte field with the values low to high: a count, a kind or a join."""
        value = self.number(1)
        self.refuse(4, not low <= value <= high)
        return value

    def zero(self, size):
        """A field where 0 is due: looked at for 1 and 5 only."""
        self.refuse(5, self.number(size) != 0)
        return 0


def is_output(outputs, name):
    return outputs >> name & 1 == 1


def read_range(f, version, outputs, used, in_q):
    name = f.number(1)
    met = {6: name > 63, 8: name in used, 9: in_q and not is_output(outputs, name)}
    for number in f.name_order:
        f.refuse(number, met[number])
    used.add(name)
    u = f.number(2)
    f.refuse(7, u == 0)
    v = f.number(2)
    f.refuse(7, v < u and v not in NO_UPPER_END[version])
    return Range(name, u, v)


def read_fragment(f, version, outputs, used, in_q):
    join = f.within(ALL, LAST_JOIN[version])
    count = f.within(1, 8)
    return Fragment(join, tuple(read_range(f, version, outputs, used, in_q) for _ in range(count)))


def read_trigger(f, outputs):
    name = f.number(1)
    f.refuse(6, name > 63)
    f.refuse(9, is_output(outputs, name))
    return name


def read_rule(f, version, outputs):
    kind = f.within(0, 2)
    timed = kind == 2
    p_count = f.within(1, 8)
    q_count = f.within(1, 8) if timed else f.zero(1)
    trigger = f.zero(1) if timed else read_trigger(f, outputs)
    t = f.number(4) if timed else f.zero(4)
    used = set() if timed else {trigger}
    p = tuple(read_fragment(f, version, outputs, used, False) for _ in range(p_count))
    q = tuple(read_fragment(f, version, outputs, used, True) for _ in range(q_count))
    return Rule(kind, p, q, trigger, t)


def read_sheet(data, name_order=NAME_ORDER):
    """The sheet of these bytes; raises Refused with 1 to 10 and the place of the first faulty field."""
    f = Fields(data, name_order)
    f.refuse(2, f.take(3) != b'LOB')
    version = f.number(2)
    f.refuse(3, version not in LAST_JOIN)
    outputs = f.number(8)
    count = f.within(1, 16)
    rules = tuple(read_rule(f, version, outputs) for _ in range(count))
    if f.next < len(data):
        raise Refused(10, f.next)
    return Sheet(outputs, rules, version)


# ---------------------------------------------------------------------------------------------
# The sheet's bytes again (change 3)
# ---------------------------------------------------------------------------------------------

def fragment_bytes(fragment):
    return bytes([fragment.join, len(fragment.ranges)]) + b''.join(struct.pack('<BHH', r.name, r.u, r.v) for r in fragment.ranges)


def rule_bytes(rule):
    head = struct.pack('<BBBBI', rule.kind, len(rule.p), len(rule.q), rule.trigger, rule.t)
    return head + b''.join(fragment_bytes(fragment) for fragment in rule.p + rule.q)


def write(sheet):
    """The bytes of a sheet, in its own version."""
    return b'LOB' + struct.pack('<HQB', sheet.version, sheet.outputs, len(sheet.rules)) + b''.join(rule_bytes(rule) for rule in sheet.rules)


def write_into(sheet, buffer):
    """The number of bytes written, or -16 where the buffer, a bytearray, is shorter than the sheet: then nothing is."""
    data = write(sheet)
    if len(buffer) < len(data):
        return -16
    buffer[:len(data)] = data
    return len(data)


# ---------------------------------------------------------------------------------------------
# What a rule means
#
# A cut goes from place to place. Place i, 0 <= i <= n, stands after the first i of the n events of
# the trace. A rule is open where a continuation makes a match of the trace, so cuts are looked for
# in the trace with a continuation behind it. There are infinitely many continuations; one more
# place, BEYOND = n + 1, stands for them all:
#
#   times   If a continuation makes a match, it still does with all its times set to the latest
#           observation's. Times count only in 'last event of Q at most t after the last event of
#           P'. If that P ends in the continuation, both ends are then the same time. If it ends in
#           the trace and its Q in the continuation, Q's end only comes earlier. If both end in the
#           trace, nothing changes.
#   names   Each event of a continuation may be on any name of the rule, and there may be any
#           number of them. So what can be cut out of a continuation from one place in it on can be
#           cut out of another from any of its places on: all places after at least one event of
#           the continuation are alike, and are the one place BEYOND. From there everything can be
#           had: any block, fragment, ordering or trigger goes from BEYOND to BEYOND. A block that
#           has come to n goes on to BEYOND if its range can take one more, which one without an
#           upper end always can. A shuffled fragment that has come to n with no total above v goes
#           on to BEYOND if some range can take one more: that one and whatever lacks are had there.
#   length  A round that has reached BEYOND is completed there, and nothing need follow it.
#
# So a cut has n + 2 places to go through, whatever the bounds are. A trace is a match if a cut into
# rounds reaches n; it can become one if a cut reaches n or BEYOND.
# ---------------------------------------------------------------------------------------------

def at_most(r, count):
    """So many occurrences are not too many for the range; none are where it has no upper end, which is a v of 0."""
    return r.v == 0 or count <= r.v


def names_of(rule):
    out = {r.name for fragment in rule.p + rule.q for r in fragment.ranges}
    if rule.kind != 2:
        out.add(rule.trigger)
    return out


class Cut:
    """The cuts of one rule's trace, continued at the time of the latest observation."""

    def __init__(self, rule, trace, latest):
        self.rule, self.n = rule, len(trace)
        self.beyond = self.n + 1
        self.names = [e.name for e in trace]
        self.times = [e.time for e in trace] + [latest]
        self.found = {}

    def last_time(self, place):
        """The time of the last event before a place."""
        return self.times[place - 1]

    def block_ends(self, r, start):
        """Where a block of the range r from `start` on can end: r.name, u to v times in a row, or u times and more."""
        if start == self.beyond:
            return [self.beyond]
        ends, k = [], 0
        while at_most(r, k + 1) and start + k < self.n and self.names[start + k] == r.name:
            k += 1
            if k >= r.u:
                ends.append(start + k)
        if start + k == self.n and at_most(r, k + 1):
            ends.append(self.beyond)
        return ends

    def blocks_ends(self, fragment, start):
        """Where a fragment of blocks in a row can end: blocks of all its ranges, or of some, in any order."""
        every = frozenset(fragment.ranges)
        ends, seen, todo = set(), set(), [(frozenset(), start)]
        while todo:
            state = todo.pop()
            if state in seen:
                continue
            seen.add(state)
            used, place = state
            if used == every or fragment.join in SOME_WILL_DO and used:
                ends.add(place)
            for r in every - used:
                todo.extend((used | {r}, end) for end in self.block_ends(r, place))
        return ends

    def shuffled_ends(self, fragment, start):
        """Where a shuffled fragment can end: the total of each name, or of each name used, lies between u and v, or is u or more."""
        if start == self.beyond:
            return {self.beyond}
        ranges = {r.name: r for r in fragment.ranges}
        ends, totals = set(), dict.fromkeys(ranges, 0)
        for place in range(start, self.n):
            name = self.names[place]
            if name not in ranges or not at_most(ranges[name], totals[name] + 1):
                return ends             # an event that is not the fragment's, or one too many
            totals[name] += 1
            used = [r for r in fragment.ranges if totals[r.name] > 0]
            needed = used if fragment.join in SOME_WILL_DO else fragment.ranges
            if all(totals[r.name] >= r.u for r in needed):
                ends.add(place + 1)
        if any(at_most(r, totals[r.name] + 1) for r in fragment.ranges):
            ends.add(self.beyond)
        return ends

    def fragment_ends(self, fragment, start):
        """Where a fragment can end."""
        key = (fragment, start)
        if key not in self.found:
            ends = self.shuffled_ends if fragment.join in IN_ANY_MIX else self.blocks_ends
            self.found[key] = ends(fragment, start)
        return self.found[key]

    def ordering_ends(self, ordering, start):
        """Where an ordering can end: its fragments one after the other."""
        places = {start}
        for fragment in ordering:
            places = {end for place in places for end in self.fragment_ends(fragment, place)}
        return places

    def round_ends(self, start):
        """Where a round can end: a P and the trigger, or a P and a Q in time."""
        ends = set()
        for p_end in self.ordering_ends(self.rule.p, start):
            if self.rule.kind == 2:
                deadline = self.last_time(p_end) + self.rule.t
                ends.update(q_end for q_end in self.ordering_ends(self.rule.q, p_end)
                            if self.last_time(q_end) <= deadline)
            else:
                ends.update(self.block_ends(Range(self.rule.trigger, 1, 1), p_end))
        return ends

    def match_ends(self):
        """The places n and BEYOND, as far as a match can end there."""
        if self.rule.kind == 0:
            rounds = self.round_ends(0)
            if self.n == 0 or any(end <= self.n for end in rounds):
                rounds.add(self.n)
            reached = rounds
        else:
            reached, todo = set(), [0]
            while todo:
                place = todo.pop()
                if place not in reached:
                    reached.add(place)
                    if place <= self.n:
                        todo.extend(self.round_ends(place))
        return reached & {self.n, self.beyond}


def status(rule, trace, latest):
    """Whole, open or broken, for the list of the rule's own events and the latest time."""
    ends = Cut(rule, trace, latest).match_ends()
    if len(trace) in ends:
        return WHOLE
    return OPEN if ends else BROKEN


# ---------------------------------------------------------------------------------------------
# Observing: the judge
# ---------------------------------------------------------------------------------------------

class Judge:
    """Keeps the list of observations taken and the verdict: an answer, a mask and a place."""

    def __init__(self, rules):
        self.rules = [(rule, names_of(rule)) for rule in rules]
        self.taken = []
        self.verdict = (WHOLE, 0, 0)

    def latest(self):
        return self.taken[-1].time if self.taken else 0

    def refusal(self, name, time):
        """12, 11 or 13, or 0 where the observation is taken."""
        if name >= 64 and name != CLOCK:
            return 12
        if time < self.latest():
            return 11
        if len(self.taken) == MOST:
            return 13
        return 0

    def observe(self, name, time):
        """The refusal, or 0 where the verdict is the answer."""
        if self.verdict[0] == BROKEN:
            return 0
        refusal = self.refusal(name, time)
        if refusal == 0:
            self.taken.append(Event(name, time))
            self.verdict = self.judged()
        return refusal

    def judged(self):
        masks = {WHOLE: 0, OPEN: 0, BROKEN: 0}
        for number, (rule, names) in enumerate(self.rules):
            trace = [e for e in self.taken if e.name in names]
            masks[status(rule, trace, self.latest())] |= 1 << number
        if masks[BROKEN]:
            return (BROKEN, masks[BROKEN], len(self.taken))
        if masks[OPEN]:
            return (OPEN, masks[OPEN], 0)
        return (WHOLE, 0, 0)


# ---------------------------------------------------------------------------------------------
# Running a log; the host's call; the program
# ---------------------------------------------------------------------------------------------

def run(sheet_bytes, log, budget):
    """The five numbers for a sheet, a log and a budget."""
    try:
        sheet = read_sheet(sheet_bytes)
    except Refused as r:
        return Result(REFUSED, r.number, 0, 0, r.place)
    if len(log) % 5 != 0 or len(log) > MOST:
        return Result(REFUSED, 14, 0, 0, 0)
    judge = Judge(sheet.rules)
    for place in range(0, len(log), 5):
        if len(judge.taken) == budget or judge.verdict[0] == BROKEN:
            break
        refusal = judge.observe(*struct.unpack_from('<BI', log, place))
        if refusal != 0:
            return Result(REFUSED, refusal, judge.verdict[1], len(judge.taken), place)
    answer, mask, place = judge.verdict
    return Result(answer, 0, mask, len(judge.taken), place)


def answer_bytes(result):
    return struct.pack('<BBHII', *result)


def call(sheet_bytes, log, budget, out):
    """The C host's call; `out` is a bytearray."""
    if len(out) < 12:
        return 15
    out[:12] = answer_bytes(run(sheet_bytes, log, budget))
    return 0


def program(book, trace):
    """The five numbers that the program prints for the bytes of its two files."""
    if len(book) > 5774 or len(trace) > 65535:
        return Result(REFUSED, 0, 0, 0, 0)
    return run(book, trace, MOST)


def file_bytes(path):
    try:
        with open(path, 'rb') as f:
            return f.read()
    except OSError:
        return b''


if __name__ == '__main__':
    print(*program(file_bytes(sys.argv[1]), file_bytes(sys.argv[2])))
