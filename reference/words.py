"""What a fragment and a rule match, by words written out: a second reading to hold guard.py to.

guard.py cuts a trace and asks for totals and places. Here the words that match are listed as documents 000, 01 and 02 say
them: one block for each range that appears, the blocks one after the other in any order or interleaved in any way, of at most
`most` events in all. A rule's status is asked by trying continuations one by one, to a length that is enough.
"""

import functools
import itertools

from guard import ALL, BROKEN, IN_ANY_MIX, JOINS, OPEN, SOME_WILL_DO, WHOLE, Cut, Event, Fragment, Range, Rule, names_of, status


@functools.lru_cache(maxsize=None)
def interleavings(sequences):
    """Every word that has the sequences' events, each sequence in its own order (document 000, Definitions 8 and 9)."""
    if not any(sequences):
        return frozenset({()})
    return frozenset((s[0],) + word for i, s in enumerate(sequences) if s
                     for word in interleavings(sequences[:i] + (s[1:],) + sequences[i + 1:]))


def in_a_row(sequences):
    return {sum(order, ()) for order in itertools.permutations(sequences)}


@functools.lru_cache(maxsize=None)
def fragment_words(fragment, most):
    """The words of at most `most` events that match a fragment."""
    least = 1 if fragment.join in SOME_WILL_DO else len(fragment.ranges)
    together, words = interleavings if fragment.join in IN_ANY_MIX else in_a_row, set()
    for size in range(least, len(fragment.ranges) + 1):
        for appearing in itertools.combinations(fragment.ranges, size):
            for counts in itertools.product(*(range(r.u, (r.v or most) + 1) for r in appearing)):
                if sum(counts) <= most:
                    words |= together(tuple((r.name,) * k for r, k in zip(appearing, counts)))
    return words


@functools.lru_cache(maxsize=None)
def ordering_words(ordering, most):
    words = {()}
    for fragment in ordering:
        words = {a + b for a in words for b in fragment_words(fragment, most) if len(a + b) <= most}
    return words


def is_match(rule, events, most):
    """Whether a list of at most `most` events on the rule's names is a match."""
    if not events:
        return True
    word = tuple(e.name for e in events)
    for i in range(1, len(word)):
        if word[:i] in ordering_words(rule.p, most):
            if rule.kind != 2:
                if word[i] == rule.trigger and (rule.kind == 0 or is_match(rule, events[i + 1:], most)):
                    return True
                continue
            for j in range(i + 1, len(word) + 1):
                in_time = events[j - 1].time <= events[i - 1].time + rule.t
                if in_time and word[i:j] in ordering_words(rule.q, most) and is_match(rule, events[j:], most):
                    return True
    return False


def enough(rule):
    """So many events make a match of every trace that a continuation makes one of. Of a continuation that does, only the round that has the trace's last event need be kept, and of each of
    its ranges at most u events, since of those that come after the trace all beyond u can be left out."""
    return sum(r.u for fragment in rule.p + rule.q for r in fragment.ranges) + (rule.kind != 2)


def tried_status(rule, trace, latest):
    """Whole, open or broken. A continuation's events are at the latest time, or from some place on later than any limit on what came before."""
    most = len(trace) + enough(rule)
    if is_match(rule, trace, most):
        return WHOLE
    names, later = sorted(names_of(rule)), latest + rule.t + 1
    for length in range(1, enough(rule) + 1):
        for word in itertools.product(names, repeat=length):
            for early in range(length + 1):
                times = [latest] * early + [later] * (length - early)
                if is_match(rule, trace + [Event(*e) for e in zip(word, times)], most):
                    return OPEN
    return BROKEN


# ---------------------------------------------------------------------------------------------
# What is held
# ---------------------------------------------------------------------------------------------

BOUNDS = [(1, 1), (1, 2), (2, 2), (2, 3), (1, 0), (2, 0)]
LONGEST = 7


def pair(join, first, second, names=(0, 1)):
    return Fragment(join, tuple(Range(name, *bounds) for name, bounds in zip(names, (first, second))))


def hold_fragments():
    """On every word of up to LONGEST events, a fragment of two ranges ends there, and goes on, where the words listed do. One that goes on does so with at most u events more of each range."""
    for join, first, second in itertools.product(JOINS, BOUNDS, BOUNDS):
        fragment = pair(join, first, second)
        due = fragment_words(fragment, LONGEST + first[0] + second[0])
        beginnings = {word[:length] for word in due for length in range(len(word))}
        for length in range(LONGEST + 1):
            for word in itertools.product((0, 1), repeat=length):
                cut = Cut(None, [Event(name, 0) for name in word], 0)
                ends = cut.fragment_ends(fragment, 0)
                assert (length in ends) == (word in due), (fragment, word)
                assert (cut.beyond in ends) == (word in beginnings), (fragment, word)


def small_rules():
    """Rules with ranges that have no upper end, and how long the traces are that are tried of each."""
    once, endless = (1, 1), (1, 0)
    for join in JOINS:
        mixed = pair(join, endless, once)
        yield Rule(0, (mixed,), (), 2, 0), 5
        yield Rule(1, (mixed,), (), 2, 0), 5
        yield Rule(2, (mixed,), (Fragment(ALL, (Range(9, *endless),)),), 0, 10), 3
        yield Rule(2, (Fragment(ALL, (Range(0, *endless),)),), (pair(join, endless, once, (8, 9)),), 0, 10), 3
    two_rows = (Fragment(ALL, (Range(0, 2, 0),)), Fragment(ALL, (Range(1, *endless),)))
    yield Rule(1, two_rows, (), 2, 0), 5


def hold_rules():
    """On every short trace, and where there is a limit at and past it, guard.py's status of these rules is the one that trying continuations gives."""
    for rule, longest in small_rules():
        steps = (0, rule.t + 1) if rule.kind == 2 else (0,)
        events = list(itertools.product(sorted(names_of(rule)), steps))
        for length in range(longest + 1):
            for choice in itertools.product(events, repeat=length):
                times = itertools.accumulate(step for _, step in choice)
                trace = [Event(name, time) for (name, _), time in zip(choice, times)]
                for step in steps:
                    latest = (trace[-1].time if trace else 0) + step
                    assert status(rule, trace, latest) == tried_status(rule, trace, latest), (rule, trace, latest)


def hold():
    hold_fragments()
    hold_rules()
