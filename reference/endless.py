"""Cases of ranges without an upper end: what such a range meets, with the answer that document 02's change 2 gives it.

A rule has one such range, the first of a fragment that may stand in P or in Q and have any join. A log goes through the rule
up to what is asked, and its last observation is where the answer is due. `endless_cases` holds the reference to it.
"""

import itertools
from collections import namedtuple

import guard
from guard import ALL, ANY, BROKEN, CLOCK, IN_ANY_MIX, JOINS, MOST, OPEN, SOME_WILL_DO, WHOLE, Fragment, Range, Rule, Sheet, names_of
from logs import log_bytes
from sheets import written

# before: the fragments of the round that come before the one with the endless range; after: those of its part behind it; owed: where that part is a P of kind 2, the Q
Place = namedtuple('Place', 'rule fragment before after owed')


def some_bounds(dice):
    u = dice.between(1, 2)
    return u, u + dice.below(3)


def some_place(dice, kind, part, join, followed):
    """A rule with the fragment in P or in Q; `followed` says whether it has another behind it there, None that it may have."""
    names = dice.shuffled(range(64))

    def fragment(join, size, first=()):
        ranges = [Range(names.pop(), *some_bounds(dice)) for _ in range(size)]
        return Fragment(join, tuple(first) + tuple(ranges))
    endless = fragment(join, dice.between(1, 3), [Range(names.pop(), dice.between(2, 3), 0)])
    before = (fragment(dice.pick(JOINS), 1),) if dice.chance(0.3) else ()
    last = dice.chance(0.7) if followed is None else not followed
    after = () if last else (fragment(dice.pick(JOINS), dice.between(1, 2)),)
    ordering, other = before + (endless,) + after, (fragment(dice.pick(JOINS), 1),)
    p, q = (ordering, other) if part == 'P' else (other, ordering)
    timed = kind == 2
    rule = Rule(kind, p, q if timed else (), 0 if timed else names.pop(), dice.pick([0, 1, 10, 1000]) if timed else 0)
    return Place(rule, endless, before if part == 'P' else p + before, after, q if timed and part == 'P' else ())


# ---------------------------------------------------------------------------------------------
# The names of a log
# ---------------------------------------------------------------------------------------------

def filled(dice, fragment, counts, last=None):
    """The fragment's names, each as often as `counts` has it, `last` last: blocks in a row, or mixed where that is allowed."""
    order = [name for name in dice.shuffled(counts) if name != last] + [name for name in counts if name == last]
    names = [name for name in order for _ in range(counts[name])]
    if fragment.join not in IN_ANY_MIX:
        return names
    return dice.shuffled(names[:-1]) + [last] if last in counts else dice.shuffled(names)


def some_counts(dice, fragment):
    """A count in its bounds for each range, or for some where some will do; the first range is always there."""
    ranges = list(fragment.ranges)
    if fragment.join in SOME_WILL_DO:
        ranges = ranges[:1] + [r for r in ranges[1:] if dice.chance(0.6)]
    return {r.name: dice.between(r.u, r.v) if r.v else r.u + dice.pick([0, 1, 2, 5, 12, 30]) for r in ranges}


def followed_names(dice, ordering):
    return [name for fragment in ordering for name in filled(dice, fragment, some_counts(dice, fragment))]


def one_round(dice, rule):
    return followed_names(dice, rule.p) + (followed_names(dice, rule.q) if rule.kind == 2 else [rule.trigger])


# ---------------------------------------------------------------------------------------------
# What an endless range meets: each gives the names so far, all of them in time; what comes later than any limit; and the answer due
# ---------------------------------------------------------------------------------------------

def next_name(dice, place):
    """The first name of what follows the fragment."""
    following = place.after or place.owed
    if following:
        return followed_names(dice, following)[0]
    return place.rule.trigger if place.rule.kind != 2 else place.rule.p[0].ranges[0].name


def more_than_u(dice, place):
    counts = some_counts(dice, place.fragment)
    first = place.fragment.ranges[0]
    counts[first.name] = first.u + dice.pick([1, 2, 3, 10, 40, 100])
    names = followed_names(dice, place.before) + filled(dice, place.fragment, counts) + followed_names(dice, place.after + place.owed)
    return names + ([place.rule.trigger] if place.rule.kind != 2 else []), [], WHOLE


def left_below_u(dice, place):
    counts = some_counts(dice, place.fragment)
    first = place.fragment.ranges[0]
    counts[first.name] = first.u - 1
    return followed_names(dice, place.before) + filled(dice, place.fragment, counts, first.name) + [next_name(dice, place)], [], BROKEN


def after_a_sibling(dice, place):
    first, sibling = place.fragment.ranges[:2]
    names = [first.name] * (first.u + dice.below(4)) + [sibling.name] * sibling.u + [first.name] * dice.between(1, 3)
    if place.fragment.join in IN_ANY_MIX:
        return followed_names(dice, place.before) + names, [], None        # open, or whole where it completes a Q
    return followed_names(dice, place.before) + names[:names.index(sibling.name) + sibling.u + 1], [], BROKEN


def after_the_next_fragment(dice, place):
    counts = some_counts(dice, place.fragment)
    return (followed_names(dice, place.before) + filled(dice, place.fragment, counts)
            + [next_name(dice, place), place.fragment.ranges[0].name], [], BROKEN)


def complete(dice, place):
    """Up to the fragment, which is the last of its part and complete; in a row its last block is the endless one, so that more of it may come."""
    fragment = place.fragment
    last = dice.pick(list(some_counts(dice, fragment))) if fragment.join in IN_ANY_MIX else fragment.ranges[0].name
    counts = some_counts(dice, fragment)
    return followed_names(dice, place.before) + filled(dice, fragment, counts, last if last in counts else None)


def p_after_its_limit(dice, place):
    """P can grow: silence breaks nothing. In some cases it then does grow, and Q comes in time after that."""
    names, first = complete(dice, place), place.fragment.ranges[0].name
    if dice.chance(0.3):
        return names, [None, first] + followed_names(dice, place.owed), WHOLE
    return names, [None] + [first] * dice.below(3), OPEN


def q_by_the_clock(dice, place):
    return complete(dice, place), [None], WHOLE


def q_by_an_event(dice, place):
    return complete(dice, place), [None] * dice.below(2) + [place.fragment.ranges[0].name], BROKEN


EVERYWHERE = [(0, 'P'), (1, 'P'), (2, 'P'), (2, 'Q')]
# by name: what it is, the kinds and parts that it is of, the joins, how many cases where most others have one, whether a fragment follows in the part (None: perhaps)
SCENARIOS = {
    'more than u': (more_than_u, EVERYWHERE, JOINS, 1, None),
    'left below u': (left_below_u, EVERYWHERE, JOINS, 1, None),
    'again after a sibling, in a row': (after_a_sibling, EVERYWHERE, (ALL, ANY), 1, None),
    'again after a sibling, shuffled': (after_a_sibling, EVERYWHERE, IN_ANY_MIX, 1, None),
    'again after the next fragment': (after_the_next_fragment, EVERYWHERE, JOINS, 1, True),
    'P after its limit': (p_after_its_limit, [(2, 'P')], JOINS, 2, False),
    'Q after its limit, by the clock': (q_by_the_clock, [(2, 'Q')], JOINS, 2, False),
    'Q after its limit, by an event': (q_by_an_event, [(2, 'Q')], JOINS, 2, False),
}


def some_log(dice, rule, names, later):
    """The names at times 0 to t, so that every Q among them is in time; then what is later than any limit. None is the clock or a name that is not the rule's."""
    times = sorted(dice.below(min(rule.t, 3) + 1) for _ in names)
    foreign = dice.pick([n for n in range(64) if n not in names_of(rule)])
    late = times[-1] + rule.t + dice.pick([1, 2, 50, 100000])
    return list(zip(times, names)) + [(late, dice.pick([CLOCK, foreign]) if name is None else name) for name in later]


def scenario_case(dice, scenario, place):
    """A sheet and a log, the reference held to the answer due at its last record."""
    rule = place.rule
    names, later, due = scenario(dice, place)
    if rule.kind != 0 and dice.chance(0.25):
        names = one_round(dice, rule) + names
    log = some_log(dice, rule, names, later)
    book = written(Sheet(sum(1 << r.name for fragment in rule.q for r in fragment.ranges), (rule,), 2))[0]
    said = guard.run(book, log_bytes(log), MOST)
    assert said.answer == due or due is None and said.answer in (WHOLE, OPEN), (rule, log, said)
    assert said.taken == len(log), (rule, log, said)
    return book, log_bytes(log)


def endless_cases(dice, each):
    """Sheets, logs and what each is about."""
    for about, (scenario, parts, joins, times, followed) in SCENARIOS.items():
        for (kind, part), join in itertools.product(parts, joins):
            for _ in range(each * times):
                yield scenario_case(dice, scenario, some_place(dice, kind, part, join, followed)) + (about,)
