"""Logs for the cases: observations that follow a rule, changed in one or two places.

A log is a list of (time, name), a clock reading having the name CLOCK, until `log_bytes` writes it.
"""

import itertools
import struct

from guard import CLOCK, IN_ANY_MIX, MOST, SOME_WILL_DO, names_of


def log_bytes(observations):
    return b''.join(struct.pack('<BI', name, time) for time, name in observations)


# ---------------------------------------------------------------------------------------------
# Rounds that follow a rule: lists of blocks [fragment number, range, count], P's fragments first
# ---------------------------------------------------------------------------------------------

def few(count):
    """A block's count as it goes into a log: of a range with large bounds only a beginning."""
    return min(count, 20)


def most_of(r):
    """A range's v, or where it has no upper end some count that is well above u."""
    return r.v or r.u + 6


def fragment_blocks(dice, number, fragment):
    ranges = dice.shuffled(fragment.ranges)
    if fragment.join in SOME_WILL_DO:
        ranges = ranges[:dice.between(1, len(ranges))]
    blocks = []
    for r in ranges:
        most = min(most_of(r), r.u + 3)
        blocks.append([number, r, few(dice.pick([r.u, r.u, most, dice.between(r.u, most)]))])
    return blocks


def round_blocks(dice, rule):
    return [block for number, fragment in enumerate(rule.p + rule.q)
            for block in fragment_blocks(dice, number, fragment)]


def changed_round(dice, rule, blocks, change):
    """The round with one change to its blocks."""
    blocks = [list(b) for b in blocks]
    i = dice.below(len(blocks))
    number, r, count = blocks[i]
    if change == 'too many':
        blocks[i][2] = few(most_of(r) + 1)
    elif change == 'too few':
        blocks[i][2] = few(r.u - 1)
    elif change == 'reopened':
        siblings = [j for j in range(len(blocks)) if blocks[j][0] == number]
        blocks.insert(siblings[-1] + 1, [number, blocks[siblings[0]][1], 1])
    elif change == 'left out':
        del blocks[i]
    elif change == 'swapped':
        j = dice.below(len(blocks))
        blocks[i], blocks[j] = blocks[j], blocks[i]
    elif change == 'repeated':
        blocks.insert(i + 1, [number, r, few(r.u)])
    elif change == 'another':
        fragment = dice.pick(rule.p + rule.q)
        blocks.insert(i, [number, dice.pick(fragment.ranges), 1])
    return blocks


ROUND_CHANGES = ['too many', 'too few', 'reopened', 'left out', 'swapped', 'repeated', 'another']


def by_turns(lists):
    """The first of each list, then the second of each, and so on."""
    most = max(map(len, lists))
    return [items[i] for i in range(most) for items in lists if i < len(items)]


def event_names(dice, rule, blocks):
    """The names of the blocks' events. Neighbouring blocks of one shuffled fragment are mixed, by turns or in any way; now and then they stay in a row."""
    fragments, out = rule.p + rule.q, []
    for number, group in itertools.groupby(blocks, key=lambda block: block[0]):
        lists = [[r.name] * count for _, r, count in group]
        names = [name for names in lists for name in names]
        if fragments[number].join in IN_ANY_MIX and dice.chance(0.9):
            names = by_turns(lists) if dice.chance(0.3) else dice.shuffled(names)
        out += names
    return out


def clamped(time):
    return max(0, min(time, MOST))


def timed_round(dice, rule, blocks, start, lateness):
    """The round's events from `start` on, and the time of the last. For kind 2 the last event of Q comes
    `lateness` after the deadline (before it if that is negative, and never before the end of P)."""
    time, out = start, []
    step = dice.pick([[0], [0, 1], [0, 1, 2], [1, 5]])
    p_names = event_names(dice, rule, [b for b in blocks if b[0] < len(rule.p)])
    q_names = event_names(dice, rule, [b for b in blocks if b[0] >= len(rule.p)])
    for name in p_names:
        time += dice.pick(step)
        out.append((time, name))
    if rule.kind != 2:
        out.append((time + dice.pick(step), rule.trigger))
        return out, out[-1][0]
    end = max(time, time + min(rule.t, 1000) + lateness)
    for i, name in enumerate(q_names):
        time = end if i == len(q_names) - 1 else dice.between(time, end) if dice.chance(0.5) else time
        out.append((time, name))
    return out, time


def followed(dice, rule, most, start):
    """Rounds of the rule, about `most` events; in the last of them one thing may be wrong."""
    out, time = [], start
    change = dice.pick(ROUND_CHANGES) if dice.chance(0.45) else None
    while len(out) < most:
        blocks = round_blocks(dice, rule)
        last = len(out) + sum(count for _, _, count in blocks) + 1 >= most
        lateness = dice.pick([0, 0, 0, 0, -1, -1, -2, -5])
        if last and change is None and dice.chance(0.3):
            lateness = dice.pick([1, 1, 2])
        if change is not None and (last or dice.chance(0.3)):
            blocks = changed_round(dice, rule, blocks, change)
        events, time = timed_round(dice, rule, blocks, time, lateness)
        if rule.kind != 2 and dice.chance(0.07):
            events.insert(dice.below(len(events) + 1), (events[0][0], rule.trigger))
            events.sort(key=lambda e: e[0])
        out += events
        time += dice.pick([0, 0, 1, 3])
        if rule.kind == 0 and dice.chance(0.7):
            names = sorted(names_of(rule))
            out += [(time, dice.pick(names)) for _ in range(dice.below(3))]
    return out


# ---------------------------------------------------------------------------------------------
# A whole log
# ---------------------------------------------------------------------------------------------

def shifted(dice, observations):
    """Most logs begin near 0; some end at the last time there is."""
    last = max((time for time, _ in observations), default=0)
    if dice.chance(0.12):
        by = MOST - last if dice.chance(0.7) else MOST - last + dice.between(1, 5)
        return [(clamped(time + by), name) for time, name in observations]
    return observations


def with_one_more(dice, observations, name):
    """One more observation at some place, at a time that does not fall."""
    i = dice.below(len(observations) + 1)
    before = observations[i - 1][0] if i > 0 else 0
    after = observations[i][0] if i < len(observations) else before + dice.pick([0, 1, 2, 4])
    time = dice.pick([before, after, dice.between(before, after)])
    return observations[:i] + [(time, name)] + observations[i:]


def full_p(dice, rule):
    """Blocks of a P whose last block is at v, or all blocks of its last fragment where that is shuffled. Nothing can be added to it, unless a range of the last
    fragment is left out, or in a shuffled one is at u, which is so now and then, or the last block, or in a shuffled fragment any, is of a range without an upper end."""
    last = len(rule.p) - 1
    ranges, shuffled = dice.shuffled(rule.p[last].ranges), rule.p[last].join in IN_ANY_MIX
    if rule.p[last].join in SOME_WILL_DO and len(ranges) > 1 and dice.chance(0.4):
        ranges.pop()
    blocks = [b for b in round_blocks(dice, rule) if b[0] < last] + [[last, r, few(most_of(r) if shuffled else r.u)] for r in ranges]
    blocks[-1][2] = few(ranges[-1].u if shuffled and dice.chance(0.3) else most_of(ranges[-1]))
    return blocks


def up_to_deadline(dice, rule, name):
    """A rule of kind 2, followed into a P or a Q, and an observation on `name` at or next to the deadline."""
    time = dice.pick([0, 0, 3])
    out = followed(dice, rule._replace(t=min(rule.t, 3)), 2, time) if dice.chance(0.25) else []
    time = out[-1][0] if out else time
    whole = round_blocks(dice, rule)
    p = full_p(dice, rule) if dice.chance(0.6) else [b for b in whole if b[0] < len(rule.p)]
    names = event_names(dice, rule, p)
    times = sorted(time + dice.below(4) for _ in names)
    out += list(zip(times, names))
    end = out[-1][0]
    deadline = end + min(rule.t, 1000)
    q = event_names(dice, rule, [b for b in whole if b[0] >= len(rule.p)])
    if dice.chance(0.5):
        q = q[:dice.below(len(q) + 1)]
        out += zip(sorted(dice.between(end, deadline) for _ in q), q)
    time = max(out[-1][0], deadline + dice.pick([-1, 0, 1, 1, 1, 2]))
    return out + [(time, name)]


def some_log(dice, sheet, most):
    """A list of observations for the sheet's rules."""
    start = dice.pick([0, 0, 0, 1, 5, 1000])
    lead = dice.pick(sheet.rules)
    others = [r for r in sheet.rules if r is not lead and not names_of(r) & names_of(lead)]
    out = followed(dice, lead, dice.between(1, most), start)
    for rule in others:
        if dice.chance(0.7):
            out += followed(dice, rule, dice.between(1, most), start)
    out = sorted(out, key=lambda e: e[0])[:most]
    foreign = [n for n in range(64) if all(n not in names_of(r) for r in sheet.rules)]
    if dice.chance(0.3):
        out = out[:dice.below(len(out) + 1)]
    for _ in range(dice.pick([0, 0, 0, 1, 1, 2])):
        out = with_one_more(dice, out, dice.pick(foreign) if foreign and dice.chance(0.5) else CLOCK)
    return shifted(dice, out)


def deadline_log(dice, sheet):
    """A log that goes up to a deadline, for a sheet with a rule of kind 2, and perhaps a little further."""
    rule = dice.pick([r for r in sheet.rules if r.kind == 2])
    own = names_of(rule)
    other = [n for n in range(64) if n not in own]
    name = dice.pick([CLOCK, CLOCK, dice.pick(other), dice.pick(other), dice.pick(sorted(own))])
    out = up_to_deadline(dice, rule, name)
    if dice.chance(0.3):
        out.append((out[-1][0] + dice.below(2), dice.pick(sorted(own))))
    return shifted(dice, out)


def with_refusal(dice, observations, refusal):
    """A record somewhere that is refused by 12, or by 11 where times can fall there, if nothing stops the run before."""
    i = dice.below(len(observations) + 1)
    before = observations[i - 1][0] if i > 0 else 0
    if refusal == 12:
        time = before if dice.chance(0.6) else dice.below(before + 1)
        record = (time, dice.pick([64, 65, 127, 128, 200, 253, 254, dice.between(64, 254)]))
    else:
        time = before - dice.pick([1, 1, 2, before]) if before > 0 else 0
        record = (max(0, time), dice.pick([CLOCK, dice.below(64), observations[i - 1][1] if i > 0 else CLOCK]))
    return observations[:i] + [record] + observations[i:]
