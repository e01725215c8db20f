#!/usr/bin/env python3
"""The cases of the host tests, with what the reference says of each: the call over the log, and a session that is shown one observation after the other.

    python3 tests/host/cases.py FILE [SEED]

The sheets, logs and budgets are those of reference/make.py under another seed, and some with more rules. A session's list is the log's records, with refused observations put in between
and some more behind, after a break too; what is due for it is the answer of the reference's judge to each. The traces stored for `replay` come last: their
monitors may start near the last count there is, which is where refusal 13 is.

The file, all numbers little-endian: u32 number of cases; then each case:
    u32 taken before the list; u16 length of the sheet, the sheet; u16 length of the log, the log; u32 budget; the call's 12 bytes due;
    the answer due to opening; u16 number of observations; each of them: u8 1 for a clock reading or else 0, u32 name, u32 time, the answer due;
    the verdict due after the list; u32 the taken count due then.
An answer is u8 answer, u8 refusal, u16 mask, u32 place.
"""
import functools
import itertools
import os
import random
import struct
import sys
from collections import Counter

ROOT = os.path.join(os.path.dirname(os.path.abspath(__file__)), "..", "..")
sys.dont_write_bytecode = True
sys.path.insert(0, os.path.join(ROOT, "reference"))

import guard
import make
from guard import BROKEN, CLOCK, MOST, OPEN, REFUSED, WHOLE, Judge
from logs import log_bytes, some_log
from sheets import Dice, Sheet, some_kind, some_pool, some_rule, variant, written

SEED = 1202
AT_LEAST = 100
# names that a session refuses: next to 63, a log's FF, and those whose low byte is a name
REFUSED_NAMES = [64, 65, 127, 128, 254, 255, 256, 257, 319, 65536, 65537, 1 << 31, MOST - 63, MOST]


def answer_bytes(answer, refusal=0, mask=0, place=0):
    return struct.pack("<BBHI", answer, refusal, mask, place)


def verdict_bytes(verdict):
    answer, mask, place = verdict
    return answer_bytes(answer, 0, mask, place)


# ---- sheets of many rules, which the reference's own have seldom

def many_rules(dice):
    """Five to sixteen rules of either version, on four names each or variants of one. some_pool makes every second name an output, as some_rule wants it."""
    pool, outputs = some_pool(dice, 64)
    count, version = dice.between(5, 16), dice.pick([1, 2])
    if dice.chance(0.6):
        return Sheet(outputs, tuple(some_rule(dice, pool[4 * i:4 * i + 4], outputs, some_kind(dice), version) for i in range(count)), version)
    rule = some_rule(dice, pool[:12], outputs, some_kind(dice), version)
    return Sheet(outputs, tuple(variant(dice, rule, version) for _ in range(count)), version)


def many_rules_cases(dice, count):
    for _ in range(count):
        sheet = many_rules(dice)
        log = some_log(dice, sheet, dice.pick([6, 12, 24]))
        yield make.Case("many rules", written(sheet)[0], log_bytes(log), make.some_budget(dice, len(log)))


# ---- a session's list: (clock, name, time)

def records(log):
    """The whole records of a log, as a session sees them."""
    pairs = (struct.unpack_from("<BI", log, at) for at in range(0, len(log) - 4, 5))
    return [(name == CLOCK, 0 if name == CLOCK else name, time) for name, time in pairs]


def refused_one(dice, before):
    """An observation that is refused by 12, or by 11 if the time before it is not 0."""
    if before > 0 and dice.chance(0.5):
        return dice.chance(0.4), dice.below(64), max(0, before - dice.pick([1, 1, 2, before]))
    return False, dice.pick(REFUSED_NAMES), dice.pick([before, before, 0, MOST])


def session_list(dice, log):
    seen = records(log)
    for _ in range(dice.pick([0, 0, 1, 1, 2, 3])):
        at = dice.below(len(seen) + 1)
        seen.insert(at, refused_one(dice, seen[at - 1][2] if at else 0))
    last = max((time for _, _, time in seen), default=0)
    if dice.chance(0.6):
        name = dice.pick(seen)[1] if seen else 0
        seen += [(False, name, last), (True, 0, min(MOST, last + dice.pick([0, 1, 11, 1000]))), refused_one(dice, last), (False, name, MOST)]
    return seen


def judged(judge, seen):
    """The answer due to each observation. A name of 255 is a clock reading for the reference and no name here, so another refused name stands for it."""
    for clock, name, time in seen:
        refusal = judge.observe(CLOCK if clock else 64 if name == CLOCK else name, time)
        yield answer_bytes(REFUSED, refusal) if refusal else verdict_bytes(judge.verdict)


# ---- a case's bytes

def short(data):
    return struct.pack("<H", len(data)) + data


def session_bytes(seen, answers, verdict, taken):
    listed = b"".join(struct.pack("<BII", *o) + a for o, a in zip(seen, answers))
    return struct.pack("<H", len(seen)) + listed + verdict + struct.pack("<I", taken)


def random_case(dice, case, result, met):
    """A case of the reference. A refused sheet gives no monitor, so that its list is empty."""
    if result.answer == REFUSED and result.refusal <= 10:
        opened, session = answer_bytes(REFUSED, result.refusal, 0, result.place), session_bytes([], [], answer_bytes(WHOLE), 0)
    else:
        judge = Judge(guard.read_sheet(case.sheet).rules)
        seen = session_list(dice, case.log)
        answers = list(judged(judge, seen))
        met.update((a[0], a[1]) for a in answers)
        opened, session = answer_bytes(WHOLE), session_bytes(seen, answers, verdict_bytes(judge.verdict), len(judge.taken))
    return (struct.pack("<I", 0) + short(case.sheet) + short(case.log) + struct.pack("<I", case.budget) + guard.answer_bytes(result) + opened + session)


def told(word):
    """The answer that a word of replay's stored lines stands for."""
    if word == "w":
        return answer_bytes(WHOLE)
    if word[0] == "o":
        return answer_bytes(OPEN, 0, int(word[1:]))
    if word[0] == "r":
        return answer_bytes(REFUSED, int(word[1:]))
    place, mask = word[1:].split(":")
    return answer_bytes(BROKEN, 0, int(mask), int(place))


def stored_cases(met):
    """The traces that tests/traces/make.py has stored, with their lines, of which each stands there twice. The call is made with no log."""
    folder = os.path.join(ROOT, "crates", "replay")
    with open(os.path.join(folder, "stdin"), "rb") as f:
        data = f.read()
    with open(os.path.join(folder, "stdout")) as f:
        lines = f.read().splitlines()[::2]
    at = 0
    for line in lines:
        before, size, count = struct.unpack_from("<IHH", data, at)
        sheet, log = data[at + 8:at + 8 + size], data[at + 8 + size:at + 8 + size + 5 * count]
        at += 8 + size + 5 * count
        words, end = line.split("|")
        answers = [told(word) for word in words.split()]
        verdict, taken = end.split()
        assert len(answers) == count
        met.update((a[0], a[1]) for a in answers)
        head = struct.pack("<I", before) + short(sheet) + short(b"") + struct.pack("<I", 0) + guard.answer_bytes(guard.run(sheet, b"", 0))
        yield head + answer_bytes(WHOLE) + session_bytes(records(log), answers, told(verdict), int(taken))
    assert at == len(data)


# ---- the file

def write(path, seed):
    make.SEED = seed
    dice = Dice(random.Random(seed + 1).random)
    body, tally, met, high = [], make.Tally(), Counter(), Counter()
    for case in itertools.chain(make.all_cases(), many_rules_cases(dice, 1000)):
        result = guard.run(case.sheet, case.log, case.budget)
        tally.add(case, result, make.cause(case, result))
        high[result.answer] += result.mask >= 256
        body.append(random_case(dice, case, result, met))
    tally.hold()
    assert all(high[a] >= AT_LEAST // 2 for a in (OPEN, BROKEN)), high
    body += stored_cases(met)
    due = [(WHOLE, 0), (OPEN, 0), (BROKEN, 0), (REFUSED, 11), (REFUSED, 12), (REFUSED, 13)]
    assert all(met[a] >= AT_LEAST for a in due), met
    with open(path, "wb") as f:
        f.write(struct.pack("<I", len(body)) + b"".join(body))
    print("cases of the reference, seed %d: %d; a session is due whole %d, open %d, broken %d, refused 11 %d, 12 %d, 13 %d"
          % ((seed, len(body)) + tuple(met[a] for a in due)))


if __name__ == "__main__":
    # a rule's status depends on the rule, its trace and the latest time alone, and the call's run and the session's list ask for many twice
    status = functools.lru_cache(maxsize=1 << 16)(guard.status)
    guard.status = lambda rule, trace, latest: status(rule, tuple(trace), latest)
    write(sys.argv[1], int(sys.argv[2]) if len(sys.argv) > 2 else SEED)
