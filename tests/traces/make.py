#!/usr/bin/env python3
"""Traces, observation by observation, and what is due for each: the answers are those of the second guard in reference/, which keeps the list of observations
taken and judges every rule anew at each of them.

  python3 tests/traces/make.py          write crates/replay/stdin (the cases) and crates/replay/stdout (two equal lines for each: by value, and through the session)
  python3 tests/traces/make.py --check  say whether those two files are what would be written, and print how often each answer is due

A line gives the answer to each observation, then after a bar the verdict and the number of observations taken: w whole, o with the mask of the open rules, b with
the place of the break and the mask of the rules broken, r with the number of the refusal. crates/replay/src/main.rt says how a case is laid out.
"""
import os
import random
import struct
import sys
from collections import Counter

HERE = os.path.dirname(os.path.abspath(__file__))
sys.path[:0] = [os.path.join(HERE, ".."), os.path.join(HERE, "..", "..", "reference")]

import reused
from guard import BROKEN, CLOCK, MOST, OPEN, Judge, read_sheet
from logs import deadline_log, some_log, with_refusal
from endless import endless_cases
from make import ENDLESS_TRACES, PRINTED_BOOK, PRINTED_TRACE, SHUFFLED_TRACES, TRACES, observations, timed_sheet, until_found
from sheets import Dice, some_sheet, written
from stored import keep

SEED = 2016
ROOM = 65536


class Late(Judge):
    """The judge of a monitor that has taken so many observations before, all of them foreign to every rule and at time 0."""

    def __init__(self, rules, before):
        super().__init__(rules)
        self.before = before

    def count(self):
        return self.before + len(self.taken)

    def refusal(self, name, time):
        return super().refusal(name, time) or (13 if self.count() == MOST else 0)

    def judged(self):
        answer, mask, place = super().judged()
        return answer, mask, place + self.before if answer == BROKEN else place


def told(verdict):
    answer, mask, place = verdict
    return "b%d:%d" % (place, mask) if answer == BROKEN else "o%d" % mask if answer == OPEN else "w"


def line(book, log, before):
    assert reused.hold(book) is None, book
    judge = Late(read_sheet(book).rules, before)
    words = []
    for time, name in log:
        refusal = judge.observe(name, time)
        words.append("r%d" % refusal if refusal else told(judge.verdict))
    return words, " ".join([""] + words + ["|", told(judge.verdict), str(judge.count())]) + "\n"


def after(dice, log):
    """More observations behind a log, where it may be broken already: an event, a clock reading, an early one and a bad name."""
    last = log[-1][0] if log else 0
    return log + [(last, 0), (min(MOST, last + 7), CLOCK), (max(0, last - 1), 1), (last, dice.pick([64, 254]))]


def cases():
    """(sheet bytes, observations, taken before)."""
    for sheet, text, _ in TRACES:
        yield written(sheet)[0], observations(text), 0
    yield PRINTED_BOOK, observations(PRINTED_TRACE), 0
    for sheet, text, _ in SHUFFLED_TRACES + ENDLESS_TRACES:
        yield written(sheet)[0], observations(text), 0
    dice = Dice(random.Random(SEED).random)
    for sheet, text, _ in TRACES + SHUFFLED_TRACES + ENDLESS_TRACES[::3]:
        # the last number there is: one or two are taken, the rest is refused by 13, and 12 and 11 come before it
        for before in (MOST, MOST - 1, MOST - 2):
            yield written(sheet)[0], after(dice, observations(text)), before
        yield written(sheet)[0], after(dice, observations(text)), 0
    for version, count in ((1, 130), (2, 110)):
        for number in range(count):
            sheet = until_found(lambda: timed_sheet(dice, version)) if number % 2 else some_sheet(dice, dice.chance(0.4), version)
            log = deadline_log(dice, sheet) if number % 2 else some_log(dice, sheet, dice.pick([6, 10, 14]))
            for _ in range(dice.below(3)):
                log = with_refusal(dice, log, dice.pick([11, 12]))
            yield written(sheet)[0], after(dice, log) if dice.chance(0.3) else log, 0
    for book, log, _ in endless_cases(dice, 1):
        if len(log) <= 150:             # the longer ones are among those of `vectors`
            yield book, [(time, name) for name, time in struct.iter_unpack("<BI", log)], 0


def has_no_upper_end(sheet):
    return any(r.v == 0 for rule in sheet.rules for fragment in rule.p + rule.q for r in fragment.ranges)


def made():
    data, lines, met = b"", [], Counter()
    for book, log, before in cases():
        words, said = line(book, log, before)
        met.update("version 2 " + word for word in {word[0] for word in words} if book[3] == 2)     # cases, not answers
        met.update("no upper end " + word for word in {word[0] for word in words} if has_no_upper_end(read_sheet(book)))
        data += struct.pack("<IHH", before, len(book), len(log)) + book + b"".join(struct.pack("<BI", name, time) for time, name in log)
        lines += [said, said]
        met.update(word if word[0] == "r" else word[0] for word in words)
    assert len(data) <= ROOM, len(data)
    kinds = ["w", "o", "b", "r11", "r12", "r13"] + [of + word for of in ("version 2 ", "no upper end ") for word in "wobr"]
    assert all(met[word] >= 20 for word in kinds), met
    return data, "".join(lines).encode(), met


data, lines, met = made()
keep("replay", data, lines, sorted(met.items()))
