#!/usr/bin/env python3
"""The rounds that the host tests play, with what the reference says of each.

    python3 tests/host/playing.py FILE [SEED]

They are those of reference/plays.py, and one of each rule of every accepted sheet that is stored for `sheets`, `vectors` (its cases) and `replay`, with a number that the sheet has no rule of beside
them.

The file, all numbers little-endian: u32 number of sheets; then each sheet:
    u16 length, the sheet, u16 number of plays; each of them: u32 rule, u32 time, u32 length of the choice, the choice, u32 length of the output,
    u32 how many bytes the round has looked at when it is over, the missing ones too, and 0 where there is no rule; u32 the number of records due, or 2^32 - 17 or 2^32 - 18; the records.
"""
import importlib.util
import os
import random
import struct
import sys
from collections import Counter

HERE = os.path.dirname(os.path.abspath(__file__))
sys.dont_write_bytecode = True
sys.path.insert(0, os.path.join(HERE, "..", "..", "reference"))

import plays
from guard import MOST
from sheets import Dice

SEED = 1705
KEPT = ("records", "refusal 17", "refusal 18", "just the round", "one byte less", "12 bytes of output", "no output", "no choice bytes")


def stored_sheets():
    """The accepted sheets that are stored. tests/host/sheets.py finds them; a file of the reference has its name, so it is loaded by its path."""
    spec = importlib.util.spec_from_file_location("stored_sheets", os.path.join(HERE, "sheets.py"))
    module = importlib.util.module_from_spec(spec)
    spec.loader.exec_module(module)
    return module.accepted()


def is_long(rule):
    return sum(r.u for fragment in rule.p + rule.q for r in fragment.ranges) > plays.LONG


def stored_plays(dice):
    """Long rounds are among the others."""
    for data, sheet in stored_sheets().items():
        for number, rule in enumerate(sheet.rules):
            if not is_long(rule):
                yield plays.some_play(dice, data, sheet, number)
        yield plays.some_play(dice, data, sheet, plays.some_number(dice, len(sheet.rules)))


def play_bytes(case, due):
    head = struct.pack("<III", case.number, case.time, len(case.choice)) + case.choice
    return head + struct.pack("<III", case.length, due.looked, due.answer & MOST) + due.records


def write(path, seed):
    dice = Dice(random.Random(seed).random)
    met, stored = Counter(), Counter()
    body = list(plays.by_sheet(plays.all_plays(dice), play_bytes, met, plays.features, plays.other_readings))
    plays.hold_met(met, {**plays.FEW, **plays.LONG_ONES})
    body += plays.by_sheet(stored_plays(dice), play_bytes, stored, plays.features)
    with open(path, "wb") as f:
        f.write(struct.pack("<I", len(body)) + b"".join(body))
    print("rounds to be played, seed %d, and those of stored sheets: %s" % (seed, ", ".join("%s: %d and %d" % (feature, met[feature], stored[feature]) for feature in KEPT)))


if __name__ == "__main__":
    write(sys.argv[1], int(sys.argv[2]) if len(sys.argv) > 2 else SEED)
