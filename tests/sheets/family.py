#!/usr/bin/env python3
"""Sheets at the names of change 6, each with its answer before the change and now. "At a range name the order becomes 1, 6, 9, 8. The old answers that change are those sheets whose first fault
is a Q name that is an input and already in the rule: 8 becomes 9, same place."

    python3 tests/sheets/family.py                    write tests/sheets/reused.txt
    python3 tests/sheets/family.py --check [CALLS]    say whether that file is what would be written; CALLS, the program built of tests/docs/calls.c: the library is asked for each sheet too

A sheet has, for each version and each of its joins, a rule of kind 2 with two fragments of two ranges in P and in Q, alone or behind two others that have the same names; one of its fields is
another name, or the sheet ends before it. What is due follows from what was put there, and where: ANSWERS has it by document 01's words and the change's. The reference is then held to it.
"""
import os
import struct
import subprocess
import sys
from collections import Counter, namedtuple

HERE = os.path.dirname(os.path.abspath(__file__))
sys.dont_write_bytecode = True
sys.path.insert(0, os.path.join(HERE, "..", "..", "reference"))

import guard
import reused

FILE = os.path.join(HERE, "reused.txt")
AT_LEAST = 100

# What a field holds, and its refusal before change 6 and now; 0 is none, so that the sheet is accepted.
ANSWERS = {
    "Q": {
        "an input of P": (8, 9),              # "a Q name that is an input and already in the rule: 8 becomes 9, same place"
        "an output of P": (8, 8),             # "8 already in the rule"; an output in Q is no 9
        "an output of Q": (8, 8),
        "an input that the rule doesn't have": (9, 9),
        "an output that the rule doesn't have": (0, 0),
        "an output that the rule doesn't have, and then v < u": (7, 7),
        "64": (6, 6),
        "255": (6, 6),
        "nothing, the sheet ends": (1, 1),
    },
    "P": {                                    # no name of P is 9
        "an input of P": (8, 8),
        "an output of P": (8, 8),
        "the trigger": (8, 8),
    },
    "trigger": {                              # 1, 6, 9 as before: the change speaks of range names
        "an output": (9, 9),
        "64": (6, 6),
        "255": (6, 6),
    },
}
NEW_INPUT, NEW_OUTPUT, TRIGGER = 9, 50, 10
INPUTS, OUTPUTS = (0, 1, 2, 63), (40, 41, 42, 62)      # a P has one of each for each of its places, in turn
SPOTS = [(0, 0), (0, 1), (1, 0), (1, 1)]               # fragment, range
Q_NAMES = {(0, 0): 52, (0, 1): 53, (1, 0): 54, (1, 1): 55}
OUTPUT_SET = sum(1 << n for n in (*OUTPUTS, NEW_OUTPUT, *Q_NAMES.values()))
JOINS = {1: (0, 1), 2: (0, 1, 2, 3)}
Member = namedtuple("Member", "data place before now words")


# ---------------------------------------------------------------- bytes, and where each name stands


class Bytes:
    """A sheet as it is written, field by field. `places` has the offset of each name: a spot of P or Q of the last rule, or its trigger."""

    def __init__(self, version, later):
        self.data, self.places = bytearray(b"LOB"), {}
        self.data += struct.pack("<HQB", version, OUTPUT_SET, 3 if later else 1)
        if later:      # the same names stand in the rules before, which are right: "already in the rule" is said of one rule
            self.rule(1, {(0, 0): INPUTS[0], (0, 1): OUTPUTS[0], (1, 0): NEW_INPUT, (1, 1): NEW_OUTPUT}, {}, 0, trigger=INPUTS[1])
            self.rule(2, {spot: INPUTS[i] for i, spot in enumerate(SPOTS)}, Q_NAMES, 1)
            self.places = {}

    def rule(self, kind, p, q, join, trigger=0):
        self.places["trigger", None] = len(self.data) + 3
        self.data += struct.pack("<BBBBI", kind, 2, 2 if q else 0, trigger, 10 if kind == 2 else 0)
        for part, names in (("P", p), ("Q", q)):
            for number in (0, 1) if names else ():
                self.data += bytes([join, 2])
                for spot in ((number, 0), (number, 1)):
                    self.places[part, spot] = len(self.data)
                    self.data += struct.pack("<BHH", names[spot], 1, 2)


def p_names(first):
    """The names of a P: inputs and outputs in turn, an input first or, where `first` is 1, an output."""
    return {spot: (INPUTS if (i + first) % 2 == 0 else OUTPUTS)[i] for i, spot in enumerate(SPOTS)}


def inputs_and_outputs(number):
    """What can stand in place `number` of a P, its name, and the `first` of the P that has it there."""
    yield "an input of P", INPUTS[number], number % 2
    yield "an output of P", OUTPUTS[number], 1 - number % 2


def spot_text(spot):
    return "fragment %d, range %d" % (spot[0] + 1, spot[1] + 1)


# ---------------------------------------------------------------- the family


def timed(version, join, later, first=0):
    made = Bytes(version, later)
    made.rule(2, p_names(first), Q_NAMES, join)
    return made


def with_name(made, part, spot, name, what, more=""):
    """The sheet with this name in the place of the one there, and what is due."""
    place = made.places[part, spot]
    before, now = ANSWERS[part][what]
    data = bytes(made.data[:place]) + bytes([name]) + bytes(made.data[place + 1:])
    return Member(data, place if now else 0, before, now, "%s: %s%s" % (part + ", " + spot_text(spot) if spot else part, what, more))


def at_a_q_name(version, join, later, spot):
    """Each thing that can be put into one name of Q."""
    for number, used in enumerate(SPOTS):
        for what, name, first in inputs_and_outputs(number):
            yield with_name(timed(version, join, later, first), "Q", spot, name, what, ", there in " + spot_text(used))
    for used in SPOTS[:SPOTS.index(spot)]:
        yield with_name(timed(version, join, later), "Q", spot, Q_NAMES[used], "an output of Q", ", there in " + spot_text(used))
    made = timed(version, join, later)
    yield with_name(made, "Q", spot, NEW_INPUT, "an input that the rule doesn't have")
    yield with_name(made, "Q", spot, NEW_OUTPUT, "an output that the rule doesn't have")
    for name in (64, 255):
        yield with_name(made, "Q", spot, name, str(name))
    place = made.places["Q", spot]
    what = "an output that the rule doesn't have, and then v < u"
    yield Member(bytes(made.data[:place]) + struct.pack("<BHH", NEW_OUTPUT, 3, 2) + bytes(made.data[place + 5:]), place + 3, *ANSWERS["Q"][what], "Q, %s: %s" % (spot_text(spot), what))
    what = "nothing, the sheet ends"
    yield Member(bytes(made.data[:place]), place, *ANSWERS["Q"][what], "Q, %s: %s" % (spot_text(spot), what))


def at_a_p_name(version, join, later, spot):
    """A name of P that the rule has there already."""
    for number, used in enumerate(SPOTS[:SPOTS.index(spot)]):
        for what, name, first in inputs_and_outputs(number):
            yield with_name(timed(version, join, later, first), "P", spot, name, what, ", there in " + spot_text(used))


def at_a_trigger(version, join, later):
    """A trigger of kinds 0 and 1, and its name again in the first and in the last range."""
    for kind in (0, 1):
        made = Bytes(version, later)
        made.rule(kind, p_names(0), {}, join, trigger=TRIGGER)
        for name, what in ((NEW_OUTPUT, "an output"), (64, "64"), (255, "255")):
            yield with_name(made, "trigger", None, name, what, ", kind %d" % kind)
        for spot in (SPOTS[0], SPOTS[-1]):
            yield with_name(made, "P", spot, TRIGGER, "the trigger", ", kind %d" % kind)


def family():
    """(heading, members)."""
    for version, joins in JOINS.items():
        for join in joins:
            for later in (False, True):
                members = [m for spot in SPOTS for m in at_a_q_name(version, join, later, spot)]
                members += [m for spot in SPOTS[1:] for m in at_a_p_name(version, join, later, spot)]
                yield "version %d, join %d, %s" % (version, join, "the third of three rules" if later else "one rule"), members + list(at_a_trigger(version, join, later))


# ---------------------------------------------------------------- the file

HEAD = """\
# Sheets at the names of change 6. A line is the sheet, the place, the refusal before the change, the refusal now (0: accepted), and what stands at that place. tests/sheets/family.py
# writes this file, and holds the reference and the library to it. P has two fragments of two ranges each, inputs and outputs in turn; so has Q, outputs.
"""


def text(made):
    lines = [HEAD]
    for heading, members in made:
        lines.append("\n# %s\n" % heading)
        lines += ["%s %d %d %d  %s\n" % (m.data.hex().upper(), m.place, m.before, m.now, m.words) for m in members]
    return "".join(lines)


def hold_reference(members):
    """Both readings of the reference, and its walk of the fields, give what the description says."""
    for m in members:
        fault = reused.hold(m.data)
        due = ((m.before, m.place), (m.now, m.place))
        said = (reused.read(m.data, guard.OLD_NAME_ORDER)[0], reused.read(m.data, guard.NAME_ORDER)[0])
        assert said == due, (m, said)
        assert reused.is_reused_input(fault) == (m.before != m.now), (m, fault)


def counts(members):
    met = Counter((m.before, m.now) for m in members)
    assert len({m.data for m in members}) == len(members)
    assert met[8, 9] >= AT_LEAST and set(met) == {row for rows in ANSWERS.values() for row in rows.values()}, met
    return ", ".join("%d then %d: %d" % (*row, met[row]) for row in sorted(met))


# ---------------------------------------------------------------- the library


def library_faults(calls, members):
    """Sheets to which guard_run or guard_open say something else than is due now."""
    asked = "".join("run %s - 12\nlive %s 0\n" % (m.data.hex(), m.data.hex()) for m in members)
    ran = subprocess.run([calls], input=asked, stdout=subprocess.PIPE, check=True, universal_newlines=True)
    lines = ran.stdout.splitlines()
    assert len(lines) == 2 * len(members), len(lines)
    for m, by_log, live in zip(members, lines[::2], lines[1::2]):
        answer = 3 if m.now else 0
        due = ["0 " + (struct.pack("<BBHII", answer, m.now, 0, 0, m.place) + b"\xa5" * 4).hex().upper(), "%d:%d:0:%d" % (answer, m.now, m.place)]
        said = [by_log, live.split()[0]]
        if said != due:
            yield "%s, %s: due %s, said %s" % (m.data.hex(), m.words, due, said)


def main(arguments):
    made = list(family())
    members = [m for _, members in made for m in members]
    hold_reference(members)
    if arguments[:1] != ["--check"]:
        with open(FILE, "w") as f:
            f.write(text(made))
        return
    with open(FILE) as f:
        if f.read() != text(made):
            sys.exit("tests/sheets/reused.txt is not what family.py makes")
    if arguments[1:]:
        faults = list(library_faults(arguments[1], members))
        if faults:
            sys.exit("\n".join(faults[:5] + ["%d of %d sheets are not answered as due" % (len(faults), len(members))]))
    print("sheets at the names of change 6, before and now, by the reference%s: %d; %s" % (" and the library" if arguments[1:] else "", len(members), counts(members)))


if __name__ == "__main__":
    main(sys.argv[1:])
