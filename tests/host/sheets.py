#!/usr/bin/env python3
"""The sheets that the host tests write back: every accepted one of those stored for `sheets`, `vectors` (its cases) and `replay`, each once, and some made of them.

    python3 tests/host/sheets.py FILE

A book keeps what no verdict needs: the version, the outputs that no rule has, the order of ranges, the join of a fragment of one range; and it keeps 0 and 65535 for v apart, which only a
long log does. So of some stored sheets there are twins that differ in one such thing alone; who writes the wrong one of two is then noticed. The reference reads every sheet and writes
it back. The file: each sheet as u16 length, little-endian, and its bytes.
"""
import itertools
import os
import struct
import sys
from collections import Counter

ROOT = os.path.join(os.path.dirname(os.path.abspath(__file__)), "..", "..")
sys.dont_write_bytecode = True
sys.path.insert(0, os.path.join(ROOT, "reference"))

import guard
import writing
from guard import JOINS, LAST_JOIN, Refused, names_of

AT_LEAST = 100
TWINS = 300     # of each kind
MOST_V = 65535


# ---- the stored ones

def stored(*path):
    with open(os.path.join(ROOT, "crates", *path), "rb") as f:
        return f.read()


def of_sheets():
    data, at = stored("sheets", "stdin"), 0
    while at < len(data):
        _, size = struct.unpack_from("<BH", data, at)
        yield data[at + 3:at + 3 + size]
        at += 3 + size


def of_vectors():
    data = stored("vectors", "data", "cases.bin")
    at = 8
    while at < len(data):
        size, = struct.unpack_from("<H", data, at)
        yield data[at + 2:at + 2 + size]
        at += 2 + size
        log, = struct.unpack_from("<H", data, at)
        at += 2 + log + 4 + 12 + 1


def of_replay():
    data, at = stored("replay", "stdin"), 0
    while at < len(data):
        _, size, count = struct.unpack_from("<IHH", data, at)
        yield data[at + 8:at + 8 + size]
        at += 8 + size + 5 * count


def accepted():
    """Each accepted sheet once: its bytes, and as the reference reads it."""
    found = {}
    for data in itertools.chain([writing.BYTES], of_sheets(), of_vectors(), of_replay()):
        try:
            found[data] = guard.read_sheet(data)
        except Refused:
            pass
    return found


# ---- twins

def names_in(sheet):
    return set().union(*(names_of(rule) for rule in sheet.rules))


def fragments_of(sheet):
    return [fragment for rule in sheet.rules for fragment in rule.p + rule.q]


def with_fragments(sheet, change):
    def ordering(fragments):
        return tuple(change(f) for f in fragments)
    return sheet._replace(rules=tuple(rule._replace(p=ordering(rule.p), q=ordering(rule.q)) for rule in sheet.rules))


def with_v(sheet, old, new):
    return with_fragments(sheet, lambda f: f._replace(ranges=tuple(r._replace(v=new) if r.v == old else r for r in f.ranges)))


def other_version(sheet):
    """In version 2 every sheet of version 1 is accepted, and some the other way round."""
    return sheet._replace(version=3 - sheet.version)


def other_outputs(sheet):
    """Each name that no rule has the other way round."""
    return sheet._replace(outputs=sheet.outputs ^ sum(1 << n for n in range(64) if n not in names_in(sheet)))


def other_joins(sheet):
    """The next join in every fragment of one range, where all of them mean the same."""
    joins = LAST_JOIN[sheet.version] + 1
    return with_fragments(sheet, lambda f: f._replace(join=(f.join + 1) % joins) if len(f.ranges) == 1 else f)


def other_order(sheet):
    return with_fragments(sheet, lambda f: f._replace(ranges=f.ranges[::-1]))


def other_end(sheet):
    """65535 for no upper end."""
    return with_v(sheet, 0, MOST_V)


def no_end(sheet):
    return with_v(sheet, MOST_V, 0)


CHANGES = [other_version, other_outputs, other_joins, other_order, other_end, no_end]


def twins(sheets):
    """Of each change TWINS accepted sheets that it makes another."""
    for change in CHANGES:
        made = 0
        for sheet in sheets:
            other = change(sheet)
            if made < TWINS and other != sheet and is_accepted(guard.write(other)):
                made += 1
                yield guard.write(other)
        assert made >= AT_LEAST, (change.__name__, made)


def is_accepted(data):
    try:
        guard.read_sheet(data)
    except Refused:
        return False
    return True


# ---- what occurs

def features(sheet):
    fragments = fragments_of(sheet)
    yield "version %d" % sheet.version
    yield from {"kind %d" % rule.kind for rule in sheet.rules}
    yield from {"join %d" % f.join for f in fragments}
    yield from {"join %d of one range" % f.join for f in fragments if len(f.ranges) == 1}
    yield from {"v = %d" % r.v for f in fragments for r in f.ranges if r.v in (0, MOST_V)}
    if any(sheet.outputs >> n & 1 and n not in names_in(sheet) for n in range(64)):
        yield "an output that no rule has"
    if any(list(f.ranges) != sorted(f.ranges) for f in fragments):
        yield "ranges in another order than their names"


FEATURES = (["version 1", "version 2"] + ["kind %d" % k for k in range(3)] + ["join %d" % j for j in JOINS] + ["join %d of one range" % j for j in JOINS]
            + ["v = 0", "v = %d" % MOST_V, "an output that no rule has", "ranges in another order than their names"])


def write(path):
    writing.hold()
    found = accepted()
    stored_count = len(found)
    for data in twins(list(found.values())):
        found[data] = guard.read_sheet(data)
    met = Counter()
    for data, sheet in found.items():
        assert guard.write(sheet) == data
        met.update(features(sheet))
    assert all(met[f] >= AT_LEAST for f in FEATURES), met
    with open(path, "wb") as f:
        f.writelines(struct.pack("<H", len(data)) + data for data in found)
    print("sheets to be written back: %d, of them %d stored ones; %s" % (len(found), stored_count, ", ".join("%s: %d" % (f, met[f]) for f in FEATURES)))


if __name__ == "__main__":
    write(sys.argv[1])
