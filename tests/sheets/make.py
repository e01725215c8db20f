#!/usr/bin/env python3
"""Example sheets, and what is due for each: the answer of the second reading in reference/, which is written from document 01 ("The sheet", "Where each refusal is
found") and changes 1, 2 and 6 of document 02 and from nothing else of this repository.

  python3 tests/sheets/make.py          write crates/sheets/stdin (the sheets) and crates/sheets/stdout (a line for each: answer, number, place)
  python3 tests/sheets/make.py --check  say whether those two files are what would be written, and print how many sheets meet each refusal

The answer is 0 for an accepted sheet and 3 for a refused one. In stdin a sheet is a byte (0: the sheet alone; 1: every prefix of it, the empty one first),
its length (u16, little-endian) and its bytes.
"""
import os
import random
import struct
import sys

HERE = os.path.dirname(os.path.abspath(__file__))
sys.path[:0] = [os.path.join(HERE, ".."), os.path.join(HERE, "..", "..", "reference")]

import reused
from guard import LAST_JOIN, Refused, read_sheet
from stored import keep

# ---------------------------------------------------------------- what is due


def due(data):
    """(answer, number, place) of some bytes."""
    try:
        read_sheet(data)
    except Refused as r:
        return 3, r.number, r.place
    return 0, 0, 0


# ---------------------------------------------------------------- building sheets


def a_range(name, u=1, v=1):
    return struct.pack("<BHH", name, u, v)


def fragment(ranges, join=0, count=None):
    return bytes([join, len(ranges) if count is None else count]) + b"".join(ranges)


def rule(kind, p, q=(), trigger=0, t=0, in_p=None, in_q=None):
    head = struct.pack("<BBBBI", kind, len(p) if in_p is None else in_p, len(q) if in_q is None else in_q, trigger, t)
    return head + b"".join(p) + b"".join(q)


def sheet(rules, outputs=0, mark=b"LOB", version=1, count=None):
    return mark + struct.pack("<HQB", version, outputs, len(rules) if count is None else count) + b"".join(rules)


def names(first, sizes, version):
    """Fragments of so many ranges, named from first on, with every join of the version; in version 2 every fifth range has no upper end."""
    made = []
    for size in sizes:
        ranges = [a_range(n, 1 + n % 3, 0 if version > 1 and n % 5 == 0 else 65535 - n) for n in range(first, first + size)]
        made.append(fragment(ranges, join=len(made) % (LAST_JOIN[version] + 1)))
        first += size
    return made


def full(p_sizes, q_sizes, version=1):
    """Sixteen timed rules, of 64 names and 16 fragments each, with every join of the version: 5,774 bytes."""
    split = sum(p_sizes)
    outputs = sum(1 << n for n in range(split, 64))
    return sheet([rule(2, names(0, p_sizes, version), names(split, q_sizes, version), t=4294967295 - k) for k in range(16)], outputs, version=version)


PRINTED = bytes.fromhex("4C4F42 0100 0000000000000000 01 01 01 00 02 00000000 00 02 00 0100 0100 01 0100 0100".replace(" ", ""))
FULL = full([4] * 8, [4] * 8)
RANDOM = 93     # random sheets, each with two of its changes: as many as stdin, of at most 65,536 bytes, has room for
HELD = 500      # of the prefixes of a long sheet these are held to reused.py, and it as a whole: all end in a field that is cut off


def examples():
    """(every prefix?, bytes), with the printed case first."""
    yield 0, PRINTED
    # one sheet with each kind of rule, whose prefixes meet 1 at each kind of field
    pair = fragment([a_range(0), a_range(1, 2, 3)])
    one = fragment([a_range(5, 7, 7)], join=1)
    answer = fragment([a_range(40), a_range(63, 1, 65535)], join=1)
    outputs = 1 << 40 | 1 << 63
    mixed = sheet([rule(0, [pair], trigger=2), rule(1, [pair, one], trigger=9), rule(2, [one, pair], [answer], t=10)], outputs)
    yield 1, mixed
    # the same in version 2, with shuffled fragments, of one range too, in P and in Q, first and last, and with ranges that have no upper end
    shuffled = fragment([a_range(0), a_range(1, 2, 3)], join=2)
    one_of_two = fragment([a_range(3), a_range(4, 7, 0)], join=3)
    in_q = fragment([a_range(40, 1, 0), a_range(63)], join=2)
    yield 1, sheet([rule(0, [one_of_two], trigger=2), rule(1, [pair, fragment([a_range(5)], join=3)], trigger=9),
                    rule(2, [one_of_two, shuffled], [in_q, fragment([a_range(41)], join=2)], t=10)], outputs | 1 << 41, version=2)
    yield 1, FULL
    # 5,774 bytes in other divisions and in version 2; one byte more, one field wrong
    assert len(FULL) == 5774
    for other in (full([8, 8, 8, 8, 1, 1, 1, 1], [8, 8, 2, 2, 2, 2, 2, 2], 2), full([1] * 8, [7] * 8)):
        assert len(other) == 5774, len(other)
        yield 0, other
    yield 0, FULL + b"\0"
    yield 0, FULL[:-2] + b"\0\0"
    # 2 and 3
    for mark in (b"LOA", b"BOL", b"lOB", b"\0\0\0"):
        yield 0, sheet([rule(1, [pair], trigger=2)], mark=mark)
    yield 0, b"LOA"
    yield 0, b"XX"
    for version in (0, 1, 2, 3, 4, 255, 256, 257, 258, 512, 513, 65535):
        yield 0, sheet([rule(1, [pair], trigger=2)], version=version)
        yield 0, sheet([rule(1, [shuffled], trigger=2)], version=version)
    # 4: count, kind, join
    good = rule(1, [pair], trigger=2)
    for count in (0, 2, 17, 255):
        yield 0, sheet([good], count=count)
    yield 0, sheet([good] * 16)
    yield 0, sheet([good] * 17)
    for kind in (3, 255):
        yield 0, sheet([rule(kind, [pair], trigger=2)])
    for in_p in (0, 9, 255):
        for kind in (0, 1, 2):
            yield 0, sheet([rule(kind, [pair], in_p=in_p)])
    for in_q in (0, 9, 255):
        yield 0, sheet([rule(2, [pair], [answer], in_q=in_q)], outputs)
    for version in LAST_JOIN:
        for join in (1, 2, 3, 4, 5, 128, 254, 255):
            yield 0, sheet([rule(1, [fragment([a_range(0)], join=join)], trigger=2)], version=version)
            yield 0, sheet([rule(2, [pair], [fragment([a_range(40)], join=join)])], outputs, version=version)
    # the join of every fragment is looked at, and before its count
    yield 0, sheet([rule(1, [shuffled, one_of_two, fragment([a_range(9)], join=4)], trigger=2)], version=2)
    yield 0, sheet([rule(1, [pair, fragment([a_range(9)], join=3)], trigger=2)])
    yield 0, sheet([rule(1, [fragment([a_range(0)], join=4, count=9)], trigger=2)], version=2)
    yield 0, sheet([rule(1, [fragment([a_range(0)], join=3, count=9)], trigger=2)], version=2)
    for count in (0, 9, 255):
        yield 0, sheet([rule(1, [fragment([a_range(0)], count=count)], trigger=2)])
        yield 0, sheet([rule(2, [pair], [fragment([a_range(40)], count=count)])], outputs)
    # 5: Q count, trigger, t
    for in_q in (1, 8, 9, 255):
        for kind in (0, 1):
            yield 0, sheet([rule(kind, [pair], trigger=2, in_q=in_q)])
    for trigger in (1, 63, 64, 70, 255):
        yield 0, sheet([rule(2, [one], [answer], trigger=trigger)], outputs)
    yield 0, sheet([rule(2, [one], [fragment([a_range(0)])])], 1)
    yield 0, sheet([rule(2, [fragment([a_range(0)])], [answer])], outputs | 1)
    for t in (1, 256, 65536, 1 << 24, 4294967295):
        for kind in (0, 1):
            yield 0, sheet([rule(kind, [fragment([a_range(0)], join=2)], trigger=2, t=t)])
        yield 0, sheet([rule(2, [pair], [answer], t=t)], outputs)
    # 6: trigger, range name
    for name in (64, 70, 128, 255):
        for kind in (0, 1):
            yield 0, sheet([rule(kind, [pair], trigger=name)])
        yield 0, sheet([rule(1, [fragment([a_range(name)])], trigger=2)])
        yield 0, sheet([rule(1, [pair, fragment([a_range(5), a_range(name)])], trigger=2)])
        yield 0, sheet([rule(2, [pair], [fragment([a_range(name)])])], outputs)
    # 7: u is 0; v < u
    for u, v in ((0, 0), (0, 1), (1, 0), (2, 1), (65535, 65534), (65535, 65535), (256, 1), (1, 256)):
        yield 0, sheet([rule(0, [fragment([a_range(0, u, v)])], trigger=2)])
        yield 0, sheet([rule(2, [pair], [fragment([a_range(40), a_range(63, u, v)])])], outputs)
        yield 0, sheet([rule(0, [fragment([a_range(0, u, v)], join=2)], trigger=2)], version=2)
    # v = 0 by version, kind, part and join: u = 0 is found before it, and 0 < v < u stays 7
    for version, last in LAST_JOIN.items():
        for join in range(last + 1):
            for u, v in ((1, 0), (65535, 0), (0, 0), (3, 2)):
                ranges = [a_range(40, u, v)]
                for kind in (0, 1):
                    yield 0, sheet([rule(kind, [fragment(ranges, join)], trigger=2)], version=version)
                yield 0, sheet([rule(2, [fragment([a_range(1, u, v)], join)], [answer])], outputs, version=version)
                yield 0, sheet([rule(2, [fragment([a_range(1)])], [fragment([a_range(63)] + ranges, join)])], outputs, version=version)
    # of two that are wrong in version 1 the first decides
    yield 0, sheet([rule(1, [fragment([a_range(0, 1, 0), a_range(1, 1, 0)])], trigger=2)])
    yield 0, sheet([rule(1, [fragment([a_range(0, 5, 0), a_range(1, 5, 4)])], trigger=2)], version=2)
    # 8: in one fragment, in two, in P and Q, trigger and range
    yield 0, sheet([rule(1, [fragment([a_range(0), a_range(0)])], trigger=2)])
    yield 0, sheet([rule(1, [fragment([a_range(0)]), fragment([a_range(1), a_range(0)])], trigger=2)])
    yield 0, sheet([rule(2, [fragment([a_range(40)])], [answer])], outputs)
    for kind in (0, 1):
        yield 0, sheet([rule(kind, [fragment([a_range(0), a_range(2)])], trigger=2)])
    yield 0, sheet([rule(1, [pair], trigger=2), rule(1, [pair], trigger=2)])
    # 9: a trigger that is an output; a Q name that is an input
    for name in (0, 31, 63):
        for kind in (0, 1):
            yield 0, sheet([rule(kind, [fragment([a_range(7)])], trigger=name)], 1 << name)
        yield 0, sheet([rule(2, [fragment([a_range(7)])], [fragment([a_range(name)])])], (1 << 64) - 1 - (1 << name))
    # at a range's name 6 comes first, then 9, then 8 (change 6)
    yield 0, sheet([rule(2, [fragment([a_range(5)])], [fragment([a_range(5)])])])
    yield 0, sheet([rule(2, [fragment([a_range(5)])], [fragment([a_range(64)])])])
    for version in LAST_JOIN:
        yield from reused_names(version)
    for trigger in (40, 64):
        yield 0, sheet([rule(1, [fragment([a_range(5)])], trigger=trigger)], (1 << 64) - 1)
    # the first faulty field decides
    yield 0, sheet([rule(1, [fragment([a_range(0, 0, 0)])], trigger=70)], 1)
    yield 0, sheet([rule(2, [fragment([a_range(0, 0, 5)], join=7)], [answer])], outputs)
    # 10
    for more in (b"\0", b"LOB", b"\0" * 100):
        yield 0, PRINTED + more
    # random sheets, and one byte of them changed
    rng = random.Random(2016)
    for number in range(RANDOM):
        data = random_sheet(rng, 1 + number % 2)
        yield 0, data
        for _ in range(2):
            at = rng.randrange(len(data))
            yield 0, data[:at] + bytes([rng.choice([0, 1, 2, 3, 4, 8, 9, 63, 64, 255, data[at] ^ 1, rng.randrange(256)])]) + data[at + 1:]


def reused_names(version):
    """Rules of kind 2 over the inputs 5 and 6 and the outputs 40 and 63, with a name in Q or in P that is wrong or there already. A list is an ordering's names, fragment by fragment."""
    outputs, last = 1 << 40 | 1 << 63, LAST_JOIN[version]

    def timed(p, q):
        return rule(2, *([fragment([a_range(n) for n in names], join=last) for names in ordering] for ordering in (p, q)), t=10)
    p = [[5, 40], [6]]
    in_q = [[[5]], [[63, 6]], [[63], [5]],             # an input of P again: alone, in a later place, in a later fragment
            [[40]], [[63, 40]], [[63, 63]], [[63], [63]],    # an output of P, and of Q
            [[63, 7]], [[63, 64]], [[255]]]            # an input that the rule does not have; above 63
    for q in in_q:
        yield 0, sheet([timed(p, q)], outputs, version=version)
    for again in ([[5, 5]], [[40, 40]]):
        yield 0, sheet([timed(again, [[63]])], outputs, version=version)
    # in the second rule, whose P has 5 or has it not; and the sheet ends before the name
    for own in ([[5]], [[6]]):
        yield 0, sheet([timed(p, [[63]]), timed(own, [[5]])], outputs, version=version)
    yield 0, sheet([timed(p, [[63]])], outputs, version=version)[:-5]


def random_sheet(rng, version):
    """A sheet that is right, or wrong only in a name that comes twice or goes the wrong way."""
    outputs = rng.getrandbits(64)
    rules = []
    for _ in range(rng.choice([1, 1, 2, 3])):
        kind = rng.randrange(3)
        pool = list(range(64))
        rng.shuffle(pool)
        if kind == 2 and rng.random() < 0.8:
            q_pool = [n for n in pool if outputs >> n & 1]
        else:
            q_pool = pool

        def some(source, most):
            made = []
            for _ in range(rng.randint(1, most)):
                made.append(fragment([random_range(rng, source, pool, version) for _ in range(rng.randint(1, 3))], join=rng.randrange(LAST_JOIN[version] + 1)))
            return made

        trigger = 0
        if kind != 2:
            inputs = [n for n in pool if not outputs >> n & 1]
            trigger = inputs[0] if inputs else 0
            if trigger in pool and rng.random() < 0.9:
                pool.remove(trigger)
        p = some(pool, 3)
        q = some([n for n in q_pool if n in pool] or q_pool or [0], 2) if kind == 2 else []
        rules.append(rule(kind, p, q, trigger, rng.choice([0, 5, 4294967295]) if kind == 2 else 0))
    return sheet(rules, outputs, version=version)


def random_range(rng, source, pool, version):
    name = source[0] if source else 0
    for names_left in (source, pool):
        if name in names_left and rng.random() < 0.97:
            names_left.remove(name)
    u = rng.choice([1, 1, 2, 300])
    return a_range(name, u, 0 if version > 1 and rng.random() < 0.2 else u + rng.choice([0, 1, 1000]))


# ---------------------------------------------------------------- the files


def made():
    sheets, lines, met = b"", [], {}
    for prefixes, data in examples():
        sheets += struct.pack("<BH", prefixes, len(data)) + data
        for end in range(len(data) + 1) if prefixes else [len(data)]:
            answer = due(data[:end])
            if end <= HELD or end == len(data):
                reused.hold(data[:end])
            met[answer[1]] = met.get(answer[1], 0) + 1
            lines.append("%d %d %d\n" % answer)
    assert due(PRINTED) == (0, 0, 0) and due(FULL) == (0, 0, 0)
    assert len(sheets) <= 65536, len(sheets)
    return sheets, "".join(lines).encode(), met


sheets, lines, met = made()
keep("sheets", sheets, lines, [("accepted" if k == 0 else k, met[k]) for k in sorted(met)])
