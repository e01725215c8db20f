"""What change 6 of document 02 affects: "those sheets whose first fault is a Q name that is an input and already in the rule: 8 becomes 9, same place. No other sheet is affected, accepted ones
least of all".

The bytes are read here once more, and not by guard.py: `fields` says of each field which refusals a value meets, all of them, so that nothing rests on an order. `hold` holds both readings of
guard.py, with document 01's order and with the change's, to what the first faulty field meets; `words` says of a refused sheet what its name met, and make.py counts them.
"""

from collections import namedtuple

import guard
from guard import Refused

# the first faulty field: its offset and kind, its value (None where bytes lack), the numbers that it meets, and the names that the rule had before it, each with where it has it
Fault = namedtuple('Fault', 'at what value numbers had')
LOB = int.from_bytes(b'LOB', 'little')
P, Q, TRIGGER = 'P', 'Q', 'trigger'
Q_NAME = 'Q name'
BEFORE, NOW = (1, 6, 8, 9), (1, 6, 9, 8)      # document 01: "At one field the order is 1, 6, 8, 9"; change 6: "At a range name the order becomes 1, 6, 9, 8"


# ---------------------------------------------------------------------------------------------
# The fields of a sheet: each is a kind, a size, the refusals that a value meets, and for names what the rule had before it. Its value comes back
# ---------------------------------------------------------------------------------------------

def among(low, high):
    return lambda x: {4: not low <= x <= high}


def zero(x):
    return {5: x != 0}


def anything(x):
    return {}


def fields():
    yield 'mark', 3, lambda x: {2: x != LOB}, {}
    version = yield 'version', 2, lambda x: {3: x not in (1, 2)}, {}
    outputs = yield 'outputs', 8, anything, {}
    for _ in range((yield 'rule count', 1, among(1, 16), {})):
        yield from rule_fields(version, outputs)


def rule_fields(version, outputs):
    timed = (yield 'kind', 1, among(0, 2), {}) == 2
    in_p = yield 'P count', 1, among(1, 8), {}
    in_q = yield 'Q count', 1, among(1, 8) if timed else zero, {}
    trigger = yield TRIGGER, 1, zero if timed else lambda x: {6: x > 63, 9: outputs >> x & 1 == 1}, {}
    yield 't', 4, anything if timed else zero, {}
    had = {} if timed else {trigger: TRIGGER}
    for part in in_p * [P] + in_q * [Q]:
        yield 'join', 1, among(0, 1 if version == 1 else 3), {}
        for _ in range((yield 'range count', 1, among(1, 8), {})):
            had[(yield part + ' name', 1, lambda x: {6: x > 63, 8: x in had, 9: part == Q and outputs >> x & 1 == 0}, had)] = part
            u = yield 'u', 2, lambda x: {7: x == 0}, {}
            yield 'v', 2, lambda x: {7: x < u and not (version == 2 and x == 0)}, {}


def first_fault(data):
    """The first field that meets a refusal, with all that it meets; None where there is none."""
    walk, at, value = fields(), 0, None
    while True:
        try:
            what, size, meets, had = walk.send(value)
        except StopIteration:
            return Fault(at, 'end', None, {10}, {}) if at < len(data) else None
        if len(data) - at < size:
            return Fault(at, what, None, {1}, had)
        value = int.from_bytes(data[at:at + size], 'little')
        numbers = {number for number, met in meets(value).items() if met}
        if numbers:
            return Fault(at, what, value, numbers, had)
        at += size


# ---------------------------------------------------------------------------------------------
# What is held
# ---------------------------------------------------------------------------------------------

def is_reused_input(fault):
    """A Q name that is an input, which is 9, and already in the rule, which is 8."""
    return fault is not None and fault.what == Q_NAME and fault.numbers == {8, 9}


def due(fault, order):
    """Number and place, where the faults of one field come in this order; 0 and 0 where there is none."""
    if fault is None:
        return 0, 0
    return next(number for number in (*order, *fault.numbers) if number in fault.numbers), fault.at


def read(data, name_order):
    """Number and place as guard.py has them, and the sheet."""
    try:
        return (0, 0), guard.read_sheet(data, name_order)
    except Refused as refused:
        return (refused.number, refused.place), None


def hold(data):
    """Both readings of these bytes are what the first faulty field is due, and they part at a reused input alone. The fault comes back."""
    fault = first_fault(data)
    (old, old_sheet), (new, new_sheet) = read(data, guard.OLD_NAME_ORDER), read(data, guard.NAME_ORDER)
    assert old == due(fault, BEFORE), ('before change 6', data.hex(), old, fault)
    assert new == due(fault, NOW), ('now', data.hex(), new, fault)
    assert (old, new) == ((8, fault.at), (9, fault.at)) if is_reused_input(fault) else old == new, (data.hex(), old, new, fault)
    assert old_sheet == new_sheet, ('another sheet', data.hex())
    return fault


# ---------------------------------------------------------------------------------------------
# What is counted
# ---------------------------------------------------------------------------------------------

IN_EACH_VERSION = ['Q: an input already in the rule: 9, was 8', 'Q: an output already in P: 8', 'Q: an output already in Q: 8', 'P: an input already in the rule: 8',
                   'P: an output already in the rule: 8', 'Q: the sheet ends before a name: 1']
ONCE = ['Q: an input not in the rule: 9', 'Q: a name above 63: 6', 'P: a name above 63: 6', 'a trigger that is an output: 9', 'a trigger above 63: 6']
COUNTED = [word + ', version %d' % version for word in IN_EACH_VERSION for version in (1, 2)] + ONCE


def name_word(part, fault, outputs):
    """What a faulty name of P or Q met."""
    if fault.value is None:
        return part + ': the sheet ends before a name: 1'
    if fault.value > 63:
        return part + ': a name above 63: 6'
    is_output, where = outputs >> fault.value & 1, fault.had.get(fault.value)
    if part == Q and not is_output:
        return 'Q: an input not in the rule: 9' if where is None else 'Q: an input already in the rule: 9, was 8'
    return '%s: an %s already in %s: 8' % (part, 'output' if is_output else 'input', where if part == Q else 'the rule')


def words(data, fault):
    """The words of COUNTED for a sheet and its first fault."""
    if fault is None or not fault.what.startswith((P + ' ', Q + ' ', TRIGGER)):
        return
    version, outputs = int.from_bytes(data[3:5], 'little'), int.from_bytes(data[5:13], 'little')
    if fault.what in ('P name', Q_NAME):
        word = name_word(fault.what[0], fault, outputs)
        yield word + ', version %d' % version if word in IN_EACH_VERSION else word
    elif fault.numbers in ({6}, {9}):
        yield 'a trigger above 63: 6' if 6 in fault.numbers else 'a trigger that is an output: 9'
