"""What explain is due to say of a sheet and a log. The words are explain's own, written a second time; the verdicts, names and times in them are found by reference/guard.py,
which judges lists of events and knows no monitor, and the fields of a sheet are those that reference/sheets.py has written."""

import guard
from guard import BROKEN, CLOCK, MOST, OPEN, REFUSED, WHOLE, Event, names_of, status

STATUS = {WHOLE: 0, OPEN: 0, BROKEN: 1, REFUSED: 2}

# ---- rules


def word(names, name):
    return names.get(name, str(name))


def range_text(names, r):
    bounds = {(1, 1): '', (1, 65535): '+', (r.u, 0): '[%d,]' % r.u}.get((r.u, r.v), '[%d,%d]' % (r.u, r.v))
    return word(names, r.name) + bounds


JOINS = ('all{%s}', 'any{%s}', 'all{%s} shuffled', 'any{%s} shuffled')
SHUFFLED = {
    2: 'all{..} shuffled: every name, mixed in any way; its bounds are for how often it comes in all',
    3: 'any{..} shuffled: at least one name, mixed in any way; the bounds of each that comes are for how often it comes in all',
}


def fragment_text(names, fragment):
    inside = ', '.join(range_text(names, r) for r in fragment.ranges)
    return inside if fragment.join == 0 and len(fragment.ranges) == 1 else JOINS[fragment.join] % inside


def ordering_text(names, fragments):
    return ' < '.join(fragment_text(names, f) for f in fragments)


def rule_line(names, number, rule):
    p = ordering_text(names, rule.p)
    if rule.kind == 2:
        return 'rule %d  within %d %s => %s' % (number, rule.t, p, ordering_text(names, rule.q))
    return 'rule %d  %s %s << %s' % (number, ('once', 'each')[rule.kind], p, word(names, rule.trigger))


def set_line(what, names, chosen):
    return what + ': ' + (', '.join(word(names, n) for n in sorted(chosen)) or 'none')


def endless_lines(names, number, rule):
    """What has no upper end, and the deadline that it holds off."""
    endless = [[r for r in fragment.ranges if r.v == 0] for fragment in rule.p + rule.q]
    if any(endless):
        yield 'no upper end in rule %d: ' % number + '; '.join('%s, %d or more' % (word(names, r.name), r.u) for ranges in endless for r in ranges)
    last = endless[len(rule.p) - 1]
    if rule.kind == 2 and last:
        yield 'deadline of rule %d: held off while P can grow by ' % number + ' or '.join(word(names, r.name) for r in last)


def sheet_lines(names, sheet, count):
    """The rules that were read, all of them or those before a fault: so many."""
    rules = sheet.rules[:count]
    if not rules:
        return []
    used = set().union(*map(names_of, rules))
    plugin = {n for n in used if sheet.outputs >> n & 1}
    joins = {fragment.join for rule in rules for fragment in rule.p + rule.q}
    heads = ['version: %d' % sheet.version, set_line('inputs', names, used - plugin), set_line('outputs', names, plugin)]
    heads += [rule_line(names, number, rule) for number, rule in enumerate(rules)] + [line for join, line in SHUFFLED.items() if join in joins]
    return heads + [line for number, rule in enumerate(rules) for line in endless_lines(names, number, rule)]


# ---- what a rule takes


class Point:
    """A rule after some observations: its own events, and the time of the last of them."""

    def __init__(self, rule, taken):
        self.rule, self.own = rule, names_of(rule)
        self.trace = [e for e in taken if e.name in self.own]
        self.latest = self.trace[-1].time if self.trace else 0

    def keeps(self, name, time):
        """Whether the observation leaves the rule unbroken."""
        more = [Event(name, time)] if name in self.own else []
        return status(self.rule, self.trace + more, time) != BROKEN

    def last(self, name):
        """The last time at which it does, or None if there is none. A deadline is t after an event, so that only these times are tried, and one of them is it."""
        if self.keeps(name, MOST):
            return None
        times = {self.latest} | {e.time + self.rule.t for e in self.trace}
        found = [time for time in times if self.latest <= time < MOST and self.keeps(name, time) and not self.keeps(name, time + 1)]
        assert len(found) == 1, (self.rule, self.trace, name, found)
        return found[0]

    def taken_text(self, names, time):
        def one(name):
            last = self.last(name)
            return word(names, name) + ('' if last is None else ' (until %d)' % last)
        return ''.join(' ' * (i == 0) + ', ' * (i > 0) + one(name) for i, name in enumerate(n for n in sorted(self.own) if self.keeps(n, time)))

    def break_lines(self, names, event):
        time = event.time
        if not self.keeps(CLOCK, time):
            time = self.last(CLOCK)
            cause = 'late: the last millisecond in time was %d' % time
        elif self.keeps(event.name, self.latest):
            cause = 'late: %s was in time until %d' % (word(names, event.name), self.last(event.name))
        else:
            cause = 'out of order: %s is not taken there' % word(names, event.name)
        return ['  ' + cause, '  expected at %d:' % time + self.taken_text(names, time)]


# ---- verdicts


def verdict_line(answer, count, mask):
    rules = [str(r) for r in range(16) if mask >> r & 1]
    return '%s %d' % ({WHOLE: 'whole after', OPEN: 'open after', BROKEN: 'broken at'}[answer], count) + (': rules ' + ' '.join(rules) if rules else '')


def refused_line(result, texts):
    return 'refused %d at byte %d: %s' % (result.refusal, result.place, texts[result.refusal])


def events_of(log):
    return [Event(log[at], int.from_bytes(log[at + 1:at + 5], 'little')) for at in range(0, len(log) - 4, 5)]


def latest_of(taken):
    return taken[-1].time if taken else 0


def record_line(names, number, event):
    return 'record %d: %s at %d' % (number, 'a clock reading' if event.name == CLOCK else word(names, event.name), event.time)


def open_lines(names, rules, taken, mask):
    lines = [verdict_line(OPEN if mask else WHOLE, len(taken), mask)]
    for number, rule in enumerate(rules):
        if mask >> number & 1:
            lines += [rule_line(names, number, rule), '  waits for:' + Point(rule, taken).taken_text(names, latest_of(taken))]
    return lines


def break_lines(names, rules, events, result):
    before, event = events[:result.place - 1], events[result.place - 1]
    lines = [verdict_line(BROKEN, result.place, result.mask), record_line(names, result.place, event)]
    for number, rule in enumerate(rules):
        if result.mask >> number & 1:
            lines += [rule_line(names, number, rule)] + Point(rule, before).break_lines(names, event)
    return lines


def refused_log_lines(names, rules, log, events, result, texts):
    if result.refusal == 14:
        return [refused_line(result, texts), '  %d bytes: %d records and %d bytes more' % (len(log), len(log) // 5, len(log) % 5)]
    taken, refused = events[:result.taken], events[result.taken]
    record = record_line(names, result.taken + 1, refused) + '; the latest time is %d' % latest_of(taken)
    return [refused_line(result, texts), record] + open_lines(names, rules, taken, result.mask)


def of_log(book, log, result, names, texts):
    """The lines and the exit status for an accepted sheet and the five numbers due."""
    sheet, events = guard.read_sheet(book), events_of(log)
    lines = sheet_lines(names, sheet, len(sheet.rules))
    if result.answer == REFUSED:
        lines += refused_log_lines(names, sheet.rules, log, events, result, texts)
    elif result.answer == BROKEN:
        lines += break_lines(names, sheet.rules, events, result)
    else:
        lines += open_lines(names, sheet.rules, events, result.mask)
    return lines, STATUS[result.answer]


# ---- fields

VALUES = {
    'mark': '4C 4F 42', 'version': '1 or 2', 'rule count': '1 to 16', 'kind': '0, 1 or 2', 'P count': '1 to 8', 'Q count': '1 to 8', 'zero Q count': '0 in kinds 0 and 1',
    'trigger': 'an input, 0 to 63', 'zero trigger': '0 in kind 2', 'zero t': '0 in kinds 0 and 1', 'range count': '1 to 8',
    'P name': '0 to 63, and not in the rule yet', 'Q name': 'an output, 0 to 63, that the rule does not have yet', 'u': '1 to 65535',
}


VERSION_VALUES = {
    'join': {1: '0 or 1 in version 1; 2 and 3, shuffled, are of version 2', 2: '0 to 3 in version 2'},
    'v': {1: 'from u to 65535, u is %d; 0, no upper end, is of version 2', 2: '0, which is no upper end, or from u to 65535, u is %d'},
}


def where(fields, place):
    """Where a field stands, counted along the list of all fields."""
    rule = fragment = span = -1
    for field in fields:
        if field.what == 'kind':
            rule, fragment = rule + 1, -1
        elif field.what == 'join':
            fragment, span = fragment + 1, -1
        elif field.what.endswith(' name'):
            span += 1
        if field.at == place:
            break
    words = []
    if rule >= 0:
        words.append('rule %d' % rule)
    if fragment >= 0:
        in_p = len(field.rule.p)
        part, number, ordering = ('P', fragment, field.rule.p) if fragment < in_p else ('Q', fragment - in_p, field.rule.q)
        words.append('fragment %d of %d in %s' % (number + 1, len(ordering), part))
        if field.what not in ('join', 'range count'):
            words.append('range %d of %d' % (span + 1, len(ordering[number].ranges)))
    label = 'name' if field.what.endswith(' name') else field.what.replace('zero ', '')
    return field, ', '.join(words + [label])


def found_text(names, field, data):
    raw = data[field.at:field.at + field.size]
    if field.what == 'mark':
        return ' '.join('%02X' % byte for byte in raw)
    value = int.from_bytes(raw, 'little')
    named = value in names and (field.what == 'trigger' or field.what.endswith(' name') or field.what == 'zero trigger')
    return '%d' % value + (' ' + names[value] if named else '')


def field_line(names, version, fields, data, place, length):
    """The field at the refused place: `version`, `fields` and `length` are those of the sound sheet."""
    if place == length:
        return '  after the last rule: found %d more, the first is %d; due none' % (len(data) - place, data[place])
    field, label = where(fields, place)
    if len(data) - place < field.size:
        return '  %s: found %d of its %d bytes' % (label, len(data) - place, field.size)
    values = VERSION_VALUES[field.what][version] if field.what in VERSION_VALUES else VALUES[field.what]
    return '  %s: found %s; due %s' % (label, found_text(names, field, data), values % field.low if field.what == 'v' else values)


def of_fault(sheet, written, faulty, names, texts):
    """The lines and the exit status for a sound sheet with a fault: its bytes and fields as written, the faulty bytes with their refusal and place."""
    (sound, fields), (data, refusal, place) = written, faulty
    starts = [field.at for field in fields if field.what == 'kind'][1:] + [len(sound)]
    read = sum(start <= place for start in starts)
    result = guard.Result(REFUSED, refusal, 0, 0, place)
    lines = sheet_lines(names, sheet, read) + [refused_line(result, texts), field_line(names, sheet.version, fields, data, place, len(sound))]
    return lines, STATUS[REFUSED]
