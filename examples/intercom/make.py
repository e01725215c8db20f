"""Sheets and logs as bytes, made from text files. The notation is in README.md beside this script.

    python3 make.py FOLDER [FILE..]     writes SHEET.lob, LOG.lot and due.txt to FOLDER

Without a FILE it takes the intercom's five. All files are read before anything is written: at the first fault of a text it says file, line and reason, writes
nothing, and ends with status 1. A sheet that is written keeps the layout of its version: the guard accepts it.

A line of due.txt is: log, sheet, answer, refusal, mask, taken, place. It is the 'due' line of the text file as numbers; nothing here judges a log.
"""

import os
import re
import struct
import sys
from collections import namedtuple

HERE = os.path.dirname(os.path.abspath(__file__))
FILES = tuple(os.path.join(HERE, name) for name in ('ipu.txt', 'lcdc.txt', 'sen.txt', 'cpu.txt', 'tmr.txt'))
CLOCK = 0xFF
KINDS = {'once': 0, 'each': 1, 'within': 2}
SIGNS = {'once': '<<', 'each': '<<', 'within': '=>'}
JOINS = {'all': 0, 'any': 1}
SHUFFLED = 2                    # added to a join; from version 2 on
NO_UPPER_END = 0                # as v; from version 2 on
VERSIONS = (1, 2)               # of sheets
ANSWERS = {'whole': 0, 'open': 1, 'broken': 2}
MOST_TIME = 4294967295
MOST_RECORDS = 1000000          # of a log made here; the program takes 13,107 of them, the host call more
NAME = r'[^\W\d][\w-]*'         # a letter, then letters, digits, - and _

Due = namedtuple('Due', 'sheet answer count refs')      # count: the records taken; refs: rules of the mask


class Fault(Exception):
    """What is wrong with a line, in plain words. Where it is another line than the one being read, `line` is its number."""

    def __init__(self, reason, line=None):
        super().__init__(reason)
        self.reason, self.line = reason, line


class BadFile(Exception):
    """What is wrong with a file, its name and the line included."""


def need(condition, reason, *words):
    if not condition:
        raise Fault(reason % words)


def number(text, what, low, high):
    need(re.fullmatch('[0-9]+', text), '%s: %s is a number, in decimal', text, what)
    digits = text.lstrip('0') or '0'
    need(len(digits) <= 10 and low <= int(digits) <= high, '%s: %s is %d to %d', text, what, low, high)
    return int(digits)


class Log:
    def __init__(self):
        self.dues, self.records = [], []


class Component:
    """A text file: the names, the sheets, the parts of runs and the logs of one component."""

    def __init__(self):
        self.numbers, self.outputs = {}, 0
        self.sheets, self.parts, self.logs = {}, {}, {}
        self.versions = {}      # of the sheets
        self.lines = {}         # the line of each sheet and log, by the name of its file
        self.sheet = None       # the name of the sheet that is being read
        self.rules = None       # of that sheet
        self.part = None        # the name of the part that is being read
        self.records = None     # of the part or log that is being read
        self.dues = None        # of the log that is being read

    # -- names

    def line_in(self, words):
        """in NUMBER NAME"""
        text, name = words
        n = number(text, "a name's number", 0, 63)
        need(re.fullmatch(NAME, name), '%s: a name is a letter, then letters, digits, - and _', name)
        need(name not in ('clock', 'part') and not re.fullmatch(r'x[0-9]+', name), '%s has a meaning of its own in a log and cannot be a name', name)
        need(name not in self.numbers, 'the name %s is there already', name)
        taken = [other for other, m in self.numbers.items() if m == n]
        need(not taken, 'the number %d is there already: it is %s', n, ''.join(taken))
        self.numbers[name] = n
        return n

    def line_out(self, words):
        """out NUMBER NAME"""
        self.outputs |= 1 << self.line_in(words)

    def number_of(self, name):
        need(name in self.numbers, "the name %s is unknown: no 'in' or 'out' line above has it", name)
        return self.numbers[name]

    def is_output(self, name):
        return self.outputs >> self.number_of(name) & 1 == 1

    # -- sheets

    def line_sheet(self, words):
        """sheet NAME, or sheet NAME version 2"""
        name, *version = words
        need(len(version) in (0, 2) and version[:1] in ([], ['version']), 'the form of this line is: %s', self.line_sheet.__doc__)
        self.file_of(name, '.lob', 'sheet')
        self.versions[name] = number(version[1], "a sheet's version", VERSIONS[0], VERSIONS[-1]) if version else VERSIONS[0]
        self.sheet, self.rules = name, {}
        self.sheets[name] = self.rules

    def file_of(self, name, ending, what):
        need(re.fullmatch(NAME, name), '%s: the name of a %s is a letter, then letters, digits, - and _', name, what)
        need(name + ending not in self.lines, 'the %s %s is there already', what, name)
        self.lines[name + ending] = self.line

    def line_rule(self, words):
        """rule NAME once P << i, rule NAME each P << i, rule NAME within T P => Q"""
        ref, kind, rest = words[0], words[1], ' '.join(words[2:])
        need(self.rules is not None, "a rule stands below a 'sheet' line")
        need(ref not in self.rules, 'the rule %s is there already', ref)
        need(':' not in ref, '%s: a rule has no : in its name', ref)
        need(len(self.rules) < 16, 'the sheet has 16 rules already, and no sheet has more')
        need(kind in KINDS, '%s: a rule is once, each or within', kind)
        self.rules[ref] = self.rule_bytes(kind, rest)

    def rule_bytes(self, kind, text):
        """P << i, or T P => Q"""
        t, trigger, used = 0, 0, set()
        if kind == 'within':
            time, _, text = text.partition(' ')
            t = number(time, 'the time of within', 0, MOST_TIME)
        sides = re.split('<<|=>', text)
        need(len(sides) == 2 and SIGNS[kind] in text, '%s: %s has one %s, with something on each side', text.strip() or 'nothing', kind, SIGNS[kind])
        if kind == 'within':
            p, q = self.ordering(sides[0], used), self.ordering(sides[1], used, True)
        else:
            name = sides[1].strip()
            need(re.fullmatch(NAME, name), '%s: after << stands the trigger, one name', name or 'nothing')
            trigger = self.number_of(name)
            need(not self.is_output(name), '%s is an output, and a trigger is an input', name)
            used.add(name)
            p, q = self.ordering(sides[0], used), []
        return struct.pack('<BBBBI', KINDS[kind], len(p), len(q), trigger, t) + b''.join(p + q)

    def ordering(self, text, used, in_q=False):
        fragments = text.split('<')
        need(len(fragments) <= 8, 'an ordering has at most 8 fragments, and this one has %d', len(fragments))
        return [self.fragment(f.strip(), used, in_q) for f in fragments]

    def fragment(self, text, used, in_q):
        """all{range, ..} or any{range, ..}, with or without shuffled behind it, or a range alone"""
        need(text, 'a fragment is missing beside <, << or =>')
        join, ranges = JOINS['all'], [text]
        if '{' in text or '}' in text:
            parts = re.fullmatch(r'(all|any) ?\{([^{}]*)\} ?(shuffled)?', text)
            need(parts, '%s: a fragment is all{..}, any{..}, either of them with shuffled behind it, or one range', text)
            need(not parts[3] or self.versions[self.sheet] > 1, "a shuffled fragment is of version 2: the sheet begins with 'sheet %s version 2'", self.sheet)
            join, ranges = JOINS[parts[1]] + (SHUFFLED if parts[3] else 0), re.split(r',(?![^\[]*\])', parts[2])
        need(len(ranges) <= 8, 'a fragment has at most 8 ranges, and this one has %d', len(ranges))
        return bytes([join, len(ranges)]) + b''.join(self.range(r.strip(), used, in_q) for r in ranges)

    def range(self, text, used, in_q):
        """name, name+, name[u,v] or name[u,]"""
        parts = re.fullmatch('(' + NAME + r')(\+|\[ ?(\w+) ?, ?(\w*) ?\])?', text)
        need(parts, '%s: a range is a name, name+, name[u,v] or name[u,]', text or 'nothing')
        name, bounds, u, v = parts.groups()
        n = self.number_of(name)
        # in the order of the refusals that the bytes would meet, 9 and then 8: who was told 'twice' would rename an input, and then be told that it is one
        need(not in_q or self.is_output(name), '%s is an input, and what stands behind => are outputs', name)
        need(name not in used, '%s is twice in the rule', name)
        used.add(name)
        if bounds in (None, '+'):
            u, v = 1, 65535 if bounds else 1
        else:
            u = number(u, 'u of a range', 1, 65535)
            need(v or self.versions[self.sheet] > 1, "a range without an upper end is of version 2: the sheet begins with 'sheet %s version 2'", self.sheet)
            v = number(v, 'v of a range', u, 65535) if v else NO_UPPER_END
        return struct.pack('<BHH', n, u, v)

    def sheet_bytes(self, name):
        rules = self.sheets[name].values()
        return b'LOB' + struct.pack('<HQB', self.versions[name], self.outputs, len(rules)) + b''.join(rules)

    # -- runs

    def line_part(self, words):
        """part NAME"""
        name, = words
        need(re.fullmatch(NAME, name), '%s: the name of a part is a letter, then letters, digits, - and _', name)
        need(name not in self.parts, 'the part %s is there already', name)
        self.records = self.parts[name] = []
        self.part, self.dues = name, None

    def line_log(self, words):
        """log NAME"""
        name, = words
        self.file_of(name, '.lot', 'log')
        log = self.logs[name] = Log()
        self.part, self.records, self.dues = None, log.records, log.dues

    def line_due(self, words):
        """due SHEET whole after N, due SHEET open after N: RULE.., due SHEET broken at N: RULE.."""
        sheet, answer, at, count, *refs = words
        need(self.dues is not None, "a 'due' line stands below a 'log' line")
        need(sheet in self.sheets, 'the sheet %s is unknown: no line above has it', sheet)
        need(all(due.sheet != sheet for due in self.dues), 'the log has a verdict by sheet %s already', sheet)
        need(answer in ANSWERS, '%s: a verdict is whole, open or broken', answer)
        due_at = 'at' if answer == 'broken' else 'after'
        need(at == due_at, '%s: %s is followed by %s and a number of records', at, answer, due_at)
        if answer == 'whole':
            need(not refs and not count.endswith(':'), 'whole names no rule')
        else:
            need(refs and count.endswith(':'), "%s needs its rules: 'due %s %s %s %s: RULE ..'", answer, sheet, answer, at, count.rstrip(':'))
        for i, ref in enumerate(refs):
            need(ref in self.sheets[sheet], 'the sheet %s has no rule %s', sheet, ref)
            need(ref not in refs[:i], 'the rule %s is named twice', ref)
        self.dues.append(Due(sheet, answer, number(count.rstrip(':'), 'the number of records', 0, MOST_TIME), tuple(refs)))

    def line_why(self, words):
        """why REASON: for the reader"""

    def line_calls(self, words):
        """TIME part NAME, TIME clock, or TIME NAME.. xCOUNT: that many times in turn"""
        time, *words = words
        time = number(time, 'a time', 0, MOST_TIME)
        need(self.records is not None, "a record stands below a 'log' or a 'part' line")
        need(words, 'a time, and no name, clock or part behind it')
        if words[0] == 'part':
            records, count = self.part_records(words[1:], time), 1
        else:
            count = 1
            if re.fullmatch(r'x[0-9]+', words[-1]):
                count = number(words.pop()[1:], 'the count behind x', 1, MOST_RECORDS)
                need(words, 'a count, and no name before it')
            records = [(CLOCK if name == 'clock' else self.number_of(name), time) for name in words]
        need(len(self.records) + count * len(records) <= MOST_RECORDS, 'a log or part made here has at most %d records', MOST_RECORDS)
        self.records += records * count

    def part_records(self, words, time):
        need(len(words) == 1, "'part' is followed by the name of one part")
        name, = words
        need(name in self.parts, 'the part %s is unknown: no line above has it', name)
        need(name != self.part, 'the part %s is used inside itself', name)
        records = [(call, time + at) for call, at in self.parts[name]]
        need(all(at <= MOST_TIME for _, at in records), 'the part %s ends after the last time, %d', name, MOST_TIME)
        return records

    def due_line(self, name, due):
        refs = list(self.sheets[due.sheet])
        mask = sum(1 << refs.index(ref) for ref in due.refs)
        place = due.count if due.answer == 'broken' else 0
        return '%s %s %d 0 %d %d %d\n' % (name, due.sheet, ANSWERS[due.answer], mask, due.count, place)

    # -- lines

    LINES = {'in': line_in, 'out': line_out, 'sheet': line_sheet, 'rule': line_rule, 'part': line_part, 'log': line_log, 'due': line_due, 'why': line_why}
    LENGTHS = {'in': (2, 2), 'out': (2, 2), 'sheet': (1, 3), 'rule': (3, None), 'part': (1, 1), 'log': (1, 1), 'due': (4, None), 'why': (0, None)}

    def read_line(self, line_number, line):
        self.line = line_number
        words = line.split('#')[0].split()
        if not words:
            return
        if words[0][0] in '0123456789':
            return self.line_calls(words)
        need(words[0] in self.LINES, '%s: a line begins with a time or with one of %s', words[0], ', '.join(self.LINES))
        method, (least, most) = self.LINES[words[0]], self.LENGTHS[words[0]]
        need(least <= len(words) - 1 and (most is None or len(words) - 1 <= most), 'the form of this line is: %s', method.__doc__)
        method(self, words[1:])

    def finish(self):
        """What is known at the end of the text only."""
        for name, rules in self.sheets.items():
            if not rules:
                raise Fault('the sheet %s has no rule' % name, self.lines[name + '.lob'])


def text_of(file):
    try:
        with open(file, encoding='utf-8') as f:
            return f.read().splitlines()
    except OSError as fault:
        raise BadFile('%s: cannot be read: %s' % (file, fault.strerror)) from None
    except UnicodeDecodeError:
        raise BadFile('%s: is no text in UTF-8' % file) from None


def read(file):
    component, lines = Component(), text_of(file)
    try:
        for line_number, line in enumerate(lines, 1):
            component.read_line(line_number, line)
        component.finish()
    except Fault as fault:
        at = fault.line or component.line
        raise BadFile('%s:%d: %s\n    %s' % (file, at, fault.reason, lines[at - 1].strip())) from None
    return component


def log_bytes(records):
    return b''.join(struct.pack('<BI', name, time) for name, time in records)


def made(component):
    """The files of a component: their names and bytes."""
    for name in component.sheets:
        yield name + '.lob', component.sheet_bytes(name)
    for name, log in component.logs.items():
        yield name + '.lot', log_bytes(log.records)


def due_lines(component):
    for name, log in component.logs.items():
        for due in log.dues:
            yield component.due_line(name, due)


def everything(files=FILES):
    """All that the files make, by name."""
    out, owner, due = {}, {}, []
    for file in files:
        component = read(file)
        for name, data in made(component):
            if name in out:
                what = 'sheet' if name.endswith('.lob') else 'log'
                raise BadFile('%s:%d: the %s %s is there already, in %s' % (file, component.lines[name], what, name[:-4], owner[name]))
            out[name], owner[name] = data, file
        due += due_lines(component)
    out['due.txt'] = ''.join(due).encode()
    return out


def write(folder, files):
    try:
        os.makedirs(folder, exist_ok=True)
        for name, data in files.items():
            with open(os.path.join(folder, name), 'wb') as f:
                f.write(data)
    except OSError as fault:
        raise BadFile('%s: cannot be written: %s' % (fault.filename or folder, fault.strerror)) from None


def main(arguments):
    if arguments in (['-h'], ['--help']):
        print(__doc__.strip())
        return 0
    if not arguments or arguments[0].startswith('-'):
        sys.stderr.write('usage: python3 make.py FOLDER [FILE..]\n')
        return 2
    try:
        write(arguments[0], everything(arguments[1:] or FILES))
    except BadFile as fault:
        sys.stderr.write('%s\n' % fault)
        return 1
    return 0


if __name__ == '__main__':
    sys.exit(main(sys.argv[1:]))
