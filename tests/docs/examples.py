"""Runs the examples of docs/SHEETS.md and compares them with what the page says.

    python3 tests/docs/examples.py [CALLS]      CALLS: the program built of calls.c; then the library is asked too

A block of the page stands between lines of three backquotes, and its first line says what it is:

    # FILE.txt                  an author's text, for examples/intercom/make.py
    $ COMMAND                   commands, each with what it prints; they share a folder, in which the repository and the texts are
    sheet NAME                  lines OFFSET: BYTES  words, or # words. The name is that of a text's sheet, whose bytes they must be, or a new one
    log NAME on SHEET           the same of a log; then 'prints' and the five numbers
    trace SHEET                 a drawing: times; for each name, or clock, stars below times; the answers after each. SHEET may be intercom/SHEET. Then perhaps 'prints'.
                                'trace SHEET, N taken before' is a session that has taken N. A line that begins with a space is for the reader
    traces SHEET                a trace a line, and its verdict
    refused NUMBER at PLACE     the bytes of a sheet, or 'no bytes'; an arrow below the place
    call SHEET with an output of N bytes    then 'returns NUMBER'
    write SHEET into a buffer of N bytes    the same
    play rule RULE of SHEET at TIME [by BYTES] into an output of N bytes    the same, then the records as lines OFFSET: BYTES  words

Last of all each claim of the page is changed, one at a time, and the page has to be found at fault.
"""

import functools
import os
import re
import struct
import subprocess
import sys
import tempfile
from collections import namedtuple

ROOT = os.path.abspath(os.path.join(os.path.dirname(os.path.abspath(__file__)), '..', '..'))
PAGE = os.path.join(ROOT, 'docs', 'SHEETS.md')
INTERCOM = os.path.join(ROOT, 'examples', 'intercom')
sys.dont_write_bytecode = True
sys.path[:0] = [INTERCOM, os.path.join(ROOT, 'reference')]     # each folder has a make.py

import guard    # noqa: E402
import make     # noqa: E402
import playing  # noqa: E402
from guard import BROKEN, CLOCK, MOST, OPEN, REFUSED, WHOLE     # noqa: E402

ANSWERS = {WHOLE: 'whole', OPEN: 'open', BROKEN: 'broken', REFUSED: 'refused'}
Answer = namedtuple('Answer', 'answer refusal mask place')


class Fault(Exception):
    """What is wrong with a block."""


def hold(what, due, said):
    if due != said:
        raise Fault('%s: the page says %s, and it is %s' % (what, due, said))


# ---- who is asked: the reference, and the library where there is one

class Length:
    """The list of a judge that has taken so many: only its length, and the latest time, are asked for."""

    def __init__(self, count):
        self.count = count

    def __len__(self):
        return self.count

    def __bool__(self):
        return False    # no last observation is known: the latest time is 0


class Reference:
    name = 'the reference'

    @functools.lru_cache(maxsize=None)
    def call(self, sheet, log, length):
        out = bytearray(b'\xA5' * 16)
        short = bytearray(out[:length])
        returned = guard.call(sheet, log, MOST, short)
        out[:length] = short
        return returned, bytes(out)

    def read(self, sheet):
        try:
            return guard.read_sheet(sheet)
        except guard.Refused as refused:
            raise Fault('the sheet is refused: %d at %d' % (refused.number, refused.place)) from None

    def write(self, sheet, length):
        buffer = bytearray(b'\xA5' * length)
        returned = guard.write_into(self.read(sheet), buffer)
        return returned, bytes(buffer) + b'\xA5' * 4

    def play(self, sheet, rule, time, choice, length):
        out = bytearray(b'\xA5' * length)
        returned = playing.play(self.read(sheet), rule, time, choice, out)
        return returned, bytes(out) + b'\xA5' * 4

    def live(self, sheet, taken, observations):
        judge = guard.Judge(self.read(sheet).rules)
        if taken:
            judge.taken = Length(taken)
        for name, time in observations:
            refusal = judge.observe(name, time)
            if refusal:
                yield Answer(REFUSED, refusal, 0, 0)
            else:
                answer, mask, place = judge.verdict
                yield Answer(answer, 0, mask, place)


class Library:
    name = 'the library'

    def __init__(self, path):
        self.process = subprocess.Popen([path], stdin=subprocess.PIPE, stdout=subprocess.PIPE, universal_newlines=True)

    def ask(self, *words):
        self.process.stdin.write(' '.join(words) + '\n')
        self.process.stdin.flush()
        return self.process.stdout.readline().split()

    def call(self, sheet, log, length):
        returned, out = self.ask('run', sheet.hex() or '-', log.hex() or '-', str(length))
        return int(returned), bytes.fromhex(out)

    def write(self, sheet, length):
        returned, buffer = self.ask('write', sheet.hex(), str(length))
        return int(returned), bytes.fromhex(buffer)

    def play(self, sheet, rule, time, choice, length):
        returned, out = self.ask('play', sheet.hex(), str(rule), str(time), choice.hex() or '-', str(length))
        return int(returned), bytes.fromhex(out)

    def live(self, sheet, taken, observations):
        shown = ['%s@%d' % ('c' if name == CLOCK else name, time) for name, time in observations]
        opened, *answers, _ = [word.split(':') for word in self.ask('live', sheet.hex() or '-', str(taken), *shown)]
        hold('opening', ['0', '0', '0', '0'], opened)
        return [Answer(*map(int, word)) for word in answers]


def five(who, sheet, log):
    """The five numbers of the call over a log."""
    returned, out = who.call(sheet, log, 12)
    hold('the call returns', 0, returned)
    hold('bytes behind the output', b'\xA5' * 4, out[12:])
    return struct.unpack('<BBHII', out[:12])


# ---- the page

class Page:
    def __init__(self, text, judges):
        self.judges = judges
        self.blocks = []            # (line, lines of the block)
        self.sheets, self.names, self.logs, self.texts = {}, {}, {}, {}
        self.counts, self.refusals, self.commands = {}, set(), ()
        block = None
        for number, line in enumerate(text.splitlines(), 1):
            if line.startswith('```'):
                if block is None:
                    block = (number + 1, [])
                else:
                    self.blocks.append(block)
                    block = None
            elif block is not None:
                block[1].append(line)
        if block is not None:
            raise Fault('line %d: the block has no end' % block[0])

    KINDS = (('text', r'# (\w+\.txt)'), ('commands', r'\$ .*'), ('sheet', r'sheet (\w+)'), ('log', r'log (\w+) on (\w+)'), ('trace', r'trace ([\w/]+)(?:, (\d+) taken before)?'),
             ('traces', r'traces (\w+)'), ('refused', r'refused (\d+) at (\d+)'), ('call', r'call (\w+) with an output of (\d+) bytes'),
             ('write', r'write (\w+) into a buffer of (\d+) bytes'),
             ('play', r'play rule (\d+) of (\w+) at (\d+)(?: by ((?:[0-9A-F]{2} )*[0-9A-F]{2}))? into an output of (\d+) bytes'))

    def kind_of(self, head):
        for kind, pattern in self.KINDS:
            found = re.fullmatch(pattern, head)
            if found:
                return kind, found.groups()
        raise Fault('no kind of block: ' + head)

    def faults(self):
        """The faults of all blocks; those that define sheets come first, since traces may stand above them."""
        found = []
        for wanted in (('text',), ('sheet',), ('log', 'trace', 'traces', 'refused', 'call', 'write', 'play'), ('commands',)):
            for line, lines in self.blocks:
                try:
                    kind, words = self.kind_of(lines[0] if lines else '')
                    if kind in wanted:
                        getattr(self, 'block_' + kind)(lines, *words)
                        self.counts[kind] = self.counts.get(kind, 0) + 1
                except Fault as fault:
                    if ('line %d: ' % line) not in ''.join(found):
                        found.append('line %d: %s' % (line, fault))
        return found

    # -- sheets and logs

    def block_text(self, lines, file):
        with tempfile.TemporaryDirectory() as folder:
            path = os.path.join(folder, file)
            with open(path, 'w') as f:
                f.write('\n'.join(lines) + '\n')
            try:
                component = make.read(path)
            except make.BadFile as fault:
                raise Fault(str(fault)) from None
        self.texts[file] = '\n'.join(lines) + '\n'
        for name in component.sheets:
            self.sheets[name], self.names[name] = component.sheet_bytes(name), component.numbers
        for name, log in component.logs.items():
            self.logs[name] = make.log_bytes(log.records)

    def dump(self, lines):
        """The bytes of lines like '14: 01 01  words', whose offsets must be right."""
        data = b''
        for line in lines:
            if line.startswith('#'):
                continue
            found = re.fullmatch(r'(?:(\d+): +)?((?:[0-9A-F]{2} )*[0-9A-F]{2})(?:  .*)?', line)
            if not found:
                raise Fault('no bytes: ' + line)
            if found[1]:
                hold('the offset of %s' % found[2], int(found[1]), len(data))
            data += bytes.fromhex(found[2])
        return data

    def block_sheet(self, lines, name):
        data = self.dump(lines[1:])
        if name in self.sheets:
            hold('the bytes of sheet ' + name, data.hex(' '), self.sheets[name].hex(' '))
        self.sheets[name] = data
        try:
            guard.read_sheet(data)
        except guard.Refused as refused:
            raise Fault('the sheet is refused: %d at %d' % (refused.number, refused.place)) from None

    def sheet(self, name):
        """The bytes of a sheet and the numbers of its names."""
        if name.startswith('intercom/'):
            sheet = name[len('intercom/'):]
            return make.everything([os.path.join(INTERCOM, sheet + '.txt')])[sheet + '.lob'], make.read(os.path.join(INTERCOM, sheet + '.txt')).numbers
        if name not in self.sheets:
            raise Fault('no sheet ' + name)
        return self.sheets[name], self.names.get(name, {})

    def prints(self, line, sheet, log):
        due = re.fullmatch(r'prints (\d+) (\d+) (\d+) (\d+) (\d+)', line)
        if not due:
            raise Fault('no five numbers: ' + line)
        for who in self.judges:
            hold(who.name, tuple(map(int, due.groups())), five(who, sheet, log))

    def block_log(self, lines, name, sheet):
        data = self.dump(lines[1:-1])
        if name in self.logs:
            hold('the bytes of log ' + name, data.hex(' '), self.logs[name].hex(' '))
        self.prints(lines[-1], self.sheet(sheet)[0], data)
        self.refused(int(lines[-1].split()[2]))

    def refused(self, number):
        if number:
            self.refusals.add(number)

    # -- traces

    def block_trace(self, lines, name, taken):
        sheet, numbers = self.sheet(name)
        columns, stars, answers, last = {}, {}, {}, None
        for line in lines[1:]:
            label = line.split(' ')[0]
            if line.startswith('prints '):
                last = line
            elif label == 'time':
                columns = {m.start(): int(m[0]) for m in re.finditer(r'\d+', line)}
            elif label == 'answer':
                answers = self.cells(line, columns)
            elif label:
                for m in re.finditer(r'\*', line):
                    if m.start() not in columns or m.start() in stars:
                        raise Fault('a star of %s has no time, or a second name' % label)
                    stars[m.start()] = self.number(label, numbers)
        observations = [(stars[at], columns[at]) for at in sorted(stars)]
        hold('columns with an answer', sorted(answers), sorted(stars))
        if not observations:
            raise Fault('nothing is drawn')
        due = [answers[at] for at in sorted(answers)]
        for who in self.judges:
            said = list(who.live(sheet, int(taken or 0), observations))
            hold(who.name, due, [ANSWERS[a.answer] + (' %d' % a.refusal if a.refusal else '') for a in said])
            for k, a in enumerate(said, 1):
                if a.answer == BROKEN:
                    hold('the record that broke', k, a.place)
        if last:
            self.prints(last, sheet, make.log_bytes(observations))
        for answer in due:
            self.refused(int(answer.split()[1]) if answer.startswith('refused') else 0)

    def cells(self, line, columns):
        """The words of a line that begin below a time, each up to the next time."""
        starts = sorted(columns)
        out = {}
        for at, following in zip(starts, starts[1:] + [len(line)]):
            text = line[at:following].strip() if following > at else ''
            if text:
                if line[at] == ' ' or line[at - 1] != ' ':
                    raise Fault('an answer does not begin below a time')
                out[at] = text
        if not columns or re.search(r'\S', line[len('answer'):starts[0]]):
            raise Fault('an answer has no time')
        return out

    def number(self, label, numbers):
        if label == 'clock':
            return CLOCK
        if label.isdigit():
            return int(label)
        if label not in numbers:
            raise Fault('the sheet has no name ' + label)
        return numbers[label]

    def block_traces(self, lines, name):
        sheet, _ = self.sheet(name)
        if len(lines) < 2:
            raise Fault('no trace')
        for line in lines[1:]:
            found = re.fullmatch(r'((?:(?:\d+|c)@\d+ ?)+)  +(whole|open|broken at (\d+))', line)
            if not found:
                raise Fault('no trace and verdict: ' + line)
            pairs = [o.split('@') for o in found[1].split()]
            observations = [(CLOCK if n == 'c' else int(n), int(t)) for n, t in pairs]
            for who in self.judges:
                answer, refusal, _, taken, place = five(who, sheet, make.log_bytes(observations))
                said = ANSWERS[answer] + (' at %d' % place if answer == BROKEN else ' %d' % refusal if refusal else '')
                hold('%s: %s' % (who.name, found[1].strip()), found[2], said)
                hold('%s: the records taken' % who.name, len(observations), taken)
                hold('%s, live' % who.name, ANSWERS[answer], ANSWERS[list(who.live(sheet, 0, observations))[-1].answer])
            self.counts['single traces'] = self.counts.get('single traces', 0) + 1

    # -- refusals and calls

    def block_refused(self, lines, number, place):
        data, arrow, starts = b'', None, {}
        for line in lines[1:]:
            if line == 'no bytes':
                continue
            found = re.fullmatch(r'( *)(\^\^)  \S.*', line)
            if found:
                if arrow is not None or len(found[1]) not in starts:
                    raise Fault('the arrow points to no byte')
                arrow = starts[len(found[1])]
                continue
            starts = {3 * i: len(data) + i for i in range(len(line.split()))}
            data += self.dump([line])
        if data:
            hold('the arrow', int(place), arrow)
        for who in self.judges:
            hold(who.name, (REFUSED, int(number), 0, 0, int(place)), five(who, data, b''))
        self.refused(int(number))

    def block_call(self, lines, name, length):
        found = re.fullmatch(r'returns (\d+)', '\n'.join(lines[1:]))
        if not found:
            raise Fault('a call says what it returns, and nothing else')
        for who in self.judges:
            returned, out = who.call(self.sheet(name)[0], b'', int(length))
            hold(who.name, int(found[1]), returned)
            hold(who.name + ' leaves the output', (b'\xA5' * 16).hex(), out.hex())
        self.refused(int(found[1]))

    def block_write(self, lines, name, length):
        found = re.fullmatch(r'returns (-?\d+)', '\n'.join(lines[1:]))
        if not found:
            raise Fault('a write says what it returns, and nothing else')
        sheet, _ = self.sheet(name)
        returned, rest = int(found[1]), b'\xA5' * (int(length) + 4)
        for who in self.judges:
            said, buffer = who.write(sheet, int(length))
            hold(who.name, returned, said)
            hold(who.name + ' leaves the buffer', (rest if returned < 0 else sheet + rest[len(sheet):]).hex(), buffer.hex())
        self.refused(-returned if returned < 0 else 0)

    def block_play(self, lines, rule, name, time, choice, length):
        found = re.fullmatch(r'returns (-?\d+)', lines[1] if len(lines) > 1 else '')
        if not found:
            raise Fault('a play says what it returns, and then its records')
        sheet, _ = self.sheet(name)
        returned, records, rest = int(found[1]), self.dump(lines[2:]), b'\xA5' * (int(length) + 4)
        for who in self.judges:
            said, out = who.play(sheet, int(rule), int(time), bytes.fromhex(choice or ''), int(length))
            hold(who.name, returned, said)
            hold(who.name + ' leaves the output', (records + rest[len(records):]).hex(), out.hex())
        self.refused(-returned if returned < 0 else 0)

    # -- commands

    def block_commands(self, lines):
        said = ran(tuple(sorted(self.texts.items())), self.commands, tuple(line[2:] for line in lines if line.startswith('$ ')))
        hold('commands', '\n'.join(lines) + '\n', said)
        self.commands += tuple(line[2:] for line in lines if line.startswith('$ '))


@functools.lru_cache(maxsize=None)
def ran(texts, before, commands):
    """The commands with what they print, in a folder with the repository and the page's texts, after the commands before. ./run gets a program that says what the reference says."""
    with tempfile.TemporaryDirectory() as folder:
        for entry in os.listdir(ROOT):
            if entry not in ('.git', 'target'):
                os.symlink(os.path.join(ROOT, entry), os.path.join(folder, entry))
        for file, text in texts:
            with open(os.path.join(folder, file), 'w') as f:
                f.write(text)
        program = os.path.join(folder, 'stand-in')
        with open(program, 'w') as f:
            f.write('#!/bin/sh\nexec "%s" -B "%s/reference/guard.py" book.lob trace.lot\n' % (sys.executable, ROOT))
        os.chmod(program, 0o755)
        environment = {**os.environ, 'GUARD_PROGRAM': program, 'PYTHONDONTWRITEBYTECODE': '1'}
        said = ''
        for i, command in enumerate(before + commands):
            done = subprocess.run(['bash', '-c', command], cwd=folder, env=environment, stdout=subprocess.PIPE, stderr=subprocess.STDOUT, universal_newlines=True)
            if i >= len(before):
                said += '$ ' + command + '\n' + done.stdout
        return said


# ---- the page as a whole

def header_words():
    with open(os.path.join(ROOT, 'include', 'guard.h')) as f:
        table = f.read().split('/* Refusals')[1].split('};')[0]
    return {int(n): words for n, words in re.findall(r'GUARD_[A-Z_]+ = (\d+),? +/\* (.+) \*/', table)}


def page_faults(text, judges):
    try:
        page = Page(text, judges)
        found = page.faults()
    except Fault as fault:
        return [str(fault)], None
    if page.refusals != set(range(1, 19)):
        found.append('refusals without an example: %s' % sorted(set(range(1, 19)) - page.refusals))
    heads = {int(n): words for n, words in re.findall(r'^### (\d+): (.*)$', text, re.M)}
    if heads != header_words():
        found.append('the headings of the refusals are not the words of include/guard.h')
    return found, page


def changes(text):
    """The page with one claim changed: (line, text)."""
    other = {'whole': 'open', 'open': 'whole', 'broken': 'open'}
    lines, inside, head = text.splitlines(), False, ''
    for i, line in enumerate(lines):
        def put(new):
            return i + 1, '\n'.join(lines[:i] + [new] + lines[i + 1:]) + '\n'
        if line.startswith('```'):
            inside, head = not inside, lines[i + 1] if i + 1 < len(lines) else ''
            continue
        if re.match(r'### \d+: ', line):
            yield put(line + '.')
        if not inside:
            continue
        if line.startswith('answer '):
            for m in re.finditer(r'whole|open|broken', line):
                yield put(line[:m.start()] + other[m[0]].ljust(len(m[0])) + line[m.end():])
            for m in re.finditer(r'refused (\d+)', line):
                yield put(line[:m.start()] + 'refused %d' % (int(m[1]) ^ 3) + line[m.end():])
        elif line.startswith('prints '):
            for k in range(1, 6):
                words = line.split()
                words[k] = str(int(words[k]) + 1)
                yield put(' '.join(words))
        elif line.startswith('returns '):
            yield put('returns 0')
        elif re.match(r'refused \d+ at \d+$', line):
            _, number, _, place = line.split()
            yield put('refused %d at %s' % (int(number) + 1, place))
            yield put('refused %s at %d' % (number, int(place) + 1))
        elif '^^' in line:
            yield put('   ' + line)
        elif re.match(r'(\d+: +)?[0-9A-F]{2}( |$)', line) and head.split()[0] in ('sheet', 'log', 'play'):
            m = re.match(r'(\d+: +)?(.)', line)
            if 'prints 3 14' not in '\n'.join(lines[i:]).split('```')[0]:      # which no byte of a log changes
                yield put(line[:m.end() - 1] + ('1' if m[2] != '1' else '2') + line[m.end():])
            if m[1]:
                yield put(str(int(line.split(':')[0]) + 1) + line[line.index(':'):])
        elif '@' in line and head.startswith('traces'):
            verdict = re.search(r'(whole|open|broken)( at (\d+))?$', line)
            yield put(line[:verdict.start()] + (other[verdict[1]] if not verdict[3] else 'broken at %d' % (int(verdict[3]) + 1)))
        elif head.startswith('$ ') and not line.startswith('$ '):
            yield put(line + ' ')


def main():
    judges = [Reference()] + [Library(path) for path in sys.argv[1:2]]
    with open(PAGE) as f:
        text = f.read()
    found, page = page_faults(text, judges)
    if found:
        sys.exit('\n'.join('docs/SHEETS.md, ' + fault for fault in found))
    counts = page.counts
    print('docs/SHEETS.md: %d sheets refused as it says, %d traces drawn and %d in a line, %d logs, %d dumps of sheets, %d blocks of commands; by %s'
          % (counts['refused'], counts['trace'], counts['single traces'], counts['log'], counts['sheet'], counts['commands'], ' and '.join(who.name for who in judges)))
    unnoticed, count = [], 0
    for line, changed in changes(text):
        count += 1
        if not page_faults(changed, judges[:1])[0]:
            unnoticed.append('line %d can be changed, and no example fails' % line)
    if unnoticed:
        sys.exit('\n'.join('docs/SHEETS.md, ' + fault for fault in unnoticed))
    print('docs/SHEETS.md: each of %d changes to it is noticed' % count)


if __name__ == '__main__':
    main()
