"""What the checks of examples/styles and examples/progress share: an example of two sheets, the second the version 1 that would not do, and a live host. Of this, examples/review takes
what goes by log, and examples/play the sheets.

1. The reference gives the verdict of every 'due' line of the text, and README.md has the row of every log.
2. So does the program, where one is given: GUARD_PROGRAM is a path to it.
3. With GUARD_LIB=ARCHIVE live.c is built with that library and run: the bytes of its sheet are those that make.py makes, each answer is the reference's, and each story goes through or is stopped.
"""

import os
import re
import subprocess
import sys
import tempfile
from collections import namedtuple

HERE = os.path.dirname(os.path.abspath(__file__))
ROOT = os.path.join(HERE, '..')
sys.path[:0] = [os.path.join(HERE, 'intercom'), os.path.join(ROOT, 'reference')]     # each folder has a make.py

import guard    # noqa: E402
import make     # noqa: E402

Example = namedtuple('Example', 'name sheets ends')     # the folder's and the text's name; the two sheets; how the stories of live.c end
ANSWERS = ('whole', 'open', 'broken', 'refused')
WENT, STOPPED = '  it went through', '  stopped'


def path_of(example, file):
    return os.path.join(HERE, example.name, file)


def text_of(example):
    return make.read(path_of(example, example.name + '.txt'))


def file_text(example, file):
    with open(path_of(example, file)) as f:
        return f.read()


def all_sheets():
    """(name, bytes) of the sheets of every example."""
    for folder in ('intercom', 'styles', 'progress', 'review'):
        for file in sorted(os.listdir(os.path.join(HERE, folder))):
            if file.endswith('.txt'):
                yield from ((name[:-4], data) for name, data in make.everything([os.path.join(HERE, folder, file)]).items() if name.endswith('.lob'))


# ---- by log

def by_reference(book, trace):
    return ' '.join(map(str, guard.program(book, trace)))


def by_program(book, trace):
    """What the program prints in a folder with these two files."""
    program = os.path.abspath(os.environ['GUARD_PROGRAM'])
    with tempfile.TemporaryDirectory() as folder:
        for name, data in (('book.lob', book), ('trace.lot', trace)):
            with open(os.path.join(folder, name), 'wb') as f:
                f.write(data)
        ran = subprocess.run([program], cwd=folder, stdout=subprocess.PIPE)
    said = ran.stdout.decode().rstrip('\n')
    return said if ran.returncode == 0 else '%s and exit status %d' % (said, ran.returncode)


def run_faults(made, who, run):
    for line in made['due.txt'].decode().splitlines():
        log, sheet, *numbers = line.split()
        said = run(made[sheet + '.lob'], made[log + '.lot'])
        if said != ' '.join(numbers):
            yield '%s, %s by sheet %s: %s is due, and it says %s' % (who, log, sheet, ' '.join(numbers), said)


def due_words(due):
    return '%s %s %d' % (due.answer, 'at' if due.answer == 'broken' else 'after', due.count) + (': ' + ' '.join(due.refs) if due.refs else '')


def table_faults(example):
    """Rows of README.md: | `alternately` | .. | whole after 9 | broken at 4: answer |, or - where the text has no verdict by the second sheet."""
    rows = {log: said for log, *said in re.findall(r'^\| `(\S+)` \| .* \| (.*) \| (.*) \|$', file_text(example, 'README.md'), re.M)}
    for log, entry in text_of(example).logs.items():
        words = {due.sheet: due_words(due) for due in entry.dues}
        if rows.get(log) != [words.get(sheet, '-') for sheet in example.sheets]:
            yield 'README.md: the row of %s is not what the text says' % log


# ---- live.c

def live_faults(example, made, library):
    listed = re.sub(r'/\*.*?\*/', '', re.search(r'sheet\[\] = \{(.*?)\n\};', file_text(example, 'live.c'), re.S)[1])
    book = made[example.sheets[0] + '.lob']
    if bytes(int(word, 0) for word in re.findall(r'\w+', listed)) != book:
        yield 'live.c: its sheet is not the one of %s.txt' % example.name
    strict = ['-std=c99', '-Wall', '-Wextra', '-Werror', '-Wconversion', '-Wshadow', '-pedantic', '-g', '-O1', '-fsanitize=address,undefined']
    with tempfile.TemporaryDirectory() as folder:
        program = os.path.join(folder, 'live')
        subprocess.run(['cc', *strict, '-I', os.path.join(ROOT, 'include'), '-o', program, path_of(example, 'live.c'), library], check=True)
        ran = subprocess.run([program], stdout=subprocess.PIPE, universal_newlines=True, timeout=60)
    yield from story_faults(example, ran.stdout.splitlines(), guard.read_sheet(book).rules)
    if ran.returncode:
        yield 'live.c: exit status %d' % ran.returncode


def judged(rules, events):
    """The answer after these events, none of which but the last can break a rule."""
    found = {guard.status(rule, [e for e in events if e.name in guard.names_of(rule)], events[-1].time) for rule in rules}
    return next(answer for answer in (guard.BROKEN, guard.OPEN, guard.WHOLE) if answer in found)


def story_faults(example, lines, rules):
    """Each line 'TIME NAME: ANSWER' is held to the definitions, and each end to the last answer. 'TIME NAME x9: ANSWER' are nine calls, the last at that time."""
    numbers, ends, events, last = text_of(example).numbers, [], [], None
    for line in lines:
        said = re.fullmatch(r' *(\d+) (\S+?)(?: x(\d+))?: (\w+)', line)
        if said:
            events += [guard.Event(numbers[said[2]], int(said[1]))] * int(said[3] or 1)
            last = judged(rules, events)
            if ANSWERS[last] != said[4]:
                yield 'live.c: %s: the reference says %s' % (line, ANSWERS[last])
        elif line.startswith('  '):
            ends.append(line)
            if line != (STOPPED if last == guard.BROKEN else WENT):
                yield 'live.c: %s' % line
        else:
            events = []
    if ends != example.ends:
        yield 'live.c: its stories end so: %s' % ends


def check(example):
    made = make.everything([path_of(example, example.name + '.txt')])
    faults, judges = [*run_faults(made, 'reference', by_reference), *table_faults(example)], 'the reference'
    if os.environ.get('GUARD_PROGRAM'):
        faults += run_faults(made, 'program', by_program)
        judges += ' and the program'
    if os.environ.get('GUARD_LIB'):
        faults += live_faults(example, made, os.path.abspath(os.environ['GUARD_LIB']))
        judges += ', and live'
    if faults:
        sys.exit('\n'.join(faults))
    print('%s: %d verdicts as due, by %s' % (example.name, len(made['due.txt'].splitlines()), judges))
