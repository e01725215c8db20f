"""Runs of explain, and groups of cases that are held to what is due."""

import os
import re
import subprocess

ROOT = os.path.join(os.path.dirname(os.path.abspath(__file__)), '..', '..')
SECONDS = 20    # for one run: a program that tries every millisecond takes minutes where times are far apart


def file_bytes(*path):
    with open(os.path.join(ROOT, *path), 'rb') as f:
        return f.read()


def header_texts():
    """The refusals' texts, from include/guard.h."""
    listed = re.findall(r'^        "(.*)",$', file_bytes('include', 'guard.h').decode(), re.M)
    assert len(listed) == 18
    return {number: text.replace('\\"', '"') for number, text in enumerate(listed, 1)}


TEXTS = header_texts()


class Runs:
    """Runs of one program, with its files in a folder."""

    def __init__(self, program, folder):
        self.program, self.folder = program, folder

    def file(self, name, data):
        path = os.path.join(self.folder, name)
        with open(path, 'wb') as f:
            f.write(data)
        return path

    def arguments(self, *arguments, out=subprocess.PIPE, **environment):
        """Standard output's lines, standard error and the exit status."""
        try:
            ran = subprocess.run([self.program, *arguments], stdout=out, stderr=subprocess.PIPE, timeout=SECONDS, env={**os.environ, **environment})
        except subprocess.TimeoutExpired:
            return [], 'it has not ended after %d seconds' % SECONDS, -1
        return (ran.stdout or b'').decode('utf-8', 'replace').split('\n')[:-1], ran.stderr.decode('utf-8', 'replace'), ran.returncode

    def on(self, book, log, names=None, **environment):
        files = [self.file('book', book), self.file('log', log)] + ([] if names is None else [self.file('names', names)])
        return self.arguments(*files, **environment)


class Group:
    """Cases of one kind: how many there were, and what was wrong."""

    def __init__(self, what):
        self.what, self.count, self.faults = what, 0, []

    def hold(self, case, said, lines, status):
        """`said` is what a run gave; nothing is due on standard error but where it could not run."""
        self.count += 1
        out, err, got = said
        if out != lines or got != status or err:
            self.faults.append('%s: %s\n  due  %d %s\n  said %d %s %s' % (self.what, case, status, lines, got, out, err))

    def hold_that(self, case, right, said):
        self.count += 1
        if not right:
            self.faults.append('%s: %s: said %s' % (self.what, case, said))

    def tell(self):
        print('explain, %s: %s' % (self.what, '%d as due' % self.count if not self.faults else '%d NOT AS DUE, of %d' % (len(self.faults), self.count)), flush=True)
        for fault in self.faults[:5]:
            print(fault)
        return bool(self.faults) or self.count == 0
