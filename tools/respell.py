#!/usr/bin/env python3
"""Brings the words of definitions and lemmas to snake case, once, after port.py: fooBar becomes foo_bar in specs, proofs, clauses and must-fail edits, and in the pages that name them.

usage: python3 tools/respell.py            at the top of the repository

A word is a part of a name between dashes: `getD-plain` has two. Only words that begin with a small letter and have a capital after it are turned. What stands in quotation marks keeps its
words. A lemma that has a definition's new name already gets the ending that a lemma of a function's name gets, `_lem`.
"""
import glob
import re

WORD = re.compile(r"(?<![A-Za-z0-9_'])[a-z][a-z0-9']*[A-Z][A-Za-z0-9']*(?:_[A-Za-z0-9_']+)?")
TAKEN = "bit_in head_at header_of name_in numbers_of place_at range_at same_answer stands_at stops_at turn_at".split()
LEMMA = re.compile(r"(?<![A-Za-z0-9_'.-])(" + "|".join(TAKEN) + r")(?![A-Za-z0-9_'-])")


def snake(word):
    word = re.sub(r"([a-z0-9'])([A-Z])", r"\1_\2", word)
    word = re.sub(r"([A-Z])(?=[A-Z])", r"\1_", word)
    return word.lower()


def unquoted(f, text):
    return "".join(part if i % 2 else f(part) for i, part in enumerate(re.split(r'("[^"\n]*")', text)))


def rewrite(path, f):
    with open(path, encoding="utf-8") as file:
        old = file.read()
    new = f(old)
    if new != old:
        with open(path, "w", encoding="utf-8") as file:
            file.write(new)


turned = {}


def turn(text):
    def one(m):
        turned[m.group()] = snake(m.group())
        return turned[m.group()]

    return unquoted(lambda part: WORD.sub(one, part), text)


def main():
    sources = glob.glob("crates/*/specs/**/*.antt", recursive=True) + glob.glob("crates/*/proofs/**/*.antt", recursive=True)
    for path in sorted(sources):
        rewrite(path, lambda text: turn(LEMMA.sub(r"\1_lem", text)))
    for path in sorted(glob.glob("crates/*/src/*.rt")):
        rewrite(path, turn)
    for path in sorted(glob.glob("crates/*/must-fail/*.edit")):
        rewrite(path, turn)
    words = re.compile(r"(?<![A-Za-z0-9_'])(" + "|".join(sorted(turned, key=len, reverse=True)) + r")(?![A-Za-z0-9_'])")
    for path in ["README.md"] + sorted(glob.glob("docs/*.md")):
        rewrite(path, lambda text: words.sub(lambda m: turned[m.group()], text))
    print(f"{len(turned)} words turned")


if __name__ == "__main__":
    main()
