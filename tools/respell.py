#!/usr/bin/env python3
"""Brings the repository's own definitions and lemmas to today's spelling, after port.py: words in snake case.

Run once at the top of the repository, as `python3 tools/respell.py`. It goes over the files of specs/, proofs/, src/ and must-fail/: each word that
begins with a small letter and has a capital inside is one of our definitions or lemmas (functions of src/ have no capitals, types begin with one), and
becomes the same word with an underscore for each capital. A dash between two names stays.
"""
import glob
import re
import sys

# Words that would fall together with another name in a file that has both, and what they become.
OTHER = {"noRoom": "lacks_room", "getD": "get_or"}
# Words of the library, not ours.
KEPT = {"dA", "dM", "dN"}

WORD = re.compile(r"(?<![A-Za-z0-9_'])[a-z][a-z0-9]*(?:[A-Z][a-z0-9]*)+(?![A-Za-z0-9])")


def spelt(word):
    if word in KEPT:
        return word
    return OTHER.get(word) or re.sub(r"(?<=[a-z0-9])([A-Z])", lambda m: "_" + m.group(1).lower(), word)


def files():
    for kind in ("specs/**/*.antt", "proofs/**/*.antt", "src/**/*.rt", "must-fail/*.edit"):
        yield from glob.glob("crates/*/" + kind, recursive=True)


def main():
    named = {}
    for name in sorted(files()):
        text = open(name, encoding="utf-8").read()
        turned = WORD.sub(lambda m: named.setdefault(m.group(0), spelt(m.group(0))), text)
        if turned != text:
            open(name, "w", encoding="utf-8").write(turned)
    print(f"respell: {len(named)} words", file=sys.stderr)
    for word in sorted(named):
        print(word, named[word])


if __name__ == "__main__":
    main()
