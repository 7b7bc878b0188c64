#!/usr/bin/env python3
"""Lays the definitions and laws of an older checkout beside today's, word by word, and prints what differs by more than spelling: pairs of words that are
not the same name in another spelling, places with more or fewer words, and words that became two, or two that became one.
Use: tools/alike.py FOLDER, at the top; FOLDER holds the older checkout."""

import collections
import difflib
import os
import re
import sys


def words(text):
    lines = [line for line in text.split("\n") if not re.match(r"\s*(pub )?use ", line)]
    text = re.sub(r"--.*", "", "\n".join(lines)).replace("·", ".")
    # a projection is one thing, written tight or not
    text = re.sub(r"\s+\.(?=[a-zA-Z0-9])", ".", text)
    text = re.sub(r"[(){};,]", " ", text)
    return re.sub(r"\.(?=[a-zA-Z0-9])", " .", text).split()


def plain(word):
    word = re.sub(r"(?<=[a-z0-9])(?=[A-Z])", "_", word).lower()
    return re.sub(r"[_◌.-]+", "_", word.replace("″", "''").replace("′", "'")).strip("_")


def files(crate):
    for part in ("specs", "proofs"):
        for name in sorted(os.listdir(f"{crate}/{part}")) if os.path.isdir(f"{crate}/{part}") else []:
            if name.endswith(".antt") and name != "Lib.antt":
                yield f"{part}/{name}"


def main(older):
    pairs, places, odd, seen = collections.Counter(), {}, [], 0
    for line in open(f"{older}/crates.txt"):
        crate = line.split(":")[0].split()[0]
        for name in files(f"{older}/crates/{crate}"):
            seen += 1
            old = words(open(f"{older}/crates/{crate}/{name}").read())
            new = words(open(f"crates/{crate}/{name}").read())
            blocks = [("replace", 0, len(old), 0, len(new))]
            if len(old) != len(new):
                blocks = difflib.SequenceMatcher(None, old, new, autojunk=False).get_opcodes()
            for kind, i, j, k, m in blocks:
                if kind != "equal" and j - i == m - k:
                    for pair in zip(old[i:j], new[k:m]):
                        pairs[pair] += 1
                        places.setdefault(pair, f"{crate}/{name}")
                elif kind != "equal":
                    odd.append(f"{crate}/{name}: {' '.join(old[i:j]) or '-'} => {' '.join(new[k:m]) or '-'}")
    after, before = collections.defaultdict(set), collections.defaultdict(set)
    for old, new in pairs:
        after[old].add(new)
        before[new].add(old)
    print(f"{seen} files of definitions and laws, {sum(pairs.values())} words")
    for old, new in sorted(pairs):
        if plain(old) != plain(new):
            print(f"another name: {old} => {new} ({pairs[old, new]}, first in {places[old, new]})")
    for line in odd:
        print(f"more or fewer words: {line}")
    for old, new in sorted(after.items()):
        if len(new) > 1:
            print(f"one became several: {old} => {' '.join(sorted(new))}")
    for new, old in sorted(before.items()):
        if len(old) > 1:
            print(f"several became one: {' '.join(sorted(old))} => {new}")


main(sys.argv[1])
