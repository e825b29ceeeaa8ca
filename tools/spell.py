#!/usr/bin/env python3
"""Spells the repository's own definitions and lemmas as today's Rattle does: words in snake case.

usage: python3 tools/spell.py [FOLDER]     at the top of a repository that port.py has turned (or FOLDER)

A word that begins with a small letter and has a capital right after a small letter or a digit, as
`checkBody`, is written `check_body`. Touched are .antt, .rt and .edit files below crates/, and in README.md
and docs/ the words that the crates have. Words of the kit and two numbers in hexadecimal stay. It stops
where two words would fall together.
"""

import os
import re
import sys

ROOT = sys.argv[1] if len(sys.argv) > 1 else "."
# lemmas that have the name of the function that they are about, once its words are in snake case
LEMMAS = [
    ("end_line", ["stream/proofs/Laws/Feed.antt", "replay_io/proofs/Laws.antt"]),
    ("four_bytes", ["codec/proofs/Laws/BigEndian.antt", "codec/proofs/big_endian/i32_to_be_bytes/Proof.antt", "wire/proofs/Laws.antt"]),
    ("too_short", ["stream/proofs/Laws/Feed.antt", "stream/proofs/run/feed/Proof.antt"]),
    ("length_most", ["support/proofs/Laws/Calls.antt", "support/proofs/window/new_refusal/Proof.antt"]),
    ("swept_of", ["lent/proofs/boundary/compute_boundary_parameters/Proof.antt"]),
]
STAYS = {"getD", "iN", "nFor", "uN", "xD6", "xD7"}
WORD = re.compile(r"(?<!\\)[A-Za-z_][A-Za-z0-9_']*")


def turns(word):
    return word[0].islower() and re.search(r"[a-z0-9][A-Z]", word) and word not in STAYS


def snake(word):
    return re.sub(r"([a-z0-9])([A-Z])", lambda m: m[1] + "_" + m[2].lower(), word)


def files(folder, ends):
    for where, inner, names in os.walk(os.path.join(ROOT, folder)):
        inner[:] = sorted(i for i in inner if i != "out")
        for name in sorted(names):
            if name.endswith(ends):
                yield os.path.join(where, name)


def text(path):
    with open(path, encoding="utf-8") as f:
        return f.read()


def main():
    crates = list(files("crates", (".antt", ".rt", ".edit")))
    said, old = set(), set()
    for path in crates:
        for word in WORD.findall(text(path)):
            (old if turns(word) else said).add(word)
    proofs = set()
    for path in crates:
        if path.endswith(".antt"):
            for line in text(path).splitlines():
                m = re.match(r"\s*(?:abbrev |unfoldable |pub )*([A-Za-z_][A-Za-z0-9_']*) :", line)
                if m:
                    proofs.add((os.path.dirname(path), m[1]))
    taken = {}
    for word in sorted(old):
        taken.setdefault(snake(word), []).append(word)
    for new, words in taken.items():
        if len(words) > 1:
            raise SystemExit(f"{words} fall together")
        beside = sorted(w for w, n in proofs if n == new)
        if beside:
            print(f"look: {words[0]} becomes {new}, which is declared in {', '.join(beside[:4])}")
    for lemma, places in LEMMAS:
        for place in places:
            path = os.path.join(ROOT, "crates", place)
            if os.path.exists(path):
                after = re.sub(r"(?<![.\w'-])" + lemma + r"(?![.\w'-])", lemma + "_lem", text(path))
                with open(path, "w", encoding="utf-8") as f:
                    f.write(after)
    pages = [os.path.join(ROOT, "README.md"), *files("docs", (".md",))]
    for path in crates + pages:
        before = text(path)
        after = WORD.sub(lambda m: snake(m[0]) if m[0] in old else m[0], before)
        if after != before:
            with open(path, "w", encoding="utf-8") as f:
                f.write(after)
    print(f"{len(old)} words in {len(crates)} files and {len(pages)} pages")


if __name__ == "__main__":
    main()
