#!/usr/bin/env python3
"""The stored sessions: each tests/sessions/NAME.txt is answered by the program with NAME.out, however its input is cut.

    tests/pairs.py           compares; ends with a line 'N passed, M failed'
    tests/pairs.py --write   writes each .out by the desk of the tests (desk.py), to be read by eye before it is kept

Each session is read whole, byte by byte, in pieces of 7 bytes and in pieces of random lengths. That the desk gives the same
replies is compared too, also where its auction tries every price.
"""
import itertools
import random
import sys

import desk
from program import ROOT, Counts

SEED = 20211115


def stored():
    """Name and input of each session, in order."""
    for path in sorted((ROOT / "tests" / "sessions").glob("*.txt")):
        yield path, path.read_bytes()


def random_lengths(seed):
    """Lengths of pieces, mostly short, sometimes over many lines."""
    source = random.Random(seed)
    while True:
        yield source.choice([1, 2, 3, source.randint(1, 20), source.randint(1, 200)])


def compare():
    counts = Counts("pairs")
    print("pairs: seed of the random cuts %d" % SEED)
    for path, session in stored():
        expected = path.with_suffix(".out").read_bytes()
        counts.same("%s, the desk" % path.name, expected, desk.replies(session))
        counts.same("%s, the desk at every price" % path.name, expected, desk.replies(session, every_price=True))
        cuts = {
            "whole": None,
            "byte by byte": itertools.repeat(1),
            "in pieces of 7 bytes": itertools.repeat(7),
            "in random pieces": random_lengths(SEED),
        }
        for how, lengths in cuts.items():
            counts.answers("%s, %s" % (path.name, how), session, expected, lengths)
    counts.finish()


def write():
    for path, session in stored():
        path.with_suffix(".out").write_bytes(desk.replies(session))


if __name__ == "__main__":
    if sys.argv[1:] == ["--write"]:
        write()
    elif sys.argv[1:]:
        sys.exit("usage: pairs.py [--write]")
    else:
        compare()
