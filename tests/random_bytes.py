#!/usr/bin/env python3
"""Random bytes through the program: it ends with exit status 0, says nothing on standard error, gives exactly one reply to each
line (and one to an unended tail), and all its replies are those of the desk of the tests (desk.py).

    tests/random_bytes.py          ends with 'N passed, M failed'
    tests/random_bytes.py SEED     the same from another seed
"""
import itertools
import random
import sys

import desk
import halting
import made
from program import ROOT, Counts, run

SEED = 77_000
SIZES = [0, 1, 2, 79, 80, 81, 1000, 4095, 4096, 4097, 65_535, 65_536, 65_537, 200_000]
KNOWN = b"DTOC 0123456789\n"  # the bytes of good lines
OFTEN = KNOWN + b"   \n\n\n0011"


def any_bytes(source, size):
    return source.randbytes(size)


def known_bytes(source, size):
    """Only bytes that good lines have."""
    return bytes(source.choices(OFTEN, k=size))


def nearly_known_bytes(source, size):
    """One byte in a hundred is any byte."""
    return bytes(source.randrange(256) if source.random() < 0.01 else source.choice(OFTEN) for _ in range(size))


def words(source, size):
    """Good words in any order: letters and numbers at the bounds, mostly single spaces, lines of about the right length."""
    numbers = b"0 1 2 3 4 7 99 100 200 990 1000 1010 1300 33300 34200 54000 86399 86400 4294967295 4294967296 01".split()
    made_of, total = [], 0
    while total < size:
        letter = source.choice([b"D", b"T", b"O", b"O", b"O", b"C"])
        count = {b"D": 2, b"T": 1, b"O": 6, b"C": 2}[letter] + source.choice([0] * 8 + [-1, 1])
        made_of.append(source.choice([b" "] * 20 + [b"  ", b"\t"]).join([letter] + source.choices(numbers, k=count)) + b"\n")
        total += len(made_of[-1])
    return b"".join(made_of)[:size]


def mutated(source, session):
    """A good session with some bytes changed, taken out or put in, and some stretches doubled or dropped."""
    session = bytearray(session)
    for _ in range(source.choice([1, 3, 30])):
        at = source.randrange(len(session) + 1)
        end = at + source.choice([1, 1, 1, source.randrange(50)])
        new = source.choice([b"", source.randbytes(1), bytes([source.choice(OFTEN)]), bytes(session[at:end]) * 2])
        session[at:end] = new
    return bytes(session)


def one_reply_each(session, output):
    """Whether there are as many replies that are no trade as lines, an unended tail being one."""
    lines = session.count(b"\n") + (session[-1:] not in (b"", b"\n"))
    return lines == sum(1 for reply in output.split(b"\n")[:-1] if not reply.startswith(b"M "))


def sessions(seed):
    """Name and bytes of each."""
    for make in (any_bytes, known_bytes, nearly_known_bytes, words):
        for turn, size in enumerate(SIZES):
            yield "%d %s" % (size, make.__name__), make(random.Random("%d %s" % (seed, turn)), size)
    for path in sorted((ROOT / "tests" / "sessions").glob("*.txt")):
        for turn in range(3):
            yield "%s mutated, %d" % (path.name, turn), mutated(random.Random("%d %s" % (seed, turn)), path.read_bytes())
    for turn in range(20):
        for name, days in ("random", made.RandomDays(seed + turn, days=2)), ("halting", halting.HaltingDays(seed + turn)):
            yield "%s days mutated, %d" % (name, turn), mutated(random.Random(seed + turn), days.session())


def main():
    if len(sys.argv) > 2:
        sys.exit("usage: random_bytes.py [SEED]")
    seed = int(sys.argv[1]) if sys.argv[1:] else SEED
    print("random bytes: seed %d" % seed)
    counts = Counts("random bytes")
    for name, session in sessions(seed):
        output, errors, status = run(session)
        counts.same(name + ", exit status and standard error", b"0 ", b"%d %s" % (status, errors))
        counts.same(name + ", one reply to each line", b"True", b"%r" % one_reply_each(session, output))
        expected = desk.replies(session)
        counts.same(name, expected, output)
        if len(session) <= 1000:
            counts.answers(name + ", byte by byte", session, expected, itertools.repeat(1))
    counts.finish()


if __name__ == "__main__":
    main()
