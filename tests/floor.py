#!/usr/bin/env python3
"""The program of ./floor, compared with a floor of the tests' own (floor_desk.py).

    tests/floor.py              ends with 'N passed, M failed'
    tests/floor.py SEED COUNT   COUNT random sessions from SEED on, and as many of days that halt
    tests/floor.py --write      writes the .out of each example by the floor of the tests, to be read by eye before it is kept

The examples that ask questions, whole and cut in several ways; random sessions in every phase, with halts, refusals, lines that are not
of the form, and claims that are right, nearly right and random, with a count of what they have shown; sessions with the screen after
every line; the program's bounds; damaged sessions; and scripts of the lines of ./run, to which both programs give the same bytes.
"""
import collections
import itertools
import random
import re
import sys

import floor_desk
import floor_made
import halting
import made
import pairs
import random_bytes
from program import PROGRAM, ROOT, Counts, build, run

SEED = 1_140_000
COUNT = 40
FLOOR = ROOT / "target" / "bin" / "floor"
LETTERS = b"".join(floor_desk.QUESTIONS)
ASKS = re.compile(rb"^[%s]" % LETTERS, re.M)
FORMS = [b"R", b"L 995 5", b"Q 200 1 2", b"J 990", b"S"]


def examples():
    """Path and input of each example that asks a question."""
    for path in sorted((ROOT / "examples").glob("*.txt")):
        if ASKS.search(path.read_bytes()):
            yield path, path.read_bytes()


def stored(counts):
    for path, session in examples():
        expected = path.with_suffix(".out").read_bytes()
        counts.same("%s, the floor of the tests" % path.name, expected, floor_desk.replies(session))
        counts.same("%s, the same at every price" % path.name, expected, floor_desk.replies(session, every_price=True))
        cuts = {"whole": None, "byte by byte": itertools.repeat(1), "in random pieces": pairs.random_lengths(SEED)}
        for how, lengths in cuts.items():
            counts.answers("%s, %s" % (path.name, how), session, expected, lengths)


def page(counts):
    """The example to copy of docs/FLOOR.md: each row's line, and its replies."""
    section = (ROOT / "docs" / "FLOOR.md").read_text().split("## An example to copy")[1].split("\n## ")[0]
    rows = re.findall(r"^\| `(.*?)` \| (.*?) \|", section, re.M)
    replies = made.text(reply for _, cell in rows for reply in re.findall(r"`(.*?)`", cell))
    counts.answers("the example of docs/FLOOR.md", made.text(line for line, _ in rows), replies)


def random_days(counts, seed, count):
    """Returns what they have shown. Every fifth in pieces too, and with the floor of the tests at every price."""
    print("floor: random sessions with seeds %d to %d" % (seed, seed + count - 1))
    shown = collections.Counter()
    for each in range(seed, seed + count):
        for what, days in (
            ("random session", floor_made.AskingDays(each, days=2, lines=120)),
            ("halting days", floor_made.AskingHalts(each, days=2, lines=80)),
            ("calls", floor_made.AskingCalls(each, days=5)),
        ):
            session = days.session()
            watched = floor_made.Watched()
            expected = "".join(reply for line in session.split(b"\n")[:-1] for reply in watched.answer(line)).encode()
            shown += watched.shown
            counts.answers("%s %d" % (what, each), session, expected)
            if each % 5 == 0:
                every = floor_desk.replies(session, every_price=True)
                counts.same("%s %d, the floor of the tests at every price" % (what, each), expected, every)
                counts.answers("%s %d, in pieces" % (what, each), session, expected, itertools.repeat(13))
    return shown


def all_shown(counts, shown):
    """Everything that the random sessions have to show came up often enough."""
    for name, least in floor_made.LEAST.items():
        print("floor: %s: %d times" % (name, shown[name]))
        counts.same("%s, at least %d times" % (name, least), b"True", b"%r" % (shown[name] >= least))


def in_a_row(sessions):
    """Sessions as one: each opens its own days."""
    return b"".join(session if session.endswith(b"\n") else session + b"\n" for session in sessions)


def sessions_of_run():
    for folder in ("tests/sessions", "examples"):
        for path in sorted((ROOT / folder).glob("*.txt")):
            yield path.read_bytes()


def screens(counts, seed):
    """The screen after every line of the stored sessions and of random days."""
    random_ones = [made.RandomDays(each, days=1).session() for each in range(seed, seed + 3)]
    halting_ones = [halting.HaltingDays(each).session() for each in range(seed, seed + 3)]
    for what, sessions in (("stored sessions", sessions_of_run()), ("random sessions", random_ones), ("halting days", halting_ones)):
        session = floor_made.screened(in_a_row(sessions))
        counts.answers("%s, the screen after every line" % what, session, floor_desk.replies(session))


def bounds(counts):
    sessions = {
        "the longest list": floor_made.longest_list(),
        "as many claims as are noted": floor_made.all_claims(),
        "the largest screen": floor_made.largest_screen(),
        "every byte at every position": floor_made.every_byte(FORMS),
        "long questions": floor_made.long_questions(),
        "no input": b"",
        "an unended question": b"D 1000 1\nR",
        "an unended question, too long": b"D 1000 1\nR" + 80 * b"1",
    }
    for what, session in sessions.items():
        expected = floor_desk.replies(session)
        counts.answers(what, session, expected)
        counts.answers(what + ", in pieces of 1,021 bytes", session, expected, itertools.repeat(1021))
    for empty_lines in range(500, 40_000, 3989):
        session = floor_made.longest_list(empty_lines)
        counts.answers("the longest list behind %d empty lines" % empty_lines, session, floor_desk.replies(session))


def damaged(counts, seed):
    """Sessions with some bytes changed, and random bytes of those that good lines have."""
    source = random.Random(seed)
    for turn in range(10):
        session = random_bytes.mutated(source, floor_made.AskingDays(seed + turn, days=1, lines=100).session())
        counts.answers("damaged session %d" % turn, session, floor_desk.replies(session))
    for size in (1, 80, 1000, 65_537):
        session = bytes(source.choices(random_bytes.OFTEN + LETTERS, k=size))
        counts.answers("%d bytes of lines" % size, session, floor_desk.replies(session))


def as_run(counts, seed):
    """Scripts without questions: the bytes of ./run, and those of ./floor."""
    sessions = {
        "stored sessions": in_a_row(sessions_of_run()),
        "a full book": made.full_book(),
        "the longest auction": made.longest_auction(closing=True),
        "every byte at every position": made.every_byte(),
        "random sessions": in_a_row(made.RandomDays(each).session() for each in range(seed, seed + 10)),
        "halting days": in_a_row(halting.HaltingDays(each).session() for each in range(seed, seed + 10)),
    }
    for what, session in sessions.items():
        plain = b"".join(line + b"\n" for line in session.split(b"\n")[:-1] if line[:1] not in floor_desk.QUESTIONS)
        counts.answers("%s, as ./run" % what, plain, run(plain, None, PROGRAM)[0])


def main():
    if sys.argv[1:] == ["--write"]:
        for path, session in examples():
            path.with_suffix(".out").write_bytes(floor_desk.replies(session))
        return
    if len(sys.argv) not in (1, 3):
        sys.exit("usage: floor.py [SEED COUNT | --write]")
    build(FLOOR)
    build(PROGRAM)
    counts = Counts("floor", FLOOR)
    if len(sys.argv) == 3:
        random_days(counts, int(sys.argv[1]), int(sys.argv[2]))
    else:
        stored(counts)
        page(counts)
        all_shown(counts, random_days(counts, SEED, COUNT))
        screens(counts, SEED)
        bounds(counts)
        damaged(counts, SEED)
        as_run(counts, SEED)
    counts.finish()


if __name__ == "__main__":
    main()
