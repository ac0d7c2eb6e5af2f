#!/usr/bin/env python3
"""Made sessions through the program and through the desk of the tests (desk.py): the replies must be the same.

    tests/generated.py                 random days, long and short, days that halt, a full book, the longest auctions and sweeps,
                                       every byte at every position of a line, lines about as long as a chunk; ends with
                                       'N passed, M failed'
    tests/generated.py SEED COUNT      COUNT random sessions from SEED on, and as many of days that halt
    tests/generated.py --last-number   all 999,999 numbers of a day: a million lines
"""
import collections
import itertools
import sys

import desk
import halting
import made
from program import Counts

SEED = 1_300_000
COUNT = 200
LONG_COUNT = 8
HALTING_COUNT = 150


def random_days(counts, seed, count):
    """Each session whole, and every fifth in pieces of 13 bytes too."""
    print("generated: random sessions with seeds %d to %d" % (seed, seed + count - 1))
    for each in range(seed, seed + count):
        session = made.RandomDays(each).session()
        expected = desk.replies(session)
        counts.answers("random session %d" % each, session, expected)
        if each % 5 == 0:
            counts.same("random session %d, the desk at every price" % each, expected, desk.replies(session, every_price=True))
            counts.answers("random session %d, in pieces" % each, session, expected, itertools.repeat(13))


def long_days(counts, seed, count):
    """Days of 2,500 lines, with some hundred orders in the book."""
    print("generated: long days with seeds %d to %d" % (seed, seed + count - 1))
    for each in range(seed, seed + count):
        session = made.RandomDays(each, days=1, lines=2500).session()
        counts.answers("long day %d" % each, session, desk.replies(session))


def halting_days(counts, seed, count):
    """Sessions of days that halt, every fifth also with the desk at every price. Returns what they have shown."""
    print("generated: halting days with seeds %d to %d" % (seed, seed + count - 1))
    seen = collections.Counter()
    for each in range(seed, seed + count):
        days = halting.HaltingDays(each)
        session = days.session()
        expected = desk.replies(session)
        counts.answers("halting days %d" % each, session, expected)
        if each % 5 == 0:
            counts.same("halting days %d, the desk at every price" % each, expected, desk.replies(session, every_price=True))
        seen += days.seen
    for name in halting.LEAST:
        print("generated: %s: %d times" % (name, seen[name]))
    return seen


def all_seen(counts, seen):
    """Everything that the halting days have to show came up often enough."""
    for name, least in halting.LEAST.items():
        counts.same("%s, at least %d times" % (name, least), b"True", b"%r" % (seen[name] >= least))


def bounds(counts):
    sessions = {
        "a full book": made.full_book(),
        "the longest opening auction": made.longest_auction(closing=False),
        "the longest closing auction": made.longest_auction(closing=True),
        "the longest auction of a halt": made.longest_halt(),
        "the longest sweep of a buy": made.longest_sweep(desk.BUY),
        "the longest sweep of a sell": made.longest_sweep(desk.SELL),
        "every byte at every position": made.every_byte(),
        "lines about as long as a chunk": made.long_lines(),
    }
    for what, session in sessions.items():
        expected = desk.replies(session)
        counts.answers(what, session, expected)
        counts.answers(what + ", in pieces of 1,021 bytes", session, expected, itertools.repeat(1021))
    for empty_lines in range(500, 40_000, 1997):
        session = made.longest_auction(closing=False, empty_lines=empty_lines)
        counts.answers("the longest auction behind %d empty lines" % empty_lines, session, desk.replies(session))


def last_number(counts):
    """The replies are written down here, since the desk takes long over a million lines."""
    replies = ["D", "K 4 0"] + ["A %d 0 0 100 0" % n for n in range(1, 998_976)]
    replies += ["A %d 0 100 0 0" % n for n in range(998_976, 1_000_000)]
    replies += ["X 10", "W 999999 100", "X 11", "X 11", "X 6", "W 999998 100", "K 0 0", "D", "K 1 0", "A 1 0 100 0 0"]
    counts.answers("the last number", made.last_number(), made.text(replies))


def main():
    counts = Counts("generated")
    if sys.argv[1:] == ["--last-number"]:
        last_number(counts)
    elif len(sys.argv) == 3:
        random_days(counts, int(sys.argv[1]), int(sys.argv[2]))
        halting_days(counts, int(sys.argv[1]), int(sys.argv[2]))
    elif sys.argv[1:]:
        sys.exit("usage: generated.py [SEED COUNT | --last-number]")
    else:
        random_days(counts, SEED, COUNT)
        long_days(counts, SEED, LONG_COUNT)
        all_seen(counts, halting_days(counts, SEED, HALTING_COUNT))
        bounds(counts)
    counts.finish()


if __name__ == "__main__":
    main()
