#!/usr/bin/env python3
"""The screen that the calls for C keep in the day, compared after every line with the one that the desk of the tests counts.

    tests/screens.py              examples, stored sessions, random days and days that halt; ends with 'N passed, M failed'
    tests/screens.py SEED COUNT   COUNT random sessions from SEED on, and as many of days that halt

bench/lines.c makes the calls. What the days have shown is counted too: a maker of days that misses something is seen so."""
import collections
import subprocess
import sys

import desk
import halting
import made
from program import ROOT, Counts, run

SEED = 1_020_000
COUNT = 60
PROGRAM = ROOT / "target" / "lines"

# What has to be seen, and how often at least.
LEAST = {
    "more than five prices of buys": 200,
    "more than five prices of sells": 200,
    "several orders at the best price of a side": 200,
    "a price in phase 1": 100,
    "a price in phase 2": 100,
    "a price in phase 6": 100,
    "a surplus above 0": 100,
    "a surplus below 0": 100,
    "a price without a surplus": 20,
    "both sides in a call, and no price": 20,
    "prices that cross in a halt": 50,
    "prices that cross at noon": 2,
    "high and low apart": 200,
    "a cancel": 100,
    "a refused line": 100,
}


def shown(day, screen, refusal, line):
    """What a line has shown, by the day after it and its screen."""
    phase, price, surplus = day.phase(), screen[25], screen[27]
    prices = [{o.price for o in day.live if o.side == side} for side in (desk.BUY, desk.SELL)]
    crosses = all(prices) and max(prices[desk.BUY]) >= min(prices[desk.SELL])
    at_best = collections.Counter(o.side for o in day.live if o.price == day.best(o.side))
    yield "more than five prices of buys", len(prices[desk.BUY]) > 5
    yield "more than five prices of sells", len(prices[desk.SELL]) > 5
    yield "several orders at the best price of a side", max(at_best.values(), default=0) > 1
    for each in desk.AUCTION_PHASES:
        yield "a price in phase %d" % each, price > 0 and phase == each
    yield "a surplus above 0", surplus > 0
    yield "a surplus below 0", surplus < 0
    yield "a price without a surplus", price > 0 and surplus == 0
    yield "both sides in a call, and no price", phase in desk.AUCTION_PHASES and all(prices) and price == 0
    yield "prices that cross in a halt", phase == 7 and crosses
    yield "prices that cross at noon", phase == 5 and crosses
    yield "high and low apart", screen[1] > screen[2]
    yield "a cancel", line[:1] == b"C" and refusal == 0
    yield "a refused line", refusal > 0


class Screens(Counts):
    def __init__(self):
        super().__init__("screens")
        self.seen = collections.Counter()

    def compare(self, what, session):
        """One session: refusal and screen after each line that is of the form."""
        lines, expected = [], []
        tests = desk.Desk()
        for line in session.split(b"\n"):
            refusal = self.refusal(tests, line)
            if refusal in (16, 17):
                continue
            screen = tests.day.screen()
            lines.append(line)
            expected.append(" ".join(map(str, [refusal] + screen)))
            self.seen.update(name for name, is_seen in shown(tests.day, screen, refusal, line) if is_seen)
        output, errors, status = run(made.text(line.decode() for line in lines), program=PROGRAM)
        self.same(what, made.text(expected) + b"0", output + errors + b"%d" % status)

    @staticmethod
    def refusal(tests, line):
        try:
            tests.obey(line)
        except desk.Refused as refused:
            return refused.args[0] if tests.day else 17
        return 0

    def all_seen(self):
        """Everything came up often enough."""
        for name, least in LEAST.items():
            print("screens: %s: %d times" % (name, self.seen[name]))
            self.same("%s, at least %d times" % (name, least), b"True", b"%r" % (self.seen[name] >= least))


def stored(counts):
    for path in sorted(ROOT.glob("examples/*.txt")) + sorted(ROOT.glob("tests/sessions/*.txt")):
        counts.compare(path.name, path.read_bytes())


def random_days(counts, seed, count):
    print("screens: random days and days that halt with seeds %d to %d" % (seed, seed + count - 1))
    for each in range(seed, seed + count):
        counts.compare("random days %d" % each, made.RandomDays(each, days=2, lines=60).session())
        counts.compare("halting days %d" % each, halting.HaltingDays(each).session())


def main():
    counts = Screens()
    if len(sys.argv) not in (1, 3):
        sys.exit("usage: screens.py [SEED COUNT]")
    if subprocess.run([ROOT / "bench" / "build", "lines", "lines.c"]).returncode:
        sys.exit("0 passed, 1 failed")
    if len(sys.argv) == 3:
        random_days(counts, int(sys.argv[1]), int(sys.argv[2]))
    else:
        stored(counts)
        random_days(counts, SEED, COUNT)
        counts.all_seen()
    counts.finish()


if __name__ == "__main__":
    main()
