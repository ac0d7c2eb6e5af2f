#!/usr/bin/env python3
"""A busy day for taking the program's speed, always the same, and the replies of the desk of the tests (desk.py) to it.

    tests/day_of.py LINES DAY REPLIES     writes two files

An opening call, continuous trading around a price that wanders, and a closing call. In continuous trading one line in ten moves
the clock; the rest are limit orders that wait near the price, limit orders that cross it, market orders of all four kinds, and
cancels, more of them the fuller the book is: it holds some hundreds of orders. One cancel in twenty comes too late.
"""
import pathlib
import random
import sys

import desk

SEED = 2021
CLOSE = 2000
OPENING_ORDERS = 500
CLOSING_ORDERS = 200


class Trader:
    """Goes along with a desk, so that it knows which orders stand."""

    def __init__(self):
        self.source = random.Random(SEED)
        self.desk = desk.Desk()
        self.mid = CLOSE
        self.lines = []
        self.replies = []

    def say(self, line):
        self.lines.append(line + "\n")
        self.replies += self.desk.answer(line.encode())

    def order(self, side, kind, quantity, price):
        self.say("O %d %d %d %d %d 0" % (side, kind, self.source.randint(1, 200), quantity, price))

    def quantity(self):
        return 100 * min(self.source.randint(1, 10), self.source.randint(1, 30))

    def limit_order(self, nearest, farthest):
        """A limit order so far from the price, on its own side of it; below 0 it crosses."""
        side = self.source.randint(0, 1)
        away = min(self.source.randint(nearest, farthest), self.source.randint(nearest, farthest))
        self.order(side, 0, self.quantity(), self.mid - away if side == 0 else self.mid + away)

    def market_order(self):
        side = self.source.randint(0, 1)
        self.order(side, self.source.randint(1, 4), 2 * self.quantity(), self.mid + 100 * (1 - 2 * side))

    def cancel(self):
        order = self.source.choice(self.desk.day.live)
        late = self.source.random() < 0.05
        self.say("C %d %d" % (order.account, self.source.randint(1, order.number) if late else order.number))

    def call(self, count):
        """Orders of an auction, on both sides of the price."""
        for _ in range(count):
            self.limit_order(-15, 30)

    def trading_line(self):
        if self.source.random() < 0.02:
            self.mid = min(max(self.mid + self.source.choice([-1, 1]), CLOSE - 300), CLOSE + 300)
        draw = self.source.random()
        cancels = len(self.desk.day.live) / 1200
        if draw < cancels:
            self.cancel()
        elif draw < cancels + (1 - cancels) * 0.66:
            self.limit_order(1, 40)
        elif draw < cancels + (1 - cancels) * 0.87:
            self.limit_order(-6, -1)
        else:
            self.market_order()

    def trading(self, first, end, count):
        """Lines from one second up to another, every tenth a move of the clock."""
        for n in range(count):
            if n % 10 == 0:
                self.say("T %d" % (first + (end - 1 - first) * n // count))
            else:
                self.trading_line()

    def day(self, length):
        rest = length - OPENING_ORDERS - CLOSING_ORDERS - 5
        self.say("D %d 1" % CLOSE)
        self.say("T 33300")
        self.call(OPENING_ORDERS)
        self.say("T 33900")
        self.trading(34_200, 41_400, rest // 2)
        self.trading(46_800, 53_820, rest - rest // 2)
        self.say("T 53820")
        self.call(CLOSING_ORDERS)
        self.say("T 54000")


def main():
    if len(sys.argv) != 4 or int(sys.argv[1]) < 1000:
        sys.exit("usage: day_of.py LINES DAY REPLIES, at least 1,000 lines")
    trader = Trader()
    trader.day(int(sys.argv[1]))
    pathlib.Path(sys.argv[2]).write_text("".join(trader.lines))
    pathlib.Path(sys.argv[3]).write_text("".join(trader.replies))


if __name__ == "__main__":
    main()
