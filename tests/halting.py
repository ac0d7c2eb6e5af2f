"""Random days that halt, made as sessions, and a count of what they have shown: days without limits, with orders far from the
open, and moves of the clock to the seconds on which a halt's end turns. A maker of days that misses something is seen by the
counts."""
import collections
import copy

import desk
import made

CLOSES = [10, 20, 33, 34, 100, 1000, 1001, 99_999]
TURNING = [34_200, 40_199, 40_200, 40_799, 40_799, 40_800, 40_800, 41_399, 46_800, 52_620, 53_219, 53_219, 53_220, 53_220, 53_819]

# What has to be seen, and how often at least in the sessions of tests/generated.py.
LEAST = {
    "a halt by 30%": 50,
    "a halt by 60%, later": 20,
    "a halt by both at once": 20,
    "30% and 60% by trades of one order, one after the other": 2,
    "a halt by a price above the open": 50,
    "a halt by a price below the open": 50,
    "a halt by a price exactly at a threshold": 20,
    "a halt by the order that made the first trade": 2,
    "an order that goes on trading past the threshold": 10,
    "a halt from 40,799 to 41,399": 5,
    "a halt from 40,800 to 13:00": 5,
    "a later halt to 13:00": 5,
    "a halt from 53,219 to 53,819": 5,
    "a halt from 53,220 to 14:57": 5,
    "a later halt to 14:57": 5,
    "a trade at a threshold that has had its turn": 50,
    "an order that would have traded rests in a halt": 50,
    "a market kind in a halt": 20,
    "a cancel in a halt": 20,
    "a line refused at noon in a halt": 5,
    "a halt's auction that trades": 50,
    "a halt's auction that does not": 20,
    "a halt's auction that fires 60%": 5,
    "a halt's auction that fires 60%, and the new halt ended by the same line": 2,
    "a halt's auction at 14:57 past 60%, which fires nothing": 2,
    "a move from a running halt past the close": 10,
}


def of_order(before, day, prices, price, answer):
    """What an order has shown, by the day before it and after it, the prices of its trades, its own and its answer."""
    away = [desk.thresholds_reached(day.open, p) for p in prices]
    started = before.halted_until is None and day.halted_until is not None
    turn = (day.time, day.halted_until)
    yield "a halt by 30%", started and day.used - before.used == {30}
    yield "a halt by 60%, later", started and day.used - before.used == {60}
    yield "a halt by both at once", started and day.used - before.used == {30, 60}
    yield ("30% and 60% by trades of one order, one after the other",
           started and not before.used and any(each == {30} for each in away) and {30, 60} in away)
    yield "a halt by a price above the open", started and prices[-1] > day.open
    yield "a halt by a price below the open", started and prices[-1] < day.open
    yield ("a halt by a price exactly at a threshold",
           started and any(100 * p == day.open * (100 + sign * t) for p in prices for t in (30, 60) for sign in (-1, 1)))
    yield "a halt by the order that made the first trade", started and before.open is None
    yield "an order that goes on trading past the threshold", started and len(prices) > 1 and bool(away[0] - before.used)
    yield "a halt from 40,799 to 41,399", started and turn == (40_799, 41_399)
    yield "a halt from 40,800 to 13:00", started and turn == (40_800, 46_800)
    yield "a later halt to 13:00", started and 40_800 < day.time and day.halted_until == 46_800
    yield "a halt from 53,219 to 53,819", started and turn == (53_219, 53_819)
    yield "a halt from 53,220 to 14:57", started and turn == (53_220, 53_820)
    yield "a later halt to 14:57", started and 53_220 < day.time and day.halted_until == 53_820
    yield "a trade at a threshold that has had its turn", not started and any(away)
    yield ("an order that would have traded rests in a halt",
           before.phase() == 7 and answer[0] == "A" and day.best(desk.BUY) is not None and day.best(desk.SELL) is not None
           and price in (day.best(desk.BUY), day.best(desk.SELL)) and day.best(desk.BUY) >= day.best(desk.SELL))
    yield "a market kind in a halt", before.phase() == 7 and answer == "X 5"


def of_move(before, day, prices, answer):
    """What a move of the clock has shown."""
    ended = before.halted_until is not None and answer[0] == "K" and day.time >= before.halted_until
    past_60 = bool(prices) and 60 in desk.thresholds_reached(day.open, prices[0])
    fired = ended and day.used != before.used
    yield "a halt's auction that trades", ended and bool(prices)
    yield "a halt's auction that does not", ended and not prices
    yield "a halt's auction that fires 60%", fired
    yield "a halt's auction that fires 60%, and the new halt ended by the same line", fired and day.halted_until is None
    yield ("a halt's auction at 14:57 past 60%, which fires nothing",
           ended and before.halted_until == 53_820 and past_60 and not fired and 60 not in before.used)
    yield "a move from a running halt past the close", ended and day.time >= 54_000


class HaltingDays(made.RandomDays):
    """Sessions of such days. The desk of the tests goes along; `seen` counts what it has shown."""

    def __init__(self, seed, days=2, lines=80):
        super().__init__(seed, days, lines)
        self.seen = collections.Counter()

    def one_day(self):
        pick = self.source
        self.close, self.accounts = pick.choice(CLOSES), 3
        self.centre = self.close
        lines = ["D %d %d" % (self.close, pick.random() < 0.1), "T 33300"]
        if pick.random() < 0.5:
            lines += ["O 0 0 1 100 %d 0" % self.close, "O 1 0 2 100 %d 0" % self.close]
        near = pick.random() < 0.3
        for _ in range(pick.randint(0, 9)):
            price = self.close + pick.randint(-8, 10) if near else self.far_price()
            lines.append("O %d 0 3 %d %d 0" % (price > self.close, 100 * pick.randint(1, 3), price))
        lines += ["T 34200", "T %d" % pick.choice(TURNING)]
        for line in lines:
            self.desk.answer(line.encode())
        while len(lines) < self.lines and self.desk.day.time < 54_000:
            lines.append(self.line())
            self.look(lines[-1])
        return lines

    def look(self, line):
        """Has the line answered, and counts what it shows."""
        before = copy.copy(self.desk.day)
        before.used = set(before.used)
        *trades, answer = [reply.strip() for reply in self.desk.answer(line.encode())]
        prices, day, halted = [int(trade.split()[1]) for trade in trades], self.desk.day, before.halted_until is not None
        if line[0] == "O":
            sights = of_order(before, day, prices, int(line.split()[5]), answer)
        elif line[0] == "T":
            sights = of_move(before, day, prices, answer)
        else:
            sights = [("a cancel in a halt", halted and answer[0] == "W")]
        self.seen.update(name for name, is_seen in sights if is_seen)
        self.seen["a line refused at noon in a halt"] += halted and before.phase() == 5 and answer == "X 4"

    def line(self):
        if self.source.random() < 0.1:
            self.centre = self.source.choice([self.far_price(), self.close * 35 // 100, self.close * 165 // 100])
        draw = self.source.random()
        return self.move() if draw < 0.12 else self.cancel() if draw < 0.22 else self.order()

    def beside(self, price):
        return min(max(price + self.source.choice([0, 0, 0, -1, 1]), 1), 999_999)

    def far_price(self):
        """At a threshold or a fen beside it, anywhere around, or near the open."""
        part = self.source.choice([40, 70, 70, 100, 130, 130, 160, 160, self.source.randint(20, 220)])
        return self.beside(self.close * part // 100)

    def move(self):
        """In a halt to its end, beside it or past it; else on by some seconds, or to a second on which an end turns."""
        pick, end = self.source, self.desk.day.halted_until
        if end is not None:
            return "T %d" % pick.choice([end - 1, end, end, end + 1, end + 600, end + 601, 41_400, 53_820, 54_000, 86_399])
        later = [second for second in TURNING if second >= self.desk.day.time]
        return "T %d" % pick.choice([self.desk.day.time + pick.randint(0, 400), pick.choice(later or [54_000])])

    def order(self):
        pick, side = self.source, self.source.randint(0, 1)
        other, halted = self.desk.day.best(1 - side), self.desk.day.halted_until is not None
        if halted:
            price = pick.choice([self.beside(self.centre)] * 3 + [self.far_price()])
        elif other is None:
            price = pick.choice([self.beside(self.close), self.far_price()])
        else:
            reach = max(other // 20, 10)
            price = pick.choice([other + reach * (1 - 2 * side)] * 3 + [other, self.far_price(), self.far_price()])
        kind = pick.choice([0] * 15 + [pick.randint(1, 4)])
        quantity = 100 * pick.randint(1, pick.choice([3, 3, 12]))
        return "O %d %d %d %d %d 0" % (side, kind, pick.randint(1, self.accounts), quantity, min(max(price, 1), 999_999))
