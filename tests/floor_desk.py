#!/usr/bin/env python3
"""The floor of the tests: a session of ./floor answered a second time, for comparing.

    tests/floor_desk.py < SESSION          the replies
    tests/floor_desk.py --every-price ..   the same, but auctions and lists try every price, as tests/desk.py says

The lines of ./run are answered by the desk of the tests. The questions are answered here, from document 01 (report and price list), the
requests for a judge and for a screen, and docs/FLOOR.md, without the program's code or its definitions. The screen is counted afresh each
time, from the book, the day's trades and the phase.
"""
import sys

import desk
from desk import BUY, SELL, Refused, rank

LENT_PRICES = 4096  # the longest list of an L
LENT_CLAIMS = 4096  # the most claims that are noted
SHOWN_LEVELS = 5  # prices a side on the screen
CALLS = (1, 2, 6)  # the phases in which the screen shows the auction


def report(day):
    """Price, volume and surplus of an auction that were held now; zeros where there is no price."""
    auction = desk.Auction(day.live)
    price = auction.price(day.nearest_to(), day.every_price)
    if price is None:
        return 0, 0, 0
    return price, auction.volume(price), auction.demand(price) - auction.supply(price)


def stretches(orders, every_price):
    """The prices from the lowest order's to the highest's, in pieces within which demand and supply stay the same: each order's price
    by itself, and what lies between two neighbours. At all other prices the volume is 0."""
    prices = sorted({o.price for o in orders})
    if every_price and prices and prices[-1] - prices[0] <= 2000:
        return [range(p, p + 1) for p in range(prices[0], prices[-1] + 1)]
    pieces = [range(p, p + 1) for p in prices] + [range(p + 1, q) for p, q in zip(prices, prices[1:])]
    return sorted((piece for piece in pieces if piece), key=lambda piece: piece[0])


def qualifying(day):
    """The prices that qualify, ascending, as ranges."""
    auction, pieces = desk.Auction(day.live), stretches(day.live, day.every_price)
    most = max((auction.volume(piece[0]) for piece in pieces), default=0)
    return [piece for piece in pieces if auction.qualifies(piece[0], most)]


def listed(day, asked, count):
    """The qualifying prices from the asked one upward, as many as fit, and the next one due, or 0."""
    room = min(count, LENT_PRICES)
    found = []
    for piece in qualifying(day):
        start = max(asked, piece[0])
        found += range(start, min(piece[-1], start + room) + 1)
        if len(found) > room:
            break
    return found[:room], found[room] if len(found) > room else 0


def grants(day, price):
    """What priority grants each live order at this price: a side's orders, best first, until the volume is used up."""
    volume, granted = desk.Auction(day.live).volume(price), {}
    for side in (BUY, SELL):
        room = volume
        for order in sorted((o for o in day.live if o.side == side), key=rank):
            granted[order.number] = min(order.left, room)
            room -= granted[order.number]
    return granted


def verdict(day, price, claims):
    """Whether the claimed price and trades are those of the rules. Each of the request's clauses by itself."""
    right = report(day)[0]
    if price != right:
        return False
    if right == 0:
        return not claims
    side = {o.number: o.side for o in day.live}
    if not all(shares >= 1 and side.get(buyer) == BUY and side.get(seller) == SELL for shares, buyer, seller in claims):
        return False
    fills = dict.fromkeys(side, 0)
    for shares, buyer, seller in claims:
        fills[buyer] += shares
        fills[seller] += shares
    return fills == grants(day, price)


def levels(day, side):
    """The five best prices of a side, best first, each with all shares that rest there."""
    prices = sorted({o.price for o in day.live if o.side == side}, reverse=side == BUY)[:SHOWN_LEVELS]
    return [(price, sum(o.left for o in day.live if o.side == side and o.price == price)) for price in prices]


def figures(trades):
    """Last, high and low price, shares and turnover of the day's trades."""
    prices = [price for price, *_ in trades] or [0]
    return prices[-1], max(prices), min(prices), sum(t[1] for t in trades), sum(t[0] * t[1] for t in trades)


class Floor(desk.Desk):
    """Answers line after line; claims are noted until they are judged, or another day is open."""

    def __init__(self, every_price=False):
        super().__init__(every_price)
        self.claims = []
        self.trades = []  # all of the day

    def report(self):
        return ["R %d %d %d" % report(self.day)]

    def list(self, asked, count):
        prices, following = listed(self.day, asked, count)
        return ["L %d" % price for price in prices] + ["N %d %d" % (len(prices), following)]

    def claim(self, *trade):
        if len(self.claims) == LENT_CLAIMS:
            raise Refused(13)
        self.claims.append(trade)
        return ["Q %d" % len(self.claims)]

    def judge(self, price):
        yes, self.claims = verdict(self.day, price, self.claims), []
        return ["J %d" % yes]

    def screen(self):
        auction = report(self.day) if self.day.phase() in CALLS else (0, 0, 0)
        shown = ["S %d %d %d %d %d %d %d %d" % (*figures(self.trades), *auction)]
        return shown + [sign + " %d %d" % level for sign, side in (("+", BUY), ("-", SELL)) for level in levels(self.day, side)]

    def obey(self, line):
        """As a desk; an accepted opening starts over with no claim and no trade."""
        trades, answer = super().obey(line)
        if line[:1] == b"D":
            self.claims, self.trades = [], []
        self.trades += trades
        return trades, answer

    def answer(self, line):
        question = QUESTIONS.get(line[:1])
        if question is None:
            return super().answer(line)
        try:
            _, numbers = desk.read_line(line, FORMS)
            if self.day is None:
                raise Refused(17)
            said = question(self, *numbers)
        except Refused as refused:
            said = ["X %d" % refused.args[0]]
        return [reply + "\n" for reply in said]


QUESTIONS = {b"R": Floor.report, b"L": Floor.list, b"Q": Floor.claim, b"J": Floor.judge, b"S": Floor.screen}
FORMS = {letter: desk.form(letter, count) for letter, count in ((b"R", 0), (b"L", 2), (b"Q", 3), (b"J", 1), (b"S", 0))}


def replies(session, every_price=False):
    """The replies to all bytes of a session, as bytes."""
    return desk.replies(session, every_price, Floor)


def main():
    every_price = sys.argv[1:] == ["--every-price"]
    if sys.argv[1:] and not every_price:
        sys.exit("usage: floor_desk.py [--every-price] < SESSION")
    sys.stdout.buffer.write(replies(sys.stdin.buffer.read(), every_price))


if __name__ == "__main__":
    main()
