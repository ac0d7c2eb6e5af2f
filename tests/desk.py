#!/usr/bin/env python3
"""The desk of the tests: a session of the rehearsal program answered a second time, for comparing.

    tests/desk.py < SESSION          the replies
    tests/desk.py --every-price ..   the same, but an auction whose orders lie within 2,000 fen tries every price between the
                                     lowest and the highest, not only those that can matter

Written from document 01, the requests that have changed it, and their readings in docs/DECISIONS.md alone, without the program's
code or its definitions. It is slow and plain on purpose: one list of live orders, searched from end to end.
"""
import re
import sys

PLACES = 1024
TRADES = 2048
LARGEST_PRICE = 999_999
LARGEST_NUMBER = 999_999  # the last order number of a day
LARGEST_WORD = 4_294_967_295  # the largest number of a line
LONGEST_LINE = 80  # bytes, with the newline

BUY, SELL = 0, 1

# First second, phase, takes orders, takes cancels.
CLOCK = [
    (0, 0, False, False),
    (33_300, 1, True, True),
    (33_600, 2, True, False),
    (33_900, 3, False, False),
    (34_200, 4, True, True),
    (41_400, 5, False, False),
    (46_800, 4, True, True),
    (53_820, 6, True, False),
    (54_000, 0, False, False),
]
OPENING_AUCTION = 33_900
CLOSING_AUCTION = 54_000

# Halts: continuous trading is phase 7 while one runs, and takes orders and cancels then.
HALTED = (7, True, True)
HALT_SECONDS = 600
THRESHOLDS = {30, 60}  # per cent away from the open
NOON = range(41_400, 46_800)
CLOSING_CALL = 53_820

# The screen: prices a side, and the phases in which it shows the auction's figures.
SCREEN_PRICES = 5
AUCTION_PHASES = (1, 2, 6)


class Refused(Exception):
    """The number of the refusal is its only argument."""


class Order:
    def __init__(self, number, side, account, left, price):
        self.number = number
        self.side = side
        self.account = account
        self.left = left
        self.price = price


def rank(order):
    """Better price first, then lower number."""
    return (-order.price if order.side == BUY else order.price, order.number)


def meets(side, limit, price):
    """Whether an order of this side and limit may trade at this price."""
    return price <= limit if side == BUY else price >= limit


def within(side, limit, price):
    """The price, or the limit where the price lies beyond it."""
    return price if meets(side, limit, price) else limit


def passes_quantity(side, quantity, balance):
    """From 100 shares up on both sides, and a sell of a smaller balance in one go. A buy has balance 0."""
    if side == BUY and balance != 0:
        return False
    in_one_go = side == SELL and 1 <= quantity <= 99 and quantity == balance
    return in_one_go or 100 <= quantity <= 1_000_000


def thresholds_reached(open_price, price):
    """Those that a price is at or past, up or down."""
    return {t for t in THRESHOLDS if price * 100 >= open_price * (100 + t) or price * 100 <= open_price * (100 - t)}


def end_of_halt(start):
    """When a halt ends that starts in this second. Noon has no auction, and at 14:57 the closing call begins."""
    end = start + HALT_SECONDS
    if end in NOON:
        return NOON.stop
    return min(end, CLOSING_CALL)


class Auction:
    """The price conditions of an auction over a list of orders."""

    def __init__(self, orders):
        self.buys = [o for o in orders if o.side == BUY]
        self.sells = [o for o in orders if o.side == SELL]

    def demand(self, p):
        return sum(o.left for o in self.buys if o.price >= p)

    def supply(self, p):
        return sum(o.left for o in self.sells if o.price <= p)

    def volume(self, p):
        return min(self.demand(p), self.supply(p))

    def qualifies(self, p, most):
        volume = self.volume(p)
        buys_above = sum(o.left for o in self.buys if o.price > p)
        sells_below = sum(o.left for o in self.sells if o.price < p)
        buys_at = sum(o.left for o in self.buys if o.price == p)
        sells_at = sum(o.left for o in self.sells if o.price == p)
        return (
            volume >= 1
            and volume == most
            and buys_above <= volume
            and sells_below <= volume
            and (buys_above + buys_at <= volume or sells_below + sells_at <= volume)
        )

    def candidates(self, last, every_price):
        """Demand and supply change at order prices only, so between two of them all prices qualify alike: the ends of that
        stretch and the price that nearness is measured from stand for it. Outside all order prices the volume is 0."""
        prices = {o.price for o in self.buys + self.sells}
        if not prices:
            return []
        if every_price and max(prices) - min(prices) <= 2000:
            return range(min(prices), max(prices) + 1)
        matter = {last} | {p + step for p in prices for step in (-1, 0, 1)}
        return sorted(p for p in matter if 1 <= p <= LARGEST_PRICE)

    def price(self, last, every_price):
        """The price, or None."""
        candidates = self.candidates(last, every_price)
        most = max((self.volume(p) for p in candidates), default=0)
        left = [p for p in candidates if self.qualifies(p, most)]
        for badness in (lambda p: abs(self.demand(p) - self.supply(p)), lambda p: abs(p - last)):
            least = min((badness(p) for p in left), default=0)
            left = [p for p in left if badness(p) == least]
        reach = any(b.price >= s.price for b in self.buys for s in self.sells)
        assert not reach or len(left) == 1, "buys reach sells, yet not exactly one price is left"
        return left[0] if left else None

    def pairs(self, p):
        """Buyer, seller and shares of each trade at this price: both queues cut to the volume, head against head."""
        volume = self.volume(p)

        def queue(orders):
            cut, room = [], volume
            for o in sorted(orders, key=rank):
                if meets(o.side, o.price, p) and room > 0:
                    cut.append([o, min(o.left, room)])
                    room -= cut[-1][1]
            return cut

        buys, sells = queue(self.buys), queue(self.sells)
        made = []
        while buys and sells:
            shares = min(buys[0][1], sells[0][1])
            made.append((buys[0][0], sells[0][0], shares))
            for side in (buys, sells):
                side[0][1] -= shares
                if side[0][1] == 0:
                    side.pop(0)
        return made


class Day:
    def __init__(self, close, mark, every_price):
        if not 1 <= close <= LARGEST_PRICE or mark not in (0, 1):
            raise Refused(14)
        self.close = close
        self.limited = mark == 1
        self.every_price = every_price
        self.time = 0
        self.issued = 0
        self.open = None
        self.last = None
        self.live = []
        self.traded = []  # price and shares of each trade of the day
        self.halted_until = None
        self.used = set()  # the thresholds that have fired today

    # The clock

    def now(self):
        """Phase, whether it takes orders, and whether it takes cancels."""
        row = [row for row in CLOCK if row[0] <= self.time][-1][1:]
        return HALTED if row[0] == 4 and self.halted_until is not None else row

    def phase(self):
        return self.now()[0]

    def move_clock(self, time):
        if time > 86_399 or time < self.time:
            raise Refused(1)
        before = self.kept()
        trades = []
        for second in range(self.time + 1, time + 1):
            if second in (OPENING_AUCTION, self.halted_until, CLOSING_AUCTION):
                self.time = second
                trades += self.begin_second()
        self.time = time
        if len(trades) > TRADES:
            self.__dict__.update(before)
            raise Refused(13)
        return trades, "K %d %d" % (self.phase(), len(trades))

    def kept(self):
        """All of the day as it is now, since a refused move changes nothing."""
        live = [Order(o.number, o.side, o.account, o.left, o.price) for o in self.live]
        return dict(self.__dict__, live=live, traded=list(self.traded), used=set(self.used))

    def nearest_to(self):
        """The price that an auction's price is nearest to: the last trade, or the previous close where there is none."""
        return self.close if self.last is None else self.last

    def begin_second(self):
        """Holds the auction with which this second begins; its trades."""
        trades = self.hold_auction()
        if self.time == self.halted_until:
            self.halted_until = None
            if self.time != CLOSING_CALL:
                self.watch(trades)
        if self.time == CLOSING_AUCTION:
            self.live = []
        return trades

    def hold_auction(self):
        auction = Auction(self.live)
        price = auction.price(self.nearest_to(), self.every_price)
        trades = []
        for buyer, seller, shares in auction.pairs(price) if price is not None else []:
            buyer.left -= shares
            seller.left -= shares
            trades.append((price, shares, buyer.number, seller.number, buyer.left, seller.left))
            self.note_trade(price, shares)
        self.live = [o for o in self.live if o.left > 0]
        return trades

    def note_trade(self, price, shares):
        self.traded.append((price, shares))
        self.last = price
        if self.open is None:
            self.open = price

    def watch(self, trades):
        """On a day without limits trading stops where the trades of an event reach a threshold that has not had its turn."""
        if self.limited:
            return
        reached = {t for price, *_ in trades for t in thresholds_reached(self.open, price)}
        if reached - self.used:
            self.used |= reached
            self.halted_until = end_of_halt(self.time)

    # Orders

    def queue(self, side):
        return sorted((o for o in self.live if o.side == side), key=rank)

    def best(self, side):
        prices = [o.price for o in self.live if o.side == side]
        if not prices:
            return None
        return max(prices) if side == BUY else min(prices)

    def in_band(self, price):
        return self.close * 70 <= price * 100 <= self.close * 130

    def in_range(self, side, price):
        bases = [self.best(1 - side), self.best(side), self.last, self.close]
        base = [b for b in bases if b is not None][0]
        if side == BUY:
            return price * 100 <= base * 105 or price <= base + 10
        return price * 100 >= base * 95 or price >= base - 10

    def refuse_order(self, side, kind, account, quantity, price, balance):
        phase, takes_orders, _ = self.now()
        if side not in (BUY, SELL) or kind > 4:
            raise Refused(2)
        if account == 0:
            raise Refused(3)
        if not takes_orders:
            raise Refused(4)
        if kind != 0 and (phase != 4 or not self.limited):
            raise Refused(5)
        if not passes_quantity(side, quantity, balance):
            raise Refused(6)
        if not 1 <= price <= LARGEST_PRICE:
            raise Refused(7)
        if self.limited and not self.in_band(price):
            raise Refused(8)
        if kind == 0 and phase == 4 and not self.in_range(side, price):
            raise Refused(9)
        if len(self.live) == PLACES:
            raise Refused(10)
        if self.issued == LARGEST_NUMBER:
            raise Refused(11)

    def partners(self, side, kind, limit):
        """The resting orders that an order may trade with, in priority order, and the price that kinds 0 to 2 take (None where
        there is none)."""
        queue = self.queue(1 - side) if self.phase() == 4 else []
        if kind in (3, 4):
            five = sorted({o.price for o in queue}, reverse=side == SELL)[:5]
            return [o for o in queue if o.price in five and meets(side, limit, o.price)], None
        price = {0: limit, 1: self.best(1 - side), 2: self.best(side)}[kind]
        if price is None:
            return [], None
        price = within(side, limit, price)
        return [o for o in queue if meets(side, price, o.price)], price

    def enter_order(self, side, kind, account, quantity, limit, balance):
        self.refuse_order(side, kind, account, quantity, limit, balance)
        own = self.best(side)
        partners, rests_at = self.partners(side, kind, limit)
        deals, left = [], quantity
        for partner in partners:
            shares = min(left, partner.left)
            if shares > 0:
                left -= shares
                deals.append((partner, shares, left))
        if len(deals) > TRADES:
            raise Refused(13)
        if kind == 4 and deals:
            rests_at = deals[-1][0].price
        elif kind == 4 and own is not None:
            rests_at = within(side, limit, own)

        self.issued += 1
        trades = [self.settle(side, *deal) for deal in deals]
        self.watch(trades)
        resting = left if rests_at is not None else 0
        if resting > 0:
            self.live.append(Order(self.issued, side, account, resting, rests_at))
        levels = len({price for price, *_ in trades})
        return trades, "A %d %d %d %d %d" % (self.issued, quantity - left, resting, left - resting, levels)

    def settle(self, side, partner, shares, left):
        """One trade of the newest order with a resting one, at the resting one's price, and what is left of both after it."""
        partner.left -= shares
        if partner.left == 0:
            self.live.remove(partner)
        self.note_trade(partner.price, shares)
        newest, resting = (self.issued, left), (partner.number, partner.left)
        (buyer, buyer_left), (seller, seller_left) = (newest, resting) if side == BUY else (resting, newest)
        return partner.price, shares, buyer, seller, buyer_left, seller_left

    def cancel_order(self, account, number):
        if not self.now()[2]:
            raise Refused(4)
        for o in self.live:
            if o.number == number and o.account == account:
                self.live.remove(o)
                return [], "W %d %d" % (number, o.left)
        raise Refused(12)

    # The screen

    def screen(self):
        """The public screen, counted from the trades of the day and the orders that stand: 28 numbers, zeros where there is none."""
        prices = [price for price, _ in self.traded]
        figures = [prices[-1], max(prices), min(prices)] if prices else [0, 0, 0]
        totals = [sum(shares for _, shares in self.traded), sum(price * shares for price, shares in self.traded)]
        return figures + totals + self.five_best(BUY) + self.five_best(SELL) + self.auction_figures()

    def five_best(self, side):
        """Price and shares of the five best prices of a side, best first."""
        five = sorted({o.price for o in self.live if o.side == side}, reverse=side == BUY)[:SCREEN_PRICES]
        levels = [(p, sum(o.left for o in self.live if o.side == side and o.price == p)) for p in five]
        return [number for level in levels + [(0, 0)] * (SCREEN_PRICES - len(five)) for number in level]

    def auction_figures(self):
        """Price, volume and signed surplus of an auction held now, in the opening and the closing call alone."""
        if self.phase() not in AUCTION_PHASES:
            return [0, 0, 0]
        auction = Auction(self.live)
        price = auction.price(self.close if self.last is None else self.last, self.every_price)
        if price is None:
            return [0, 0, 0]
        return [price, auction.volume(price), auction.demand(price) - auction.supply(price)]


def form(letter, count):
    """A line of this letter and so many numbers."""
    return re.compile(letter + rb" (0|[1-9][0-9]*)" * count)


FORMS = {letter: form(letter, count) for letter, count in ((b"D", 2), (b"T", 1), (b"O", 6), (b"C", 2))}


def read_line(line, forms):
    """Letter and numbers of a line without its newline; refused where it is not of the form."""
    form = forms.get(line[:1])
    found = form.fullmatch(line) if form and len(line) + 1 <= LONGEST_LINE else None
    numbers = [int(text) for text in found.groups()] if found else []
    if not found or max(numbers, default=0) > LARGEST_WORD:
        raise Refused(16)
    return line[:1], numbers


class Desk:
    """Answers line after line; its day is None before the first accepted opening."""

    def __init__(self, every_price=False):
        self.every_price = every_price
        self.day = None

    def obey(self, line):
        """Trades and answer; or refused."""
        letter, numbers = read_line(line, FORMS)
        if letter == b"D":
            self.day = Day(*numbers, self.every_price)
            return [], "D"
        if self.day is None:
            raise Refused(17)
        if letter == b"T":
            return self.day.move_clock(*numbers)
        if letter == b"O":
            return self.day.enter_order(*numbers)
        return self.day.cancel_order(*numbers)

    def answer(self, line):
        """The replies to a line without its newline: trades first, then the one answer."""
        try:
            trades, answer = self.obey(line)
        except Refused as refused:
            trades, answer = [], "X %d" % refused.args[0]
        return ["M %d %d %d %d %d %d\n" % trade for trade in trades] + [answer + "\n"]


def replies(session, every_price=False, kind=Desk):
    """The replies to all bytes of a session, as bytes."""
    desk = kind(every_price)
    *lines, tail = session.split(b"\n")
    said = [reply for line in lines for reply in desk.answer(line)]
    if tail:
        said.append("X 16\n")
    return "".join(said).encode()


def main():
    every_price = sys.argv[1:] == ["--every-price"]
    if sys.argv[1:] and not every_price:
        sys.exit("usage: desk.py [--every-price] < SESSION")
    sys.stdout.buffer.write(replies(sys.stdin.buffer.read(), every_price))


if __name__ == "__main__":
    main()
