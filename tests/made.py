"""Sessions that are made, not stored: random days from a seed, and the days that reach the program's bounds."""
import random

import desk

PHASES = [second for second, _, _, _ in desk.CLOCK if second > 0]


def text(lines):
    return "".join(line + "\n" for line in lines).encode()


class RandomDays:
    """A random session: some days in a row, with orders around a price, cancels, moves of the clock and some faults. The desk
    of the tests goes along, so that cancels can name live orders and most lines suit the phase."""

    def __init__(self, seed, days=3, lines=150):
        self.source = random.Random(seed)
        self.desk = desk.Desk()
        self.days = days
        self.lines = lines

    def session(self):
        return text([line for _ in range(self.days) for line in self.one_day()])

    def one_day(self):
        """One style a day: how far prices lie apart, how large orders are, and how often the clock moves."""
        pick = self.source
        self.close = pick.choice([1, 7, 13, 150, 1000, 1000, 1001, 1003, 99_997, 999_999])
        self.spread = pick.choice([1, 3, 10, 10, max(10, self.close // 15), max(10, self.close // 3)])
        self.most = pick.choice([200, 400, 5_000, 1_000_000])
        self.accounts = pick.choice([2, 5])
        self.steps = pick.choice([3, 8]) / self.lines
        lines = ["D %d %d" % (self.close, pick.random() < 0.8), "T %d" % pick.choice([33_300, 34_200])]
        self.desk.answer(lines[0].encode())
        self.desk.answer(lines[1].encode())
        while len(lines) < self.lines and self.desk.day.time < 54_000:
            lines.append(self.line())
            self.desk.answer(lines[-1].encode())
        return lines + ["T 54000"] * (pick.random() < 0.8)

    def line(self):
        _, takes_orders, takes_cancels = self.desk.day.now()
        if self.source.random() < (self.steps if takes_orders else 0.7):
            return self.move()
        draw = self.source.random()
        if draw < (0.2 if takes_cancels else 0.06):
            return self.cancel()
        if draw < 0.92:
            return self.order()
        if draw < 0.95:
            return self.fault()
        return self.range_edge() if draw < 0.97 else self.quantity_edge() if draw < 0.985 else self.wrong_count()

    def move(self):
        """Mostly to the next phase or the one after, or a second beside one."""
        later = [second for second in PHASES if second > self.desk.day.time]
        return "T %d" % (self.source.choice(later[:2]) + self.source.choice([0, 0, 0, 0, -1, 1]))

    def cancel(self):
        """Of a live order, mostly by its own account; or of any number."""
        live = self.desk.day.live
        account, number = self.source.randint(1, self.accounts), self.source.randint(0, self.desk.day.issued + 1)
        if live and self.source.random() < 0.8:
            order = self.source.choice(live)
            account, number = self.source.choice([order.account] * 3 + [account]), order.number
        return "C %d %d" % (account, number)

    def order(self):
        pick = self.source
        market = self.desk.day.limited and self.desk.day.phase() == 4
        kind = pick.choice([0, 0, 0, 0, 1, 2, 3, 4]) if market else 0
        price = self.close + pick.randint(-self.spread, self.spread)
        if kind != 0 and pick.random() < 0.5:
            price = pick.choice([self.close * 7 // 10 + 1, self.close * 13 // 10])
        quantity = pick.choice([100, 200, pick.randint(100, self.most), self.most])
        if kind in (3, 4):
            quantity = min(quantity * pick.choice([1, 6]), 1_000_000)
        side, balance = pick.randint(0, 1), 0
        if side == desk.SELL and pick.random() < 0.3:
            quantity, balance = self.lot(quantity)
        numbers = (side, kind, pick.randint(1, self.accounts), quantity, min(max(price, 1), 999_999), balance)
        return "O %d %d %d %d %d %d" % numbers

    def lot(self, quantity):
        """Quantity and balance of a sell, mostly one that is taken: a balance of 1 to 99 sold in one go, or any balance behind a
        whole quantity."""
        if self.source.random() < 0.6:
            quantity = self.source.choice([1, 99, self.source.randint(1, 99)])
            return quantity, self.source.choice([quantity] * 7 + [self.any_balance(quantity)])
        return quantity, self.any_balance(quantity)

    def any_balance(self, quantity):
        """0, the quantity, one beside it, or any number."""
        beside = [max(quantity - 1, 0), quantity + 1]
        any_number = [self.source.randint(0, 200), self.source.randint(0, 4_294_967_295)]
        return self.source.choice([0, quantity] + beside + any_number)

    def quantity_edge(self):
        """An order at an edge of the quantities, on either side and of any kind, with any balance."""
        pick = self.source
        quantity = pick.choice([0, 1, 2, 98, 99, 100, 101, 1_000_000, 1_000_001])
        numbers = (pick.randint(0, 1), pick.choice([0, 0, 1, 2, 3, 4]), quantity, self.close, self.any_balance(quantity))
        return "O %d %d 1 %d %d %d" % numbers

    def wrong_count(self):
        """An order, mostly a good one, that is 16: without its balance, or with a seventh number."""
        order = self.order()
        return order.rpartition(" ")[0] if self.source.random() < 0.7 else "%s %d" % (order, self.source.choice([0, 1, 99]))

    def range_edge(self):
        """A limit order at an edge of its range, or just beyond, whatever its base is."""
        day, side = self.desk.day, self.source.randint(0, 1)
        bases = [price for price in (day.best(0), day.best(1), day.last, day.close) if price is not None]
        base = self.source.choice(bases)
        edge = self.source.choice([base * 105 // 100, base + 10] if side == 0 else [base * 95 // 100, base - 10])
        return "O %d 0 1 100 %d 0" % (side, max(edge + self.source.choice([-1, 0, 1]), 0))

    def fault(self):
        """A line that is refused, most of the time."""
        pick = self.source
        close, account = self.close, pick.randint(0, 2)
        return pick.choice(
            [
                "O %d 0 1 100 %d 0" % (pick.randint(0, 2), close),
                "O 0 %d 1 100 %d 0" % (pick.randint(0, 5), close),
                "O 1 0 %d 100 %d 0" % (account, close),
                "O 1 0 1 %d %d 0" % (pick.choice([99, 100, 1_000_000, 1_000_001]), close),
                "O 1 0 1 99 %d 99 " % close,
                "O %d %d 1 100 %d 0" % (pick.randint(0, 1), pick.choice([0, 3]), close * 13 // 10 + pick.randint(0, 1)),
                "O %d %d 1 100 %d 0" % (pick.randint(0, 1), pick.choice([0, 4]), close * 7 // 10 + pick.randint(0, 1)),
                "O 0 0 1 100 %d 0" % pick.choice([0, 1, 999_999, 1_000_000]),
                "T %d" % pick.choice([self.desk.day.time - 1, self.desk.day.time, 86_400]),
                "D %d %d" % (pick.choice([0, 1_000_000]), pick.randint(0, 2)),
                "D 1000",
                "C %d" % account,
                "",
            ]
        )


def full_book():
    """1,024 orders stand: then every order is 10, also one that would trade, after all that comes before 10. A line of five or
    seven numbers is no order."""
    lines = ["D 1000 1", "T 33300"]
    lines += ["O %d 0 %d %d %d 0" % (n % 2, n, 100 + n, 990 + 20 * (n % 2)) for n in range(1, 1025)]
    lines += ["O 0 0 7 100 1000 0", "O 0 0 7 100 1301 0", "O 0 0 0 100 1000 0", "T 34200"]
    lines += ["O 0 0 7 100 1010 0", "O 0 3 7 100 1300 0", "O 1 1 7 100 700 0", "O 0 0 7 100 1061 0", "O 0 0 7 99 1000 0"]
    lines += ["O 1 0 7 99 1010 99", "O 1 0 7 99 1010 98", "O 0 0 7 100 1010 100", "O 0 0 7 100 1010", "O 0 0 7 100 1010 0 0"]
    lines += ["C 512 512", "O 1 3 7 100 700", "O 1 3 7 100 700 0", "O 1 0 7 100 990 0", "O 0 0 7 100 1000 0"]
    lines += ["O 0 3 7 100 1300 0", "C 7 1027", "O 0 0 7 100 1010 0", "O 0 4 7 1000 1300 0", "T 53820"]
    lines += ["O 0 0 7 100 1300 0", "O 1 0 8 100 700 0", "O 1 0 8 100 1000 0", "T 54000"]
    return text(lines + ["D 1000 1", "T 34200", "O 0 0 7 100 1000 0"])


def longest_auction(closing, empty_lines=0):
    """512 buys and 512 sells that shift against each other: 1,023 trades in one auction, the most that 1,024 orders have. The
    empty lines before it are answered too, so that its replies come at any place of the program's output."""
    lines = ["D 1000 1", "T %d" % (53_820 if closing else 33_300)]
    for n in range(512):
        lines += ["O 0 0 1 200 1000 0", "O 1 0 2 %d 1000 0" % (100 if n == 0 else 200)]
    return text(lines + [""] * empty_lines + ["T 54000", "T 54001"])


def longest_halt():
    """The same 1,024 orders, entered in a halt: 1,023 trades in its auction, 70% above the open, so that another halt begins;
    nothing is left over for its auction."""
    lines = ["D 1000 0", "T 33300", "O 0 0 1 100 1000 0", "O 1 0 2 100 1000 0"]
    lines += ["O 1 0 2 100 1300 0", "T 34200", "O 0 0 1 100 1300 0"]
    for n in range(512):
        lines += ["O 0 0 1 200 1700 0", "O 1 0 2 %d 1700 0" % (100 if n == 0 else 200)]
    return text(lines + ["O 0 0 1 100 1700 0", "T 34799", "T 34800", "T 35399", "T 35400", "T 54000"])


def longest_sweep(side):
    """1,023 orders at one price, and one order that trades with all of them: the most trades of an order."""
    lines = ["D 1000 1", "T 34200"] + ["O %d 0 1 100 1000 0" % (1 - side)] * 1023
    return text(lines + ["O %d 3 2 102400 1000 0" % side, "O %d 0 2 100 1000 0" % side, "T 54000"])


def last_number():
    """All 999,999 numbers: market orders that find nobody and are withdrawn, and at the end a book that is full."""
    lines = ["D 1000 1", "T 34200"] + ["O 0 3 7 100 1000 0"] * (999_999 - 1024) + ["O 0 0 7 100 1000 0"] * 1024
    lines += ["O 0 0 7 100 1000 0", "C 7 999999", "O 0 0 7 100 1000 0", "O 1 3 7 100 1000 0", "O 0 0 7 99 1000 0"]
    return text(lines + ["C 7 999998", "T 54000", "D 1000 1", "T 33300", "O 0 0 7 100 1000 0"])


def every_byte():
    """Each form of a line with every byte at every position, in place of the one there and before it."""
    lines = [b"D 1000 1", b"T 33300"]
    for good in (b"D 1000 1", b"T 33300", b"O 0 0 7 100 1000 0", b"O 1 0 7 99 1000 99", b"C 7 1"):
        for at in range(len(good) + 1):
            for byte in range(256):
                lines.append(good[:at] + bytes([byte]) + good[at:])
                lines.append(good[:at] + bytes([byte]) + good[at + 1 :])
    return b"".join(line + b"\n" for line in lines)


def long_lines():
    """Lines about as long as any chunk that a program might read at once, each with a good line at its end."""
    lines = [b"D 1000 1"]
    for power in range(6, 19):
        for length in range(2**power - 9, 2**power + 3):
            lines += [b" " * length + b"T 33300", b"T 0"]
    return b"".join(line + b"\n" for line in lines)
