"""Sessions of ./floor that are made, not stored: random days with questions between their lines, claims that are right, nearly right and
random, a count of what they have shown, and the sessions that reach the program's bounds."""
import collections
import copy

import desk
import floor_desk
import halting
import made
from desk import BUY, SELL
from floor_desk import CALLS

WORD = desk.LARGEST_WORD

MALFORMED = ["S ", "S 1", "SS", "s", "R ", " R", "R 1", "RR", "r", "L", "L 1", "L 1 2 3", "L 01 2", "L 1  2", "L 1 4294967296", "Q", "Q 1 2", "Q 1 2 3 4", "Q 1 2 x",
             "Q 1 2 3 ", "Q +1 2 3", "J", "J ", "J 1 1", "J -1", "J 4294967296", "j 990", "J 990\r", "N 1 1", "M 1 1", "+ 1 1", "- 1 1"]

# What has to be seen, and how often at least in the sessions of tests/floor.py.
LEAST = {
    **{"a report in phase %d" % phase: 3 for phase in range(8)},
    **{"a list in phase %d" % phase: 3 for phase in range(8)},
    **{"a verdict in phase %d" % phase: 3 for phase in range(8)},
    **{"a yes to trades in phase %d" % phase: 3 for phase in (1, 2, 6, 7)},
    "a report with surplus 0": 10,
    "a report with a surplus above 0": 10,
    "a report with a surplus below 0": 10,
    "a report without a price while both sides rest": 10,
    "a list of every price that qualifies": 10,
    "a list that ends before the last price": 10,
    "a list of no places, and a price that is due": 5,
    "a list from a price between two that qualify": 10,
    "a list from above all that qualify": 5,
    "a yes to other pairs than our own auction's": 5,
    "a yes to price 0 and no trades": 10,
    "a no to right trades at another price": 5,
    "a no to trades where no price is left": 3,
    "a no to a price where none is left": 3,
    "a no to a trade of no shares": 3,
    "a no to a number that is not live": 5,
    "a no to a buyer that sells or a seller that buys": 3,
    "a no to too many shares": 5,
    "a no to too few shares": 5,
    "a no to as many shares as trade, given to others": 3,
    "a no to shares that pass 32 bits": 3,
    "a verdict on a book that has changed since the first claim": 3,
    "a refused opening between claims": 3,
    "an opening that forgets claims": 3,
    **{"%s, not of the form" % letter: 3 for letter in "RLQJS"},
    **{"%s, no day open" % letter: 1 for letter in "RLQJS"},
    **{"a screen in phase %d" % phase: 3 for phase in range(8)},
    **{"a screen with an auction's price in phase %d" % phase: 3 for phase in CALLS},
    "a screen of a call without a price": 10,
    "a dark screen in a halt, while a price stands": 10,
    "a dark screen at noon of a halt, while a price stands": 1,
    "a screen with a surplus above 0": 10,
    "a screen with a surplus below 0": 10,
    "a screen with five prices of a side and more in the book": 10,
    "a screen with a price of several orders": 10,
    "a screen with no order of a side": 10,
    "a screen whose last trade is neither the highest nor the lowest": 10,
    "a screen of a day after its close, with its trades": 3,
    "a screen of a new day, after one with trades": 3,
    "a screen after a refused line": 10,
}


def shared(fills, source):
    """Trades between buyers and sellers of these fills, in any pairs, cut anywhere."""
    buys, sells = ([[shares, number] for number, shares in fills[side] if shares] for side in (BUY, SELL))
    source.shuffle(buys)
    source.shuffle(sells)
    trades = []
    while buys and sells:
        shares = min(buys[0][0], sells[0][0])
        if shares > 1 and source.random() < 0.3:
            shares = source.randint(1, shares - 1)
        trades.append((shares, buys[0][1], sells[0][1]))
        for side in (buys, sells):
            side[0][0] -= shares
            if side[0][0] == 0:
                side.pop(0)
    source.shuffle(trades)
    return trades


def fills_of(day, price):
    """Number and granted shares of each order, by side."""
    granted = floor_desk.grants(day, price)
    return {side: [(o.number, granted[o.number]) for o in day.live if o.side == side] for side in (BUY, SELL)}


def nearly(trades, price, day, source):
    """A right claim with one thing wrong, most of the time."""
    at = source.randrange(len(trades))
    shares, buyer, seller = trades[at]
    live = [o.number for o in day.live]
    before, after = trades[:at], trades[at + 1 :]
    return source.choice(
        [
            lambda: (price + source.choice([-1, 1]), trades),
            lambda: (0, trades),
            lambda: (price, before + after),
            lambda: (price, trades + [trades[at]]),
            lambda: (price, before + [(shares + source.choice([-1, 1]), buyer, seller)] + after),
            lambda: (price, before + [(shares, seller, buyer)] + after),
            lambda: (price, before + [(0, buyer, seller)] + trades[at:]),
            lambda: (price, before + [(shares, source.choice([0, day.issued + 1, WORD]), seller)] + after),
            lambda: (price, before + [(shares, buyer, source.choice([0, day.issued + 1, WORD]))] + after),
            lambda: (price, before + [(shares, source.choice(live), seller)] + after),
            lambda: (price, before + [(shares, buyer, source.choice(live))] + after),
            lambda: (price, before + [(WORD, buyer, seller), (shares + 1, buyer, seller)] + after),
            lambda: (0, []),
            lambda: (price, []),
        ]
    )()


def any_trades(day, source):
    numbers = [0, 1, 2, day.issued, day.issued + 1, WORD] + [o.number for o in day.live]
    some = [0, 1, 50, 100, WORD]
    return [(source.choice(some), source.choice(numbers), source.choice(numbers)) for _ in range(source.randint(0, 4))]


class Asking:
    """Put in front of a maker of days: questions between its lines. Some claims are noted one right after the other and judged; others
    have any lines in between."""

    def __init__(self, seed, **sizes):
        super().__init__(seed, **sizes)
        self.noting = []  # the lines of a claim that are still to come
        self.hurried = True

    def line(self):
        pick = self.source
        if self.noting and pick.random() < (0.97 if self.hurried else 0.8):
            return self.noting.pop(0)
        if self.noting and self.hurried:
            return pick.choice(["R", self.list(), "D 0 1", "D 1000 2", "", pick.choice(MALFORMED)])
        return self.question() if pick.random() < 0.3 else super().line()

    def question(self):
        draw = self.source.random()
        if draw < 0.2:
            return "R"
        if draw < 0.4:
            return "S"
        if draw < 0.6:
            return self.list()
        if draw < 0.7:
            return self.source.choice(MALFORMED)
        return self.noting.pop(0) if self.noting else self.claim()

    def list(self):
        """From anywhere, near a price that an order has, or within the prices that qualify."""
        pick, qualify = self.source, floor_desk.qualifying(self.desk.day)
        prices = [o.price for o in self.desk.day.live] or [self.close]
        asked = pick.choice([0, 1, 1, pick.choice(prices), pick.choice(prices) + 1, max(prices) + 1, desk.LARGEST_PRICE, WORD])
        if qualify and pick.random() < 0.3:
            asked = pick.randint(qualify[0][0], qualify[-1][-1])
        return "L %d %d" % (asked, pick.choice([0, 1, 2, 5, 5, 50, pick.randint(0, 30), WORD]))

    def claim(self):
        """Notes the lines of a claim and of its verdict, and returns the first."""
        pick, day = self.source, self.desk.day
        price, right = floor_desk.report(day)[0], []
        if price:
            right = shared(fills_of(day, price), pick)
        draw = pick.random()
        if draw < 0.3 or (not right and draw < 0.6):
            claimed, trades = price, right
        elif draw < 0.85 and right:
            claimed, trades = nearly(right, price, day, pick)
        else:
            claimed, trades = pick.choice([price, price, 0, self.close, WORD]), any_trades(day, pick)
        self.hurried = pick.random() < 0.85
        self.noting = ["Q %d %d %d" % trade for trade in trades] + ["J %d" % claimed]
        return self.noting.pop(0)

    def session(self):
        """Questions before the first day too."""
        return made.text(["R", "L 1 1", "Q 1 1 1", "J 0", "S", "Q 1 1", "J 0 0"]) + super().session()


class AskingDays(Asking, made.RandomDays):
    pass


class AskingHalts(Asking, halting.HaltingDays):
    def look(self, line):
        """What halts have shown is counted elsewhere."""
        self.desk.answer(line.encode())


class AskingCalls(Asking, made.RandomDays):
    """Short days: calls of a few orders of like sizes, so that often several prices qualify, with questions before and after the
    opening auction and after the close."""

    def one_day(self):
        pick = self.source
        self.close, self.accounts = 1000, 2
        apart = pick.choice([3, 12, 40])
        lines = ["D 1000 1", "T 33300"]
        for _ in range(pick.randint(2, 6)):
            side = pick.randint(0, 1)
            price = self.close + pick.randint(-apart // 3, apart) * (1 - 2 * side)
            lines.append("O %d 0 %d %d %d 0" % (side, pick.randint(1, 2), pick.choice([100, 100, 200]), price))
        for line in lines:
            self.desk.answer(line.encode())
        for move, count in ((None, 12), ("T 33900", 4), ("T 54000", 4)):
            if move:
                lines.append(move)
                self.desk.answer(move.encode())
            lines += [self.question() for _ in range(count)]
        return lines


# What a session shows


def of_report(day, said):
    price, _, surplus = [int(number) for number in said[0].split()[1:]]
    both = all(any(o.side == side for o in day.live) for side in (BUY, SELL))
    yield "a report in phase %d" % day.phase(), True
    yield "a report with surplus 0", price and surplus == 0
    yield "a report with a surplus above 0", surplus > 0
    yield "a report with a surplus below 0", surplus < 0
    yield "a report without a price while both sides rest", not price and both


def of_list(day, asked, count, said):
    written, following = [int(number) for number in said[-1].split()[1:]]
    qualify = floor_desk.qualifying(day)
    yield "a list in phase %d" % day.phase(), True
    yield "a list of every price that qualifies", written == sum(map(len, qualify)) > 0
    yield "a list that ends before the last price", written and following
    yield "a list of no places, and a price that is due", count == 0 and following
    yield "a list from a price between two that qualify", written and qualify[0][0] < asked < qualify[-1][-1]
    yield "a list from above all that qualify", qualify and asked > qualify[-1][-1]


def of_verdict(day, price, claims, said):
    yes, right = said == ["J 1"], floor_desk.report(day)[0]
    sides = {o.number: o.side for o in day.live}
    joined = [sides.get(buyer) == BUY and sides.get(seller) == SELL for _, buyer, seller in claims]
    total, volume = sum(shares for shares, _, _ in claims), desk.Auction(day.live).volume(right)
    plain = price == right and right and all(joined) and all(shares for shares, _, _ in claims)
    ours = [(shares, b.number, s.number) for b, s, shares in desk.Auction(day.live).pairs(right)] if right else []
    yield "a verdict in phase %d" % day.phase(), True
    yield "a yes to trades in phase %d" % day.phase(), yes and claims
    yield "a yes to other pairs than our own auction's", yes and {t[1:] for t in ours} != {t[1:] for t in claims}
    yield "a yes to price 0 and no trades", yes and not claims
    yield "a no to right trades at another price", not yes and right and price != right and floor_desk.verdict(day, right, claims)
    yield "a no to trades where no price is left", not right and price == 0 and claims
    yield "a no to a price where none is left", not right and price and not claims
    yield "a no to a trade of no shares", price == right and right and all(joined) and total == volume and not plain
    yield "a no to a number that is not live", price == right and any(n not in sides for _, *pair in claims for n in pair)
    yield ("a no to a buyer that sells or a seller that buys",
           price == right and total == volume and any(sides.get(b) == SELL or sides.get(s) == BUY for _, b, s in claims))
    yield "a no to too many shares", plain and volume < total < 2**32
    yield "a no to too few shares", plain and total < volume
    yield "a no to as many shares as trade, given to others", plain and total == volume and not yes
    yield "a no to shares that pass 32 bits", plain and total == volume + 2**32


def of_screen(day, trades, said):
    last, high, low, _, _, price, _, surplus = [int(number) for number in said[0].split()[1:]]
    phase, stands = day.phase(), floor_desk.report(day)[0] != 0
    sides = [[o.price for o in day.live if o.side == side] for side in (BUY, SELL)]
    yield "a screen in phase %d" % phase, True
    yield "a screen with an auction's price in phase %d" % phase, price
    yield "a screen of a call without a price", phase in CALLS and not price
    yield "a dark screen in a halt, while a price stands", phase == 7 and stands
    yield "a dark screen at noon of a halt, while a price stands", phase == 5 and stands
    yield "a screen with a surplus above 0", surplus > 0
    yield "a screen with a surplus below 0", surplus < 0
    yield "a screen with five prices of a side and more in the book", any(len(set(prices)) > 5 for prices in sides)
    yield "a screen with a price of several orders", any(len(set(prices)) < len(prices) for prices in sides)
    yield "a screen with no order of a side", [] in sides and sides != [[], []]
    yield "a screen whose last trade is neither the highest nor the lowest", low < last < high
    yield "a screen of a day after its close, with its trades", day.time >= desk.CLOSING_AUCTION and trades


class Watched(floor_desk.Floor):
    """The floor of the tests, counting what its lines show."""

    def __init__(self, every_price=False):
        super().__init__(every_price)
        self.shown = collections.Counter()
        self.begun = None  # what rested at the first claim
        self.before = None  # the first reply to the line before
        self.renewed = False  # a day with trades has ended, and nothing has traded since

    def resting(self):
        return [(o.number, o.left) for o in self.day.live] if self.day else None

    def sights(self, day, claims, line, said):
        letter, *words = line.decode("latin-1").split(" ")
        if letter in ("R", "L", "Q", "J", "S") and said[0].startswith("X "):
            yield "%s, not of the form" % letter, said == ["X 16"]
            yield "%s, no day open" % letter, said == ["X 17"]
        elif letter == "R":
            yield from of_report(day, said)
        elif letter == "S":
            yield from of_screen(day, self.trades, said)
            yield "a screen of a new day, after one with trades", self.renewed and not self.trades
            yield "a screen after a refused line", self.before[:1] == "X"
        elif letter == "L":
            yield from of_list(day, int(words[0]), int(words[1]), said)
        elif letter == "J":
            yield from of_verdict(day, int(words[0]), claims, said)
            yield "a verdict on a book that has changed since the first claim", claims and self.begun != self.resting()
        elif letter == "D":
            yield "a refused opening between claims", claims and said == ["X 14"]
            yield "an opening that forgets claims", claims and said == ["D"]

    def answer(self, line):
        day, claims, traded = copy.copy(self.day), list(self.claims), bool(self.trades)
        replies = super().answer(line)
        self.renewed = (self.renewed or traded) and not self.trades
        if self.claims and not claims:
            self.begun = self.resting()
        said = [reply.strip() for reply in replies]
        self.shown.update(name for name, is_shown in self.sights(day, claims, line, said) if is_shown)
        self.before = said[0]
        return replies


def screened(session):
    """A session with the screen asked for after each of its lines."""
    *lines, tail = session.split(b"\n")
    return b"".join(line + b"\nS\n" for line in lines) + tail


# Bounds


def longest_list(empty_lines=0):
    """All 999,999 prices qualify: lists of as many places as there are, one fewer and one more, from every kind of price. The empty lines
    are answered too, so that the longest list comes at any place of the program's output."""
    lines = ["D 500 0", "T 33300", "O 0 0 7 200 999999 0", "O 1 0 8 300 1 0", "R"] + [""] * empty_lines
    if empty_lines:
        return made.text(lines + ["L 900000 4096", "R"])
    for asked in (0, 1, 4097, 995_903, 995_904, 995_905, 999_998, 999_999, 1_000_000, WORD):
        lines += ["L %d %d" % (asked, count) for count in (0, 1, 4095, 4096, 4097, WORD)]
    return made.text(lines + ["T 33900", "L 1 5", "R"])


def all_claims():
    """As many claims as are noted, and one more, which is not: 4,096 trades of one share each are a yes. Then as many again, forgotten by
    a new day, and after a refused one still there."""
    book = ["D 1000 1", "T 33300", "O 0 0 7 4096 1000 0", "O 1 0 8 4096 1000 0"]
    ones, judged = ["Q 1 1 2"] * 4096, ["J 1000", "J 1000", "Q 4096 1 2", "J 1000"]
    return made.text(book + ones + ["Q 1 1 2", "Q 1 1", "R"] + judged + ones + ["D 0 1", "Q 1 1 2"] + book + ["Q 4096 1 2", "J 1000"]
                     + ones[:4095] + ["D 1 2", "Q 1 1 2", "Q 1 1 2", "J 1000"])


def largest_screen():
    """A full book of the largest orders at the highest price: the most shares at one price, and the most shares and money of an auction."""
    lines = ["D 999999 0", "T 33300"] + ["O %d 0 7 1000000 999999 0" % (n % 2) for n in range(1024)]
    return made.text(lines + ["S", "R", "T 33900", "S", "T 34200"] + ["O 0 0 7 1000000 999999 0"] * 1024 + ["S", "T 54000", "S"])


def every_byte(forms):
    """Each form of a question with every byte at every position, in place of the one there and before it; on a day, and without one."""
    lines = [b"D 1000 1", b"T 33300", b"O 0 0 7 200 1010 0", b"O 1 0 8 300 990 0"]
    for good in forms:
        for at in range(len(good) + 1):
            for byte in range(256):
                lines.append(good[:at] + bytes([byte]) + good[at:])
                lines.append(good[:at] + bytes([byte]) + good[at + 1 :])
    return b"\n".join(lines[4:]) + b"\n" + b"\n".join(lines) + b"\n"


def long_questions():
    """Numbers of a question as long as a line may be, and a byte longer."""
    lines = ["D 1000 1", "T 33300"]
    for letter, count in (("L", 2), ("Q", 3), ("J", 1)):
        for length in (78, 79, 80, 81):
            front = letter + " 1" * (count - 1) + " "
            lines += [front.ljust(length, "0"), front.ljust(length, "1"), letter + " 1" * count + " " * (length - 1 - 2 * count)]
    return made.text(lines + ["R".ljust(79), "R".rjust(79, "R"), "R"])
