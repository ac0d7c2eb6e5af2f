"""The auction of a script that is drawn: which one, and its numbers, asked of ./floor. For ./explain.

Nothing of the market is computed. The orders that rest are told by the replies, and their shares have to add up to the report.
"""
from talk import Failed, lines_of, talk

REPORT, LIST = b"R\n", b"L 1 4096\n"


def rests_at(line, trades):
    """The price at which an order rests: its own, or that of its last trade where it is an order of kind 1 or 4 that traded. Other
    market orders rest at a price that no reply tells: None."""
    _, _, kind, _, _, price, _ = line.split()
    if kind == b"0":
        return int(price)
    return int(trades[-1][1]) if trades and kind in (b"1", b"4") else None


def resting(told):
    """Side, price and shares of each order that rests, by the lines and their replies."""
    book = {}
    for line, (*before, last) in told:
        trades = [reply.split() for reply in before if reply.startswith("M")]
        for _, _, _, buyer, seller, buyer_left, seller_left in trades:
            for number, left in ((buyer, buyer_left), (seller, seller_left)):
                if number in book:
                    book[number] = (*book[number][:2], int(left))
        letter, *n = last.split()
        if letter == "D" or (letter == "K" and n[0] == "0"):
            book = {}  # a new day, or the close, at which all that rests lapses
        elif letter == "W":
            del book[n[0]]
        elif letter == "A" and n[2] != "0":
            book[n[0]] = (int(line.split()[1]), rests_at(line, trades), int(n[2]))
    for number, (_, price, left) in book.items():
        if price is None and left > 0:
            raise Failed("order %s is a market order that rests, and no reply tells its price" % number)
    return [order for order in book.values() if order[2] > 0]


def first_that_trades(lines):
    """How many lines stand before the first move of the clock that trades; all of them where none does."""
    moves = (at for at, (_, told) in enumerate(talk(lines)) if told[0].startswith("M") and told[-1].startswith("K"))
    return next(moves, len(lines))


def qualifying(lines, told):
    """The prices that qualify, by the replies to a list from 1 on; where that is not all of them, the rest is asked for."""
    *listed, end = told
    following = int(end.split()[2])
    if following:
        pages = [b"L %d 4096\n" % price for price in range(following, 1_000_000, 4096)]
        listed += [reply for _, page in talk(lines + pages)[len(lines) :] for reply in page[:-1]]
    return sorted({int(reply.split()[1]) for reply in listed})


def adds_up(orders, price, volume, surplus):
    """Whether the shares of the orders are those of the report."""
    demand = sum(left for side, limit, left in orders if side == 0 and limit >= price)
    supply = sum(left for side, limit, left in orders if side == 1 and limit <= price)
    return price == 0 or (min(demand, supply), demand - supply) == (volume, surplus)


def asked(script, after):
    """Orders, report and qualifying prices of the book after so many lines; where after is None, before the first move that trades."""
    lines = [line for line in lines_of(script) if line.endswith(b"\n")]
    lines = lines[: first_that_trades(lines) if after is None else after]
    *told, (_, report), (_, listed) = talk(lines + [REPORT, LIST])
    orders = resting(told)
    if not orders:
        raise Failed("no order rests after line %d, so there is nothing to draw" % len(lines))
    numbers = [int(number) for number in report[0].split()[1:]]
    if not adds_up(orders, *numbers):
        raise Failed("the orders that rest by the replies do not add up to %s" % report[0])
    return orders, numbers, qualifying(lines, listed)
