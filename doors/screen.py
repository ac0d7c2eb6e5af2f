"""The public screen as a table for dealers: sells above buys, the best of both next to the middle, and the day's figures below.

For ./explain. Every number is one of ./floor's answer to S; nothing is computed.
"""
from amounts import signed, yuan

EDGE = "    |  "


def level(side, place, reply):
    """One price of a side, from its reply."""
    _, price, shares = reply.split()
    return "%-4s %d %12s %15s" % (side, place, yuan(int(price)), "{:,}".format(int(shares)))


def levels(side, replies):
    """The prices of a side, best first."""
    return [level(side, place, reply) for place, reply in enumerate(replies, 1)] or ["no %ss" % side]


def figures(last, high, low, shares, turnover):
    if last == 0:
        return "nothing has traded yet"
    prices = "last %s   high %s   low %s" % (yuan(last), yuan(high), yuan(low))
    return "%s   shares %s   turnover %s yuan" % (prices, "{:,}".format(shares), yuan(turnover))


def auction(price, volume, surplus):
    if price == 0:
        return "auction   no price"
    return "auction   price %s   volume %s   surplus %s" % (yuan(price), "{:,}".format(volume), signed(surplus))


def table(told, in_call):
    """The lines of the table, from the replies to an S; the auction's figures stand there in calls alone."""
    first, *rest = told
    numbers = [int(number) for number in first.split()[1:]]
    sells = levels("sell", [reply for reply in rest if reply.startswith("-")])
    buys = levels("buy", [reply for reply in rest if reply.startswith("+")])
    shown = sells[::-1] + ["-" * 35] + buys + [figures(*numbers[:5])] + ([auction(*numbers[5:])] if in_call else [])
    return [EDGE + line for line in shown]
