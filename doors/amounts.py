"""Amounts as people read them, for what ./explain draws and shows: yuan, thousands separated, signs."""


def yuan(fen):
    return "{:,}.{:02d}".format(fen // 100, fen % 100)


def signed(number):
    """With its sign, a proper minus."""
    return "0" if number == 0 else "{}{:,}".format("+" if number > 0 else "−", abs(number))


def counted(count, one, many):
    return "1 " + one if count == 1 else "{:,} {}".format(count, many)
