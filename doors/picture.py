"""Draws an auction: demand and supply as steps over the price, the span of the prices that qualify, the price, the volume and the surplus.

For ./explain. Every number is handed in; the shares of the orders are added up by price for the steps, and that is all that is computed.
"""
import html

from amounts import counted, signed, yuan

WIDTH, HEIGHT = 860, 540
LEFT, RIGHT, TOP, BOTTOM = 112, 836, 140, 476  # the edges of the drawing within the picture
INK, PALE, GRID = "#1f2933", "#52606d", "#e4e7eb"
DEMAND, SUPPLY, SPAN, PRICE = "#5aa9e6", "#c2410c", "#fde68a", "#15803d"


def ticks(low, high, most):
    """Round numbers from low to high, at most so many, of a step that is 1, 2 or 5 with zeros."""
    step = next(s * 10**power for power in range(12) for s in (1, 2, 5) if (high - low) // (s * 10**power) < most)
    return range(-(-low // step) * step, high + 1, step)


def steps(changes, start):
    """The corners of a line that begins at this height and changes by so much at each of these prices."""
    height, corners = start, []
    for price in sorted(changes):
        height += changes[price]
        corners.append((price, height))
    return corners


class Drawing:
    """Prices to the right and shares upward, within the edges."""

    def __init__(self, prices, most_shares):
        beside = max(1, (max(prices) - min(prices)) // 16)
        self.low, self.high = max(min(prices) - beside, 1), max(prices) + beside
        self.most = max(most_shares, 1) * 1.06
        self.parts = []

    def x(self, price):
        """Every whole fen is a column: its middle is the price, its edges lie half a fen beside."""
        return LEFT + (price - self.low + 0.5) * (RIGHT - LEFT) / (self.high - self.low + 1)

    def y(self, shares):
        return BOTTOM - shares * (BOTTOM - TOP) / self.most

    def add(self, name, text=None, **marks):
        words = "".join(' %s="%s"' % (mark.rstrip("_").replace("_", "-"), self.shown(value)) for mark, value in marks.items())
        self.parts.append("<%s%s/>" % (name, words) if text is None else "<%s%s>%s</%s>" % (name, words, html.escape(text), name))

    @staticmethod
    def shown(value):
        return ("%.1f" % value).replace(".0", "") if isinstance(value, float) else html.escape(str(value))

    def line(self, x1, y1, x2, y2, **marks):
        self.add("line", x1=float(x1), y1=float(y1), x2=float(x2), y2=float(y2), **marks)

    def text(self, x, y, words, size=14, fill=INK, **marks):
        self.add("text", words, x=float(x), y=float(y), font_size=size, fill=fill, **marks)

    def halo(self, x, y, words, **marks):
        """Words over lines, with a white edge that keeps them readable."""
        self.text(x, y, words, paint_order="stroke", stroke="#ffffff", stroke_width=5, stroke_linejoin="round", **marks)

    def axes(self):
        for price in ticks(self.low, self.high, 9):
            self.line(self.x(price), TOP, self.x(price), BOTTOM, stroke=GRID)
            self.text(self.x(price), BOTTOM + 22, yuan(price), 13, PALE, text_anchor="middle")
        for shares in ticks(0, int(self.most), 8):
            self.line(LEFT, self.y(shares), RIGHT, self.y(shares), stroke=GRID)
            self.text(LEFT - 10, self.y(shares) + 4.5, "{:,}".format(shares), 13, PALE, text_anchor="end")
        self.line(LEFT, TOP, LEFT, BOTTOM, stroke=PALE)
        self.line(LEFT, BOTTOM, RIGHT, BOTTOM, stroke=PALE)
        self.text((LEFT + RIGHT) / 2, BOTTOM + 50, "price, yuan", 14, PALE, text_anchor="middle")
        self.text(LEFT - 10, TOP - 14, "shares", 14, PALE, text_anchor="end")

    def staircase(self, name, corners, start, fill, width):
        path = "M%s %s" % (self.shown(float(LEFT)), self.shown(float(self.y(start))))
        for price, height in corners:
            path += "H%s V%s " % (self.shown(float(self.x(price))), self.shown(float(self.y(height))))
        self.add("path", id=name, d=path + "H%s" % self.shown(float(RIGHT)), fill="none", stroke=fill, stroke_width=width)

    def span(self, first, last):
        left, right = self.x(first - 0.5), self.x(last + 0.5)
        self.add("rect", id="span", x=float(left), y=float(TOP), width=float(max(right - left, 2)), height=float(BOTTOM - TOP),
                 fill=SPAN, fill_opacity=0.7)

    def guides(self, price, volume):
        """The lines of the price and of the volume, beneath the staircases."""
        self.line(self.x(price), TOP - 6, self.x(price), BOTTOM, stroke=PRICE, stroke_width=2)
        self.line(LEFT, self.y(volume), self.x(price), self.y(volume), stroke=INK, stroke_width=1.5, stroke_dasharray="6 4")

    def price(self, price, volume, surplus):
        """What stands at the price, above the staircases. Words that have no room left of the price or beside the surplus stand below
        the volume."""
        x, y, far = self.x(price), self.y(volume), self.y(volume + abs(surplus))
        side, anchor = (12, "start") if x < RIGHT - 140 else (-12, "end")
        below = [y + 22, y + 42]
        self.halo(min(max(x, LEFT + 45), RIGHT - 45), TOP - 14, "price " + yuan(price), id="price", fill=PRICE, text_anchor="middle",
                  font_weight="bold")
        room = x > LEFT + 160
        self.halo(LEFT + 8 if room else x + 12, y - 8 if room else below.pop(0), "volume {:,}".format(volume), id="volume")
        if surplus:
            self.line(x, y, x, far, stroke=INK, stroke_width=5)
        tall = y - far > 30
        self.halo(x + side, (y + far) / 2 + 5 if tall else below.pop(0), "surplus " + signed(surplus), id="surplus", text_anchor=anchor)
        self.add("circle", cx=float(x), cy=float(y), r=5, fill=INK)

    def legend(self):
        entries = ((DEMAND, "demand: buys at this price or above"), (SUPPLY, "supply: sells at this price or below"),
                   (SPAN, "prices that qualify"))
        for (fill, words), x in zip(entries, (24, 336, 642)):
            self.add("rect", x=x, y=78, width=16, height=12, fill=fill)
            self.text(x + 24, 89, words, 14)


def heads(report, prices):
    """The two lines above the drawing."""
    price, volume, surplus = report
    if price == 0:
        return "No price qualifies: nothing trades", "at no price do buys meet sells"
    more = {True: "demand is the greater", False: "supply is the greater"}[surplus > 0] if surplus else "demand and supply are equal"
    span = yuan(prices[0]) if len(prices) == 1 else "%s to %s" % (yuan(prices[0]), yuan(prices[-1]))
    qualify = counted(len(prices), "price qualifies", "prices qualify")
    return ("%s at %s yuan" % (counted(volume, "share trades", "shares trade"), yuan(price)),
            "%s: %s yuan; surplus %s: %s" % (qualify, span, signed(surplus), more))


def picture(orders, report, prices):
    """The picture as a text. Orders are side (0 buys), price and shares; the report price, volume and surplus; prices those that qualify."""
    buys, sells = ([(price, shares) for side, price, shares in orders if side == wanted] for wanted in (0, 1))
    falls, rises = {}, {}
    for price, shares in buys:
        falls[price + 0.5] = falls.get(price + 0.5, 0) - shares
    for price, shares in sells:
        rises[price - 0.5] = rises.get(price - 0.5, 0) + shares
    demand, supply = sum(shares for _, shares in buys), sum(shares for _, shares in sells)
    head, below = heads(report, prices)

    drawing = Drawing([price for _, price, _ in orders], max(demand, supply))
    drawing.text(24, 34, head, 21, id="head", font_weight="bold")
    drawing.text(24, 58, below, 14, PALE, id="below")
    drawing.legend()
    if prices:
        drawing.span(prices[0], prices[-1])
    drawing.axes()
    if report[0]:
        drawing.guides(*report[:2])
    drawing.staircase("demand", steps(falls, demand), demand, DEMAND, 7)
    drawing.staircase("supply", steps(rises, 0), 0, SUPPLY, 3)  # thinner, so that both are seen where they are equal
    if report[0]:
        drawing.price(*report)
    frame = ('<svg xmlns="http://www.w3.org/2000/svg" width="%d" height="%d" viewBox="0 0 %d %d" font-family="sans-serif" role="img">'
             % (WIDTH, HEIGHT, WIDTH, HEIGHT))
    words = "<title>%s</title>\n<desc>%s</desc>" % (html.escape(head), html.escape(below))
    ground = '<rect width="%d" height="%d" fill="#ffffff"/>' % (WIDTH, HEIGHT)
    return "\n".join([frame, words, ground, *drawing.parts, "</svg>", ""])
