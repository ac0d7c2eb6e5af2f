#!/usr/bin/env python3
"""The picture of an auction that ./explain draws, read by an XML parser and compared with what the program of ./floor answers to R and L.

    tests/picture.py PICTURE SCRIPT LINES     the picture of the book after so many lines of the script; ends with 'N passed, M failed'

The words have to say the price, the volume, the surplus and the prices that qualify. What is drawn is measured by the axes' own labels: the
span, and both staircases at the price.
"""
import pathlib
import re
import sys
import xml.etree.ElementTree as tree

from program import ROOT, Counts, run

FLOOR = ROOT / "target" / "bin" / "floor"
SVG = "{http://www.w3.org/2000/svg}"


def number(words):
    """The one number of a text: with its separators, a sign, or as yuan."""
    found = re.findall(r"[+−]?[\d,]+(?:\.\d\d)?", words)
    assert len(found) == 1, words
    return int(found[0].replace(",", "").replace(".", "").replace("−", "-"))


def scale(labels):
    """From a place in the picture to the number there, by two labelled places."""
    (first, low), *_, (last, high) = sorted(labels)
    return lambda place: low + (place - first) * (high - low) / (last - first)


def height_at(path, x):
    """The place of a staircase at x: beginning, then across and up or down in turn."""
    start, *moves = re.findall(r"[MHV][^MHV]+", path)
    y = float(start.split()[1])
    for across, along in zip(moves[::2], moves[1::2]):
        if float(across[1:]) > x:
            break
        y = float(along[1:])
    return y


def main(path, script, lines):
    counts = Counts("picture")
    same = lambda what, wanted, given: counts.same("%s, %s" % (path, what), b"%r" % (wanted,), b"%r" % (given,))
    before = b"".join(pathlib.Path(script).read_bytes().splitlines(keepends=True)[: int(lines)])
    answers = run(before + b"R\nL 1 4096\n", None, FLOOR)[0].decode().splitlines()
    report = [line for line in answers if line.startswith("R")][-1]
    price, volume, surplus = [int(word) for word in report.split()[1:]]
    listed = [int(line.split()[1]) for line in answers[len(answers) - 1 - int(answers[-1].split()[1]) : -1]]

    root = tree.parse(path).getroot()
    marked = {part.get("id"): part for part in root.iter() if part.get("id")}
    texts = [part for part in root.iter(SVG + "text")]
    same("the price", price, number(marked["price"].text))
    same("the volume", volume, number(marked["volume"].text))
    same("the surplus", surplus, number(marked["surplus"].text))
    said = re.findall(r"[\d,.]+(?= yuan| to |(?= prices? qualif))", marked["below"].text)
    wanted = ["{:,}".format(len(listed))] + ["%d.%02d" % divmod(p, 100) for p in sorted({listed[0], listed[-1]})]
    same("the prices that qualify", wanted, said)

    across = scale([(float(t.get("x")), number(t.text)) for t in texts if t.get("text-anchor") == "middle" and re.match(r"[\d,]+\.\d\d$", t.text)])
    up = scale([(float(t.get("y")) - 4.5, number(t.text)) for t in texts if t.get("text-anchor") == "end" and re.match(r"[\d,]+$", t.text)])
    left = float(marked["span"].get("x"))
    same("the span's first price", listed[0], round(across(left) + 0.5))
    same("the span's last price", listed[-1], round(across(left + float(marked["span"].get("width"))) - 0.5))
    x = float(next(root.iter(SVG + "circle")).get("cx"))
    same("the place of the price", price, round(across(x)))
    demand, supply = (round(up(height_at(marked[name].get("d"), x))) for name in ("demand", "supply"))
    same("the smaller of the staircases", volume, min(demand, supply))
    same("how far they are apart", surplus, demand - supply)
    counts.finish()


if __name__ == "__main__":
    if len(sys.argv) != 4:
        sys.exit("usage: picture.py PICTURE SCRIPT LINES")
    main(*sys.argv[1:])
