#!/usr/bin/env python3
"""The converter of old scripts (./convert), compared with one of the tests' own that is written from the request: balance 0 goes
behind each line that is an order of five numbers, and all else is copied.

    tests/convert.py          ends with 'N passed, M failed'
    tests/convert.py SEED     the same from another seed

Old scripts are kept in tests/convert. Each is converted whole and cut in several ways; what comes out is the script that is
stored under its name, which the program answers with the replies that are stored there too, and which a second conversion leaves
as it is. Sessions that came later are converted too. Made inputs: an order with each byte changed, left out or put in; lines of
many lengths; lines across the ends of the chunks that are read; tails; random lines and random bytes.
"""
import itertools
import random
import re
import subprocess
import sys

from program import ROOT, X86, Counts, build, run

SEED = 111_000
PROGRAM = ROOT / "target" / "bin" / "convert_script"
CHUNK = 65_536  # what the program reads at once
SMALL = b"O 0 0 7 100 1000"
LARGE = b"O" + 5 * b" 4294967295"
STRANGE = b" \t\r\n\0\xff09AOo-+."


def is_number(word):
    """A decimal up to 4,294,967,295 without extra leading zeros."""
    return len(word) <= 10 and re.fullmatch(b"0|[1-9][0-9]*", word) is not None and int(word) <= 4_294_967_295


def is_five(line):
    """An order of five numbers, at most 80 bytes with its newline."""
    letter, *numbers = line.split(b" ")
    return len(line) < 80 and letter == b"O" and len(numbers) == 5 and all(map(is_number, numbers))


def converted(script):
    *lines, tail = script.split(b"\n")
    return b"".join(line + (b" 0" if is_five(line) else b"") + b"\n" for line in lines) + tail


class Converting(Counts):
    def converts(self, what, script, expected, lengths=None):
        """Runs the converter: what it writes, nothing on standard error, exit status 0; all in one comparison."""
        output, errors, status = run(script, lengths, PROGRAM)
        if status != 0 or errors:
            output += b"(exit status %d, standard error %r)" % (status, errors)
        self.same(what, expected, output)

    def cut(self, what, script, seed):
        """Whole, byte by byte where that is not too long, in pieces of 7 bytes and in random pieces."""
        expected = converted(script)
        self.converts(what, script, expected)
        if len(script) < 20_000:
            self.converts(what + ", byte by byte", script, expected, itertools.repeat(1))
            self.converts(what + ", in pieces of 7 bytes", script, expected, itertools.repeat(7))
        self.converts(what + ", in random pieces", script, expected, random_lengths(seed))


def random_lengths(seed):
    source = random.Random(seed)
    while True:
        yield source.choice([1, 2, source.randint(1, 30), source.randint(1, 300), source.randint(1, 9000)])


def stored():
    """Each script that is stored now."""
    yield from sorted((ROOT / "tests" / "sessions").glob("*.txt"))
    yield from sorted((ROOT / "examples").glob("*.txt"))


def old_scripts(counts, seed):
    now = {path.name: path for path in stored()}
    for path in sorted((ROOT / "tests" / "convert").glob("*.txt")):
        old, new = path.read_bytes(), now.pop(path.name)
        counts.cut(path.name, old, seed)
        counts.converts("%s, as it is stored" % path.name, old, new.read_bytes())
        counts.converts("%s, which is converted already" % path.name, new.read_bytes(), new.read_bytes())
        counts.answers("%s, its replies" % path.name, converted(old), new.with_suffix(".out").read_bytes())
    # What is left never was an old script. Such a session may show lines of five numbers that are 16, as six-numbers does, so
    # that its conversion is another script.
    for path in now.values():
        counts.cut("%s, which came later" % path.name, path.read_bytes(), seed)


def edits(line):
    """The line with each byte left out, changed, or with one put in front of it."""
    for at in range(len(line) + 1):
        yield line[:at] + line[at + 1 :]
        for strange in STRANGE:
            yield line[:at] + bytes([strange]) + line[at + 1 :]
            yield line[:at] + bytes([strange]) + line[at:]


def lines_of_all_lengths():
    """Words that are numbers and words that are not, up to well past the longest line."""
    for length in itertools.chain(range(2, 120), [1000, 70_000, 200_000]):
        yield b"O 0 0 7 100 ".ljust(length, b"1")
        yield b"O 0 0 7 100 1000".ljust(length, b" ")
        yield b"O 0 0 7 100 1000".rjust(length, b"0")
        yield (b"O" + length * b" 1")[:length]
        yield length * b"O"


def across_chunks():
    """Orders whose bytes and newlines stand on both sides of a chunk's end."""
    for before in range(CHUNK - len(LARGE) - 4, CHUNK + 3):
        yield before * b"x" + b"\n" + LARGE + b"\n" + SMALL + b"\n"
        yield (before // 2) * b"y\n" + LARGE + b"\n" + SMALL


def random_lines(source, count):
    """Orders, nearly orders and other lines."""
    letters = [b"O", b"O", b"O", b"O", b"D", b"T", b"C", b"o", b"", b"OO"]
    words = [b"0", b"1", b"7", b"100", b"1000", b"4294967295", b"4294967296", b"01", b"00", b"", b"x", b"-1", b"1\r", b"\0"]
    for _ in range(count):
        some = source.choice([words[:6], words[:6], words])
        numbers = source.choices(some, k=source.choice([0, 1, 2, 4, 5, 5, 5, 6, 7]))
        yield source.choice([b" ", b" ", b" ", b" ", b"  ", b"\t"]).join([source.choice(letters)] + numbers)


def made_scripts(counts, seed):
    source = random.Random(seed)
    counts.cut("no input", b"", seed)
    for tail in [b"", b"O", SMALL, LARGE, SMALL + b"\r", SMALL + b" 0", 81 * b"O", 70_000 * b"1"]:
        counts.cut("a tail of %d bytes" % len(tail), tail, seed)
        counts.cut("an order and a tail of %d bytes" % len(tail), SMALL + b"\n" + tail, seed)
    for line in [SMALL, LARGE]:
        counts.cut("%d bytes edited" % len(line), b"\n".join(edits(line)) + b"\n", seed)
    for line in lines_of_all_lengths():
        script = line + b"\n" + SMALL + b"\n" + line
        counts.converts("a line of %d bytes: %r.." % (len(line), line[:20]), script, converted(script))
    for script in across_chunks():
        counts.converts("%d bytes across a chunk's end" % len(script), script, converted(script))
    for size in [10, 100, 1000, 5000]:
        counts.cut("%d random lines" % size, b"\n".join(random_lines(source, size)), seed)
    for size in [1, 80, 1000, 65_535, 65_536, 65_537, 300_000]:
        counts.cut("%d random bytes" % size, source.randbytes(size), seed)
        counts.cut("%d random bytes of orders" % size, bytes(source.choices(b"O 0 1\n", k=size)), seed)


def faults(counts):
    """An output that cannot be written and an input that cannot be read are said on standard error."""
    with open(ROOT / "README.md", "rb") as source, open("/dev/full", "wb") as full:
        said = subprocess.run([X86, PROGRAM], stdin=source, stdout=full, stderr=subprocess.PIPE).stderr
        counts.same("an output that is full", b"convert: standard output cannot be written\n", said)
    said = subprocess.run(["bash", "-c", "%s %s < ." % (X86, PROGRAM)], cwd=ROOT, capture_output=True).stderr
    counts.same("an input that is a folder", b"convert: standard input cannot be read\n", said)


def main(seed):
    build(PROGRAM)
    counts = Converting("convert")
    print("convert: seed %d" % seed)
    old_scripts(counts, seed)
    made_scripts(counts, seed)
    faults(counts)
    counts.finish()


if __name__ == "__main__":
    main(int(sys.argv[1]) if sys.argv[1:] else SEED)
