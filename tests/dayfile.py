#!/usr/bin/env python3
"""Day files (./pack, ./unpack, ./rescue), compared with a reader and a writer of the tests' own (dayfiles.py), written from the
request.

    tests/dayfile.py          ends with 'N passed, M failed'
    tests/dayfile.py SEED     the same from another seed

Every session and example is packed, unpacked and answered again. Files are damaged: each byte of one block changed, blocks exchanged,
lost and doubled, files cut, blocks made that break one rule each with a right check. Scripts and files are read whole and cut in
several ways."""
import itertools
import random
import struct
import subprocess
import sys

import dayfiles
from program import ROOT, X86, Counts, build, run

SEED = 109_110
PROGRAMS = ["pack_script", "unpack_file", "rescue_file"]
CHUNK = 4_096  # what the programs read at once
RECORD = dayfiles.record(b"T 34200")


def path(name):
    return ROOT / "target" / "bin" / name


class Files(Counts):
    def gives(self, what, name, source, expected, lengths=None):
        """Runs a program: what it writes and what it tells, in one comparison."""
        output, told, status = run(source, lengths, path(name))
        self.same("%s, %s" % (name, what), b"%s(told %s, status 0)" % expected, b"%s(told %s, status %d)" % (output, told, status))

    def packs(self, what, script, lengths=None):
        self.gives(what, "pack_script", script, dayfiles.packed(script), lengths and lengths())

    def reads(self, what, day, lengths=None):
        for name, expected in [("unpack_file", dayfiles.unpacked(day)), ("rescue_file", dayfiles.rescued(day))]:
            self.gives(what, name, day, expected, lengths and lengths())


def random_lengths(seed):
    source = random.Random(seed)
    while True:
        yield source.choice([1, source.randint(1, 30), source.randint(1, 700), source.randint(500, 530), source.randint(1, 5000)])


def cuts(seed):
    """How an input is cut: a name, and what makes the lengths of its pieces."""
    yield "whole", None
    yield "in pieces of 7 bytes", lambda: itertools.repeat(7)
    yield "in pieces of 512 bytes", lambda: itertools.repeat(512)
    yield "in random pieces", lambda: random_lengths(seed)


def stored(counts, seed):
    """Each stored script is packed; its day file gives the script without the lines that are not stored, and the answers of these."""
    for script_path in sorted(ROOT.glob("tests/sessions/*.txt")) + sorted(ROOT.glob("examples/*.txt")):
        script = script_path.read_bytes()
        if len(script) > 300_000:
            continue
        name = script_path.name
        counts.packs(name, script)
        day = dayfiles.packed(script)[0]
        counts.reads(name, day)
        kept = b"".join(line + b"\n" for line in script.split(b"\n")[:-1] if isinstance(dayfiles.record(line), bytes))
        counts.same("%s, its lines" % name, kept, dayfiles.unpacked(day)[0])
        counts.answers("%s, unpacked" % name, dayfiles.unpacked(day)[0], run(kept)[0])
        for what, lengths in list(cuts(seed))[3:]:
            counts.packs("%s, %s" % (name, what), script, lengths)


def events(source, count):
    """Lines of every kind, with the least and the greatest numbers, and some that are not stored."""
    numbers = [0, 1, 7, 255, 256, 1000, 65_536, 2**32 - 1]
    for _ in range(count):
        letter, wants = source.choice([(b"D", 2), (b"T", 1), (b"O", 6), (b"O", 6), (b"C", 2)])
        words = [b"%d" % source.choice(numbers) for _ in range(wants)]
        if source.random() < 0.1:
            words.append(source.choice([b"", b"x", b"01", b"4294967296", b"1"]))
        yield b" ".join([letter] + words)


def scripts(counts, seed):
    source = random.Random(seed)
    for what, script in [
        ("no script", b""),
        ("a newline", b"\n"),
        ("a tail", b"T 34200"),
        ("a line of 80 bytes", b"T 1".ljust(80, b" ") + b"\nT 1\n"),
        ("a long line across chunks", b"T 1\n" + 9000 * b"x" + b"\nT 2\n" + 5000 * b"y"),
        ("many newlines", 9000 * b"\n"),
        ("bounds of side and kind", b"O 255 0 1 1 1 1\nO 256 0 1 1 1 1\nO 0 255 1 1 1 1\nO 0 256 1 1 1 1\n"),
    ]:
        for how, lengths in cuts(seed):
            counts.packs("%s, %s" % (what, how), script, lengths)
    for size in [1, 24, 25, 26, 49, 50, 51, 400]:
        script = b"\n".join(events(source, size)) + b"\n"
        for how, lengths in cuts(seed):
            counts.packs("%d lines, %s" % (size, how), script, lengths)
    for before in range(CHUNK - 12, CHUNK + 3):
        counts.packs("a line at byte %d" % before, before * b"x" + b"\nT 34200\nO 0 0 7 100 1000 0\n")


def repaired(whole):
    """The block with its right check."""
    return whole[:508] + struct.pack("<I", dayfiles.check(whole[:508]))


def damaged_blocks(counts, source):
    """Each byte of a block to other values: 24. Then the same with the check made right: the layout decides."""
    whole = dayfiles.block(1, [dayfiles.record(b"O 1 4 7 100 1000 50")] + 2 * [RECORD])
    for at in range(512):
        for value in {whole[at] ^ 1, whole[at] ^ 255, source.randrange(256)} - {whole[at]}:
            day = whole[:at] + bytes([value]) + whole[at + 1 :]
            counts.same("byte %d is noticed" % at, b"X 24 1\n", dayfiles.unpacked(day)[1])
            if source.random() < 0.15:
                counts.reads("byte %d is %d" % (at, value), day)
            if at < 508 and source.random() < (1 if at < 30 else 0.05):
                counts.reads("byte %d is %d, repaired" % (at, value), repaired(day))
    for kind, side, order_kind, zero, *numbers in itertools.product(range(6), [0, 1], [0, 1], [0, 1], [0, 1], [0, 1], [0, 1], [0, 1]):
        if source.random() < 0.1:
            found = struct.pack("<BBBB4I", kind, side, order_kind, zero, *numbers)
            counts.reads("record %r" % found, dayfiles.block(1, [found]))


def damaged_files(counts, source, seed):
    """Files of many lengths: cut, with blocks lost, exchanged, doubled, short in between, and damaged twice."""
    for size in [0, 1, 24, 25, 26, 50, 51, 100, 225, 226]:
        day = dayfiles.file_of([dayfiles.record(b"T %d" % n) for n in range(size)])
        for how, lengths in cuts(seed):
            counts.reads("%d records, %s" % (size, how), day, lengths)
        for cut in {1, 100, 511, 512, 513, 1023, 1024, len(day) - 1} if day else {}:
            counts.reads("%d records, %d bytes of them" % (size, cut), day[:cut])
        counts.reads("%d records and a byte" % size, day + b"\0", lambda: random_lengths(seed))
    blocks, _ = dayfiles.blocks_of(dayfiles.file_of(230 * [RECORD]))
    for _ in range(60):
        some = list(blocks)
        for _ in range(source.randint(1, 3)):
            at = source.randrange(len(some))
            change = source.randrange(5)
            if change == 0:
                del some[at]
            elif change == 1:
                some.insert(at, source.choice(some))
            elif change == 2:
                some[at], some[-1] = some[-1], some[at]
            elif change == 3:
                some[at] = dayfiles.block(at + 1, 3 * [RECORD])
            else:
                place = source.randrange(512)
                some[at] = some[at][:place] + source.randbytes(1) + some[at][place + 1 :]
        tail = source.randbytes(source.choice([0, 0, 0, 1, 511]))
        counts.reads("blocks changed", b"".join(some) + tail, source.choice([None, lambda: random_lengths(seed)]))
    for size in [1, 511, 512, 1024, 5000, 20_000]:
        counts.reads("%d random bytes" % size, source.randbytes(size), lambda: random_lengths(seed))


def faults(counts):
    """An output that cannot be written and an input that cannot be read are said on standard error."""
    for name, said in zip(PROGRAMS, [b"pack", b"unpack", b"rescue"]):
        source = b"T 1\n" * 30 if name == "pack_script" else dayfiles.file_of(60 * [RECORD])
        with open("/dev/full", "wb") as full:
            told = subprocess.run([X86, path(name)], input=source, stdout=full, stderr=subprocess.PIPE).stderr
        counts.same("an output that is full", said + b": standard output cannot be written\n", told)
        told = subprocess.run(["bash", "-c", "%s %s < ." % (X86, path(name))], cwd=ROOT, capture_output=True).stderr
        counts.same("an input that is a folder", said + b": standard input cannot be read\n", told)


def main(seed):
    for name in ["rehearse"] + PROGRAMS:
        build(path(name))
    counts = Files("dayfile")
    print("dayfile: seed %d" % seed)
    source = random.Random(seed)
    stored(counts, seed)
    scripts(counts, seed)
    damaged_blocks(counts, source)
    damaged_files(counts, source, seed)
    faults(counts)
    counts.finish()


if __name__ == "__main__":
    main(int(sys.argv[1]) if sys.argv[1:] else SEED)
