"""Day files written from the request, not from the programs: records, blocks, files, scripts, and their rescue.

A block has 512 bytes. 0 to 3: its number from 1; 4 and 5: its records, 1 to 25; 6 and 7: zero; 8 to 507: 25 places of 20 bytes; 508
to 511: the sum of position times byte over the first 508, positions from 1, modulo 65,521. A record is kind, side, order kind, zero,
and four numbers of 32 bits. All numbers have their least byte first."""
import re
import struct

LETTERS = {1: b"D", 2: b"T", 3: b"O", 4: b"C"}
KINDS = {letter: kind for kind, letter in LETTERS.items()}
USED = {1: 2, 2: 1, 3: 4, 4: 2}  # how many of the four numbers a kind uses


def check(body):
    return sum(place * byte for place, byte in enumerate(body, 1)) % 65_521


def record(line):
    """The record of a line that is an event; 16 where it is none, 27 where its side or kind is above 255."""
    letter, *words = line.split(b" ")
    if len(line) > 79 or letter not in KINDS:
        return 16
    if not all(re.fullmatch(b"0|[1-9][0-9]{0,9}", word) and int(word) < 2**32 for word in words):
        return 16
    kind, numbers, sides = KINDS[letter], list(map(int, words)), [0, 0]
    if kind == 3:
        sides, numbers = numbers[:2], numbers[2:]
    if len(numbers) != USED[kind] or len(sides) != 2:
        return 16
    if max(sides) > 255:
        return 27
    return struct.pack("<BBBB4I", kind, *sides, 0, *(numbers + [0, 0, 0])[:4])


def block(number, records):
    body = struct.pack("<IHH", number, len(records), 0) + b"".join(records).ljust(500, b"\0")
    return body + struct.pack("<I", check(body))


def file_of(records):
    return b"".join(block(1 + at // 25, records[at : at + 25]) for at in range(0, len(records), 25))


def packed(script):
    """The day file of a script, and what is told."""
    *lines, tail = script.split(b"\n")
    records, told = [], []
    for number, line in enumerate(lines, 1):
        found = record(line)
        if isinstance(found, bytes):
            records.append(found)
        else:
            told.append(b"X %d %d\n" % (found, number))
    if tail:
        told.append(b"X 16 %d\n" % (len(lines) + 1))
    return file_of(records), b"".join(told) + b"K %d\n" % len(records)


def line_of(found):
    kind, side, order_kind, _, *numbers = struct.unpack("<BBBB4I", found)
    sides = [side, order_kind] if kind == 3 else []
    return b" ".join([LETTERS[kind]] + [b"%d" % n for n in sides + numbers[: USED[kind]]]) + b"\n"


def is_record(found):
    kind, side, order_kind, zero, *numbers = struct.unpack("<BBBB4I", found)
    if kind not in USED or zero != 0 or any(numbers[USED[kind] :]):
        return False
    return kind == 3 or side == order_kind == 0


def records_in(whole):
    return [whole[8 + 20 * i : 28 + 20 * i] for i in range(struct.unpack("<H", whole[4:6])[0])]


def own_layout(whole):
    count = struct.unpack("<H", whole[4:6])[0]
    if not 1 <= count <= 25 or whole[6:8] != b"\0\0" or any(whole[8 + 20 * count : 508]):
        return False
    return all(map(is_record, records_in(whole)))


def right_check(whole):
    return struct.unpack("<I", whole[508:])[0] == check(whole[:508])


def number_in(whole):
    return struct.unpack("<I", whole[:4])[0]


def refusal(whole, place, last):
    if not right_check(whole):
        return 24
    if number_in(whole) != place:
        return 25
    return 0 if own_layout(whole) and (last or number_of_records(whole) == 25) else 26


def number_of_records(whole):
    return struct.unpack("<H", whole[4:6])[0]


def blocks_of(day):
    """The whole blocks, and the tail."""
    whole = len(day) // 512
    return [day[512 * i : 512 * i + 512] for i in range(whole)], day[512 * whole :]


def front_of(day):
    """The blocks before the first refused one, and what that one is refused with: 0 where nothing is."""
    blocks, tail = blocks_of(day)
    for at, whole in enumerate(blocks):
        why = refusal(whole, at + 1, at + 1 == len(blocks))
        if why:
            return blocks[:at], why
    return blocks, 26 if tail else 0


def unpacked(day):
    """The script of a day file up to its first refused block, and what is told."""
    front, why = front_of(day)
    script = b"".join(line_of(found) for whole in front for found in records_in(whole))
    return script, b"X %d %d\n" % (why, len(front) + 1) if why else b""


def rescued(day):
    """The blocks before the first refused one, and the list of each from there on."""
    front, _ = front_of(day)
    blocks, tail = blocks_of(day)
    told = [
        b"B %d %d %d\n" % (place, right_check(whole) and own_layout(whole), number_in(whole))
        for place, whole in enumerate(blocks, 1)
        if place > len(front)
    ]
    if tail:
        told.append(b"B %d 0 0\n" % (len(blocks) + 1))
    return b"".join(front), b"".join(told) + b"K %d\n" % sum(map(number_of_records, front))
