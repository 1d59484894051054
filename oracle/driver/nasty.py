"""A collection of nasty lines: every rule of 01's line at its boundary, alone and together with others; rest.py has those for what follows the side."""

from itertools import product, zip_longest

from reference.seeded import stream

from . import rest

PAWN = b"4k3/8/8/8/8/8/4P3/4K3"
START = b"rnbqkbnr/pppppppp/8/8/8/8/PPPPPPPP/RNBQKBNR"
FULL = b"/".join([b"QRBNKPqr"] * 8)
GOOD = PAWN + b" w - - 0 1;1-0"
SEED = 88172645463325252
MUTATED = 500


def plain():
    placements = (PAWN, START, FULL, b"8/8/8/8/8/8/8/8", b"7k/8/8/8/8/8/8/K7", b"p7/8/8/8/8/8/8/7P")
    results = (b"1-0", b"1/2-1/2", b"0-1")
    tails = (b"", b" ", b" - - 0 1", b" KQkq e3 99 100", b" w w w")
    for placement, side, result, tail in product(placements, (b"w", b"b"), results, tails):
        yield placement + b" " + side + tail + b";" + result


def ended():
    """White space at either end of each field, CR before LF once, twice and thrice, CR and tab inside."""
    blanks = (b"", b" ", b"\t", b"\r", b" \t\r ", b"\r\r", b"\r\r\r")
    for before, after in product(blanks, blanks):
        yield before + GOOD + after
        yield PAWN + b" w" + before + b";" + after + b"1-0"
        yield PAWN + b" w;" + before + b"0-1" + after + b";x"


def lengths():
    """255, 256 and 257 bytes, filled in each place where filling is allowed, and CR at the edge."""
    for length in (254, 255, 256, 257, 258, 300, 1000, 5000):
        room = length - len(GOOD)
        yield GOOD.ljust(length)
        yield GOOD.rjust(length)
        yield GOOD + b";" + b"x" * (room - 1)
        yield PAWN + b" w " + b"-" * (length - len(PAWN) - 7) + b";1-0"
        yield PAWN + b" " * (length - len(PAWN) - 5) + b"w;1-0"
        yield b"1" * length
        for end in (b"\r", b"\r\r"):
            yield GOOD.ljust(length) + end
            yield GOOD.ljust(length - 1) + end
    yield GOOD.ljust(255) + b"\0"
    yield GOOD.ljust(256) + b"\0"
    yield b"\0" * 257


def each_byte():
    """Every byte but LF in each part of a line."""
    for byte in range(256):
        if byte != 10:
            one = bytes([byte])
            yield one + GOOD
            yield PAWN + b" w" + one + b";1-0"
            yield PAWN + b" w;1-0" + one
            yield PAWN + b" w;1-0;" + one
            yield b"4k3/8/8/8/8/8/4P3/" + one + b"3K3 w;1-0"


def fields():
    parts = (b"", b";", b";;", b";;;", b" ; ", b";1-0", PAWN + b" w", PAWN + b" w;", PAWN + b" w;;1-0",
             PAWN + b" w;1-0;0-1", PAWN + b" w;x;1-0", PAWN + b";w;1-0", PAWN + b";1-0", PAWN + b" ;1-0", b";" + GOOD,
             GOOD.replace(b";", b":"), GOOD.replace(b";", b","), b"w;1-0", b" w;1-0", b"1-0", PAWN, b"\t", b"\r", b" ")
    yield from parts
    yield from (b" " * spaces for spaces in range(2, 6))


def places():
    """Ranks: digits in a row, wrong totals, wrong letters, too few and too many."""
    ranks = (b"8", b"44", b"53", b"35", b"71", b"17", b"11111111", b"1111111", b"111111111", b"2222", b"242", b"0",
             b"08", b"80", b"9", b"18", b"81", b"7", b"6", b"88", b"4k3", b"3k3", b"5k3", b"4k4", b"k7", b"7k", b"8k",
             b"k8", b"pppppppp", b"ppppppp", b"ppppppppp", b"p6p", b"p1p1p1p1", b"p1p1p1p", b"p1p1p1p2", b"", b"-",
             b"10", b"+8", b"4.3", b"4 3")
    for rank in ranks:
        for place in (0, 3, 7):
            listed = [b"8"] * 8
            listed[place] = rank
            yield b"/".join(listed) + b" w;1/2-1/2"
    for count in (0, 1, 2, 6, 7, 8, 9, 10, 16):
        yield b"/".join([b"8"] * count) + b" b;0-1"
    for text in (b"/" + PAWN, PAWN + b"/", PAWN.replace(b"/", b"//", 1), PAWN.replace(b"/", b"\\"),
                 PAWN.replace(b"/", b""), PAWN.replace(b"/", b" / "), PAWN + b"\tw", b"8/8/8/8/8/8/8/8/8"):
        yield text + b" w;1-0"
    for letter in range(ord("A"), ord("z") + 1):
        yield b"8/8/8/8/8/8/8/4" + bytes([letter]) + b"3 w;1-0"


def runs():
    """Runs of empty squares before, between and behind letters (W-203): written whole, in two, in ones."""
    for run, front in ((run, front) for run in range(1, 9) for front in range(9 - run)):
        written = [str(run)] + [f"{part}{run - part}" for part in range(1, run)] + ["1" * run]
        for text in dict.fromkeys(written):
            listed = [b"1p1P1k1K"] + [b"8"] * 7
            listed[(run + front) % 8] = b"p" * front + text.encode() + b"K" * (8 - run - front)
            yield b"/".join(listed) + b" b;1-0"


def sides():
    for side in (b"w", b"b", b"W", b"B", b"-", b"", b"ww", b"wb", b"w-", b"w;", b"white", b"w\t", b"w\t-", b"w\r-",
                 b"w -", b"\tw", b"\rw", b"\t w", b"w  ", b"x", b"0", b"1", b"/", b"w/", b"w.", b"bw", b"b\t", b"b\r",
                 b"w\r\t ", b"- w"):
        for spaces in (1, 2, 9):
            yield START + b" " * spaces + side + b";1-0"
    yield from (START + b"\tw;1-0", START + b" \tw;1-0", START + b"\t w;1-0", START + b"w;1-0", START + b"\rw;1-0")


def results():
    for result in (b"1-0", b"0-1", b"1/2-1/2", b"1/2", b"1/2-1/2.", b"*", b"", b"1", b"0", b"0.5", b"1.0", b"2", b"1-1",
                   b"0-0", b"1 - 0", b"1- 0", b"1-0 0-1", b"1-O", b"l-0", b"1_0", b"+1-0", b"01-0", b"1-00", b"'1-0'",
                   b'"1-0"', b"[1.0]", b"c9 1-0", b"1-0\t\t", b"\t\r 1/2-1/2 \r\t", b"1/2 - 1/2", b"1/2-1/2-1/2",
                   b"1/2-0", b"0-1-", b"w", b"draw", "½-½".encode(), "1–0".encode(), "1−0".encode(), b"1-0\x0b",
                   b"\x0c1-0", "1-0\u00a0".encode(), "\u00851-0".encode(), "\u20281-0".encode(),
                   "\u30001-0".encode(), "\u200b1-0".encode(), "\ufeff1-0".encode()):
        yield PAWN + b" b;" + result
        yield PAWN + b" b ; " + result + b" ;rest"


def other_white_space():
    """White space that Unicode knows and 01 does not, around the position field; and bytes that are no UTF-8."""
    spaces = ("\u000b", "\u000c", "\u001c", "\u0085", "\u00a0", "\u1680", "\u2000", "\u2003", "\u2028", "\u2029",
              "\u202f", "\u205f", "\u3000", "\u200b", "\ufeff")
    for space in spaces:
        yield space.encode() + GOOD
        yield PAWN + b" w" + space.encode() + b";1-0"
        yield PAWN + space.encode() + b"w;1-0"
        yield GOOD + b";" + space.encode()
    for wrong in (b"\x80", b"\xc0\x80", b"\xff\xfe", b"\xed\xa0\x80", b"\xf5\x80\x80\x80", b"\xc3", b"\xe2\x82"):
        yield GOOD + b";" + wrong
        yield wrong


def broken_together():
    """Each choice of broken rules in one line: the first in 01's order must win."""
    choices = product((False, True), repeat=6)
    for long, byte, field, place, side, result in choices:
        ranks = b"9" + PAWN[1:] if place else PAWN
        line = ranks + (b" x" if side else b" w") + (b":" if field else b";") + (b"1/2" if result else b"1-0")
        line += b"\x7f" if byte else b""
        yield line.ljust(257) if long else line


def mutated(seed=SEED, count=MUTATED):
    """Good lines after one or two small changes at random places."""
    draws = stream(seed)
    alphabet = b"PNBRQKpnbrqk12345678/ wb;-01\t\r09\x00\xffx"
    goods = (GOOD, START + b" b;1/2-1/2", FULL + b" w;0-1", b" " + PAWN + b"  b - ; 1-0 ;note")
    for _ in range(count):
        line = bytearray(goods[next(draws) % len(goods)])
        for _ in range(1 + next(draws) % 2):
            place, byte = next(draws) % len(line), alphabet[next(draws) % len(alphabet)]
            kind = next(draws) % 4
            if kind == 0:
                line.insert(place, byte)
            elif kind == 1:
                del line[place]
            elif kind == 2:
                line[place] = byte
            else:
                line[place], line[-1 - place] = line[-1 - place], line[place]
        yield bytes(line)


def damaged(seed, count):
    """So many damaged lines of a seed, every other one of them a line of six fields before."""
    for pair in zip_longest(mutated(seed, count - count // 2), rest.mutated(seed, count // 2)):
        yield from (line for line in pair if line is not None)


def collection():
    """All lines, each once; the last has no LF and keeps its CR."""
    groups = (plain, ended, lengths, each_byte, fields, places, runs, sides, results, other_white_space, broken_together,
              mutated, *rest.GROUPS)
    lines = dict.fromkeys(line for group in groups for line in group())
    assert all(b"\n" not in line for line in lines)
    return b"".join(line + b"\n" for line in lines) + GOOD + b"\r"


def endings():
    """Whole inputs, each by itself: how the last line ends, and CR where it counts to the 256 bytes and where not."""
    long = GOOD.ljust(256)
    starts = (b"", GOOD, GOOD + b"\n", GOOD + b"\r\n", long, long[:-1], long + b" ", b";", b"x" * 257, b"\xff")
    tails = (b"", b"\n", b"\r", b"\r\n", b"\n\n", b"\r\r\n", b"\n\r", b"\r\n\r\n", b"\n" + GOOD, b"\r" + GOOD,
             b"\r\n" + GOOD + b"\r")
    return dict.fromkeys(start + tail for start in starts for tail in tails)
