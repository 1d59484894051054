"""Nasty lines for what follows the side (02, W-213): rights, the en passant square, both counters, how many fields there are, and two faults at once."""

import re
from itertools import combinations, permutations, product

from reference.seeded import stream

# All four rights have king and rook at home. A pawn has just passed d6, with White to move, or e3, with Black; then both together.
HOME = b"r3k2r/8/8/8/8/8/8/R3K2R"
PASSED = {b"w": b"4k3/8/8/3pP3/8/8/8/4K3", b"b": b"4k3/8/8/8/3pP3/8/8/4K3"}
BOTH = {b"w": b"r3k2r/8/8/3pP3/8/8/8/R3K2R", b"b": b"r3k2r/8/8/8/3pP3/8/8/R3K2R"}
SQUARE = {b"w": b"d6", b"b": b"e3"}
SEED = 6364136223846793005
MUTATED = 200


def line(*fields, result=b"1-0"):
    return b" ".join(fields) + b";" + result


def rights():
    """Every word of up to three of the letters, and all four in every order; then what is no such word, and every printable byte alone."""
    letters = [bytes([letter]) for letter in b"KQkq"]
    words = [b"".join(chosen) for length in (1, 2, 3) for chosen in product(letters, repeat=length)]
    words += [b"".join(chosen) for chosen in permutations(letters)]
    words += [b"-", b"--", b"-K", b"K-", b"KQ-", b"-KQkq", b"KQkq-", b"KQkqK", b"KQkqq", b"KKQkq", b"KQKQ", b"KQ/kq", b"KQ,kq", b"KQ kq", b"K Q k q", b"HAha",
              b"AHah", b"0", b"15", b"KQkq\tx", b"K\tQ", b"K\rQ", b"\tK", b"K\t", b"\t", b"\r", b"-\t", b"\t-", b"\r-", b"-\r", b"w", b"O-O"]
    yield from (line(HOME, b"wb"[place % 2:place % 2 + 1], word, b"-") for place, word in enumerate(words))
    yield from (line(HOME, b"b", word, b"-", b"7", b"31", result=b"0-1") for word in (b"-", b"K", b"Q", b"k", b"q", b"KQkq"))
    yield from (line(HOME, b"w", bytes([byte]), b"-", b"0", b"1") for byte in range(33, 127) if byte != ord(";"))


def rank(letters):
    """A rank of letters and ones, each run of ones as one digit."""
    return re.sub("1+", lambda run: str(len(run.group())), letters).encode()


def homes():
    """Each king and rook gone, of the other colour, another piece, with each right of its side and all; more kings and rooks, and pieces changed over."""
    for white, file, other in product((True, False), (0, 4, 7), "1NnRrKk"):
        own = "R111K11R" if white else "r111k11r"
        changed = rank(own[:file] + other + own[file + 1:])
        board = HOME[:-5] + changed if white else changed + HOME[5:]
        yield from (line(board, b"w", word, b"-", b"0", b"1") for word in ((b"K", b"Q") if white else (b"k", b"q")) + (b"KQkq",))
    for board in (b"R3K2R/8/8/8/8/8/8/r3k2r", b"r2k3r/8/8/8/8/8/8/R2K3R", b"r4k1r/8/8/8/8/8/8/R4K1R", b"r3k1r1/8/8/8/8/8/8/1R2K2R", b"4k3/8/8/8/8/8/8/4K3",
                  b"8/8/8/8/8/8/8/8",
                  b"r3k2r/r6r/8/8/8/8/R6R/R3K2R", b"r3k2r/4k3/8/8/8/8/4K3/R3K2R", b"rrrrkrrr/8/8/8/8/8/8/RRRRKRRR"):
        yield from (line(board, b"b", word, b"-", b"0", b"1", result=b"1/2-1/2") for word in (b"-", b"K", b"Q", b"k", b"q", b"KQkq"))


def squares():
    """Every square's name with either side to move; every file with a row of pawns; and what is no name."""
    for side, rank, file in product((b"w", b"b"), b"12345678", b"abcdefgh"):
        yield line(PASSED[side], side, b"-", bytes([file, rank]))
    for file in b"abcdefgh":
        yield line(b"4k3/8/8/pppppppp/8/8/8/4K3", b"w", b"-", bytes([file]) + b"6", b"0", b"2")
        yield line(b"4k3/8/8/8/PPPPPPPP/8/8/4K3", b"b", b"-", bytes([file]) + b"3", b"0", b"2")
    words = (b"--", b"d", b"6", b"6d", b"D6", b"d6d6", b"d66", b"dd6", b"-d6", b"d6-", b"d-6", b"i6", b"`6", b"d0", b"d9", b"d:", b"K", b"0", b"43", b"d\t6",
             b"d6\t",
             b"\td6", b"\t", b"\r", b"-\t", b"\r-", b"d\r6", b"d6.", b"d6,e3", b"?")
    yield from (line(PASSED[b"w"], b"w", b"-", word, b"0", b"1") for word in words)
    yield from (line(PASSED[b"w"], b"w", b"-", word) for word in words)


def passed():
    """The pawn missing, of the other colour, another piece, on the other side of the square; the square taken; and what is not asked about: where the pawn
    came from, and whether it can be taken."""
    white, black = ((b"w", b"d6"), (b"b", b"e3"))
    for board in (b"4k3/8/8/4P3/8/8/8/4K3", b"4k3/8/8/3PP3/8/8/8/4K3", b"4k3/8/8/3qP3/8/8/8/4K3", b"4k3/8/8/3nP3/8/8/8/4K3", b"4k3/3p4/8/4P3/8/8/8/4K3",
                  b"4k3/8/3p4/4P3/8/8/8/4K3",
                  b"4k3/8/3p4/3pP3/8/8/8/4K3", b"4k3/8/3P4/3pP3/8/8/8/4K3", b"4k3/8/3N4/3pP3/8/8/8/4K3", b"8/8/3k4/3pP3/8/8/8/4K3",
                  b"4k3/8/8/2p1P3/8/8/8/4K3", b"4k3/8/8/8/3pP3/8/8/4K3",
                  b"4k3/3p4/8/3pP3/8/8/8/4K3", b"4k3/3r4/8/3p4/8/8/8/4K3", b"8/8/8/3p4/8/8/8/8", b"4k3/8/8/3p4/8/8/8/3RK3"):
        yield line(board, *white[:1], b"-", *white[1:], b"0", b"9")
    for board in (b"4k3/8/8/8/3p4/8/8/4K3", b"4k3/8/8/8/3pp3/8/8/4K3", b"4k3/8/8/8/3pQ3/8/8/4K3", b"4k3/8/8/8/3pN3/8/8/4K3", b"4k3/8/8/8/3p4/8/4P3/4K3",
                  b"4k3/8/8/8/3p4/4P3/8/4K3",
                  b"4k3/8/8/8/3pP3/4p3/8/4K3", b"4k3/8/8/8/3pP3/4P3/8/4K3", b"4k3/8/8/8/3pP3/4n3/8/4K3", b"4k3/8/8/8/3pP3/4K3/8/8",
                  b"4k3/8/8/8/3p1P2/8/8/4K3", b"4k3/8/8/3pP3/8/8/8/4K3",
                  b"4k3/8/8/8/3pP3/8/4P3/4K3", b"4k3/8/8/8/4P3/8/4R3/4K3", b"8/8/8/8/4P3/8/8/8", b"4k3/4r3/8/8/4P3/8/8/4K3"):
        yield line(board, *black[:1], b"-", *black[1:], b"0", b"9")
    for side, other in ((b"w", b"b"), (b"b", b"w")):
        yield line(PASSED[side], other, b"-", SQUARE[side])
        yield line(PASSED[side], other, b"-", SQUARE[other])
        yield line(PASSED[side], other, b"-", SQUARE[side], b"0", b"1")
        yield line(BOTH[side], side, b"KQkq", SQUARE[side])
        yield line(BOTH[side], side, b"Kq", SQUARE[side], b"0", b"1")
        yield line(BOTH[side], other, b"KQkq", SQUARE[side], b"0", b"1")


def counters():
    """Each text as either counter, the other good; both at their bounds."""
    words = (b"0", b"1", b"9", b"10", b"99", b"100", b"999", b"1000", b"9998", b"9999", b"10000", b"10001", b"99999", b"00", b"01", b"000", b"010", b"0000",
             b"0001", b"09999", b"65535", b"65536",
             b"65537", b"131073", b"4294967297", b"18446744073709551616", b"18446744073709551617", b"+1", b"+0", b"-1", b"-0", b"-", b"1a", b"a1", b"a",
             b"1-", b"1.", b"1.0", b"1,0", b"0x1", b"1e3",
             b"1_0", b"1\t", b"\t1", b"1\t2", b"1\r2", b"\r1", b"/", b":", b"1/", b"1:", b"w", b"K", b"'1'")
    for word in words:
        yield line(PASSED[b"b"], b"b", b"-", b"e3", word, b"1")
        yield line(PASSED[b"b"], b"b", b"-", b"e3", b"0", word)
    for halfmoves, moves in product((b"0", b"9999"), (b"1", b"9999")):
        yield line(BOTH[b"w"], b"w", b"KQkq", b"d6", halfmoves, moves, result=b"1/2-1/2")
    yield from (line(PASSED[b"w"], b"w", b"-", b"-", word, word) for word in (b"00", b"10000", b"x"))


def counts():
    """From one field to nine, good ones and not; spaces, tabs and CRs between them; what EPD puts behind its four fields."""
    fields = (BOTH[b"w"], b"w", b"KQkq", b"d6", b"5", b"17", b"x", b"y", b"z")
    yield from (line(*fields[:count]) for count in range(1, 10))
    yield from (line(*fields[:count], b"") for count in range(1, 8))
    for count, parting in product((2, 3, 4, 5, 6, 7), (b"  ", b"         ", b"\t", b" \t", b"\t ", b" \t ", b" \r ")):
        yield parting.join(fields[:count]) + b";1-0"
        yield parting.join(fields[:count]) + b" \t ; 1-0"
    for place in range(1, 6):
        yield b" ".join(fields[:place]) + b"   " + b" ".join(fields[place:6]) + b";0-1"
        yield b" ".join(fields[:place]) + b" \t " + b" ".join(fields[place:6]) + b";0-1"
    for rest in (b"bm Nf3", b"bm Nf3; id \"a\"", b"hmvc 0", b"hmvc 0; fmvn 1", b"0 1 bm Nf3", b"0 1 x", b"0 1 0 1", b"0 1 1-0", b"pv", b"c0 \"1-0\"",
                 b"0 1 c9 \"1-0\"", b"acd 12", b"1-0", b"0", b"1", b"0 1 2"):
        for word in (b"-", b"KQkq"):
            yield line(HOME, b"w", word, b"-", rest)
    yield from (line(HOME, b"b", word) for word in (b"-", b"K", b"KQkq", b"QK", b"x", b"e3", b"0"))
    yield from (line(HOME, b"b", word, b"-", b"0") for word in (b"-", b"KQkq", b"QK"))
    yield from (line(HOME, b"b", word, b"-", b"0", b"1", b"2") for word in (b"-", b"KQkq", b"QK"))


# How each rule can be broken: of which kind, at which place of `broken`, and what stands there; `None` leaves the field out with all that follow.
FAULTS = (
    ("place", 0, b"r3k2r/8/8/3pP3/8/8/8/R3K1R"), ("side", 1, b"W"),
    ("rights", 2, b"QK"), ("rights", 2, b"KQkqK"), ("home", 0, b"r3k2r/8/8/3pP3/8/8/8/R3K1R1"),
    ("passant", 3, None), ("passant", 3, b"d9"), ("passant", 3, b"d5"), ("passant", 3, b"e6"),
    ("counter", 5, None), ("counter", 6, b"2"), ("counter", 4, b"00"), ("counter", 4, b"10000"), ("counter", 5, b"0"), ("counter", 5, b"1a"),
    ("result", 7, b"1/2"), ("field", 8, b":"), ("byte", 9, b"\x7f"), ("long", 10, b" " * 225),
)


def broken(faults):
    """The line of six good fields, and no seventh, with these faults; after the fields stand `;`, the result, an odd byte and spaces."""
    fields = [BOTH[b"w"], b"w", b"KQkq", b"d6", b"0", b"1", b"", b"1-0", b";", b"", b""]
    for _, place, word in faults:
        fields[place] = word
    left_out = next((place for _, place, word in faults if word is None), 7)
    return b" ".join(word for word in fields[:left_out] if word) + fields[8] + fields[7] + fields[9] + fields[10]


def fit_together(first, second):
    """Of different kinds, at different places, and neither in a field that the other leaves out."""
    (one, place, word), (other, later, later_word) = first, second
    return one != other and place != later and not (word is None and place < later < 7) and not (later_word is None and later < place < 7)


def together():
    """Each fault alone, every two of different kinds, and every choice among five kinds at once: the first in order wins."""
    yield from (broken([fault]) for fault in FAULTS)
    yield from (broken(pair) for pair in combinations(FAULTS, 2) if fit_together(*pair))
    few = [next(fault for fault in FAULTS if fault[0] == kind and fault[2] is not None) for kind in ("side", "rights", "passant", "counter", "result")]
    yield from (broken([fault for fault, chosen in zip(few, choice) if chosen]) for choice in product((False, True), repeat=5))


def lengths():
    """The longest lines that are written back, 99 bytes; a line of 255, 256 and 257 bytes, filled wherever spaces are allowed, and after the result."""
    for ranks, side, square in ((b"qqq1qqqq/QQQpQQQQ/QQQQQQQQ/QQQQQQQQ", b"w", b"d6"), (b"qqqqqqqq/qqqqqqqq/qqqPqqqq/QQQ1QQQQ", b"b", b"d3")):
        yield line(b"rqqqkqqr/qqqqqqqq/" + ranks + b"/QQQQQQQQ/RQQQKQQR", side, b"KQkq", square, b"9999", b"9999", result=b"1/2-1/2")
    fields = (BOTH[b"b"], b"b", b"Kkq", b"e3", b"42", b"1234")
    whole = line(*fields)
    for length in (255, 256, 257):
        spaces = b" " * (length - len(whole))
        yield from (b" ".join(fields[:place]) + spaces + b" " + b" ".join(fields[place:]) + b";1-0" for place in range(1, 6))
        yield spaces + whole
        yield b" ".join(fields) + spaces + b";1-0"
        yield whole + b";" + spaces[1:]
        yield b" ".join(fields[:5]) + b" " + b"0" * (length - len(whole)) + b"1234;1-0"


def mutated(seed=SEED, count=MUTATED):
    """Lines of six good fields after one or two small changes, most of them behind the ranks."""
    draws = stream(seed)
    alphabet = b"KQkq-abcdefgh12345678 wb;09/\t\rx"
    goods = (line(BOTH[b"w"], b"w", b"KQkq", b"d6", b"0", b"1"), line(BOTH[b"b"], b"b", b"Qk", b"e3", b"99", b"100"),
             line(HOME, b"w", b"KQ", b"-", b"9999", b"9999", result=b"0-1"),
             line(PASSED[b"w"], b"w", b"-", b"d6", result=b"1/2-1/2"), line(HOME, b"b", b"kq", b"-"))
    for _ in range(count):
        changed = bytearray(goods[next(draws) % len(goods)])
        for _ in range(1 + next(draws) % 2):
            ranks = changed.find(b" ") + 1 if next(draws) % 4 else 0
            place, byte = ranks + next(draws) % (len(changed) - ranks), alphabet[next(draws) % len(alphabet)]
            kind = next(draws) % 4
            if kind == 0:
                changed.insert(place, byte)
            elif kind == 1:
                del changed[place]
            elif kind == 2:
                changed[place] = byte
            else:
                changed[place], changed[-1] = changed[-1], changed[place]
        yield bytes(changed)


GROUPS = (rights, homes, squares, passed, counters, counts, together, lengths, mutated)
