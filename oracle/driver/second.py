"""Questions in the second exchange mode (02, W-213): en passant, promotion by the first capture and by later ones, in every order; some in both modes."""

from .orders import NO_ORDERS, ORDERS, QUEENS, THIRTY_TWO, WHITE_TAKES, text
from .refusals import THIRTY_THREE

USUAL = "012345"
BISHOPS_FIRST = "021345"

# Both sides attack the en passant square by all six kinds, sliders behind the pawn that takes and behind the one that is taken: d6 for White, d3 for Black.
PASSING = (("3r1b2/2pqpn2/2k1K3/2PpP3/2N5/6B1/3R4/3Q4 w - d6 0 1;1-0", (36, 34), 43),
           ("3q4/3r4/6b1/2n5/2pPp3/2K1k3/2PQPN2/3R1B2 b - d3 0 1;0-1", (28, 26), 19))
# Two pawns, a knight and a queen may begin on the last rank, and pawns come later, too: d8 for White, d1 for Black.
PROMOTING = (("2Knk2r/1nP1P3/4N3/b5q1/7B/8/3Q4/3R4 w - - 0 1;1-0", (50, 52, 44, 11), 59),
             ("3r4/3q4/8/7b/B5Q1/4n3/1Np1p3/2kNK2R b - - 0 1;0-1", (10, 12, 20, 51), 3))
FOUR = (PASSING[0], PROMOTING[0], PASSING[1], PROMOTING[1])

# A capture each: start, target, position.
PASSED = (
    # taken back by a pawn, with a rook behind the pawn that is taken; the same for Black
    (36, 43, "4k3/2p5/8/3pP3/8/8/8/3RK3 w - d6 0 1;1-0"), (28, 19, "3rk3/8/8/8/3Pp3/8/2P5/4K3 b - d3 0 1;1-0"),
    # nobody takes back; the pawn that takes uncovers a bishop; the pawn that is taken uncovers a rook of the other side, and a queen behind it
    (36, 43, "4k3/8/8/3pP3/8/8/8/4K3 w - d6 0 1;1-0"), (36, 43, "4k3/2p5/8/3pP3/8/6B1/8/4K3 w - d6 0 1;1-0"),
    (36, 43, "4k3/8/8/3pP3/8/8/3r4/4K3 w - d6 0 1;1-0"), (36, 43, "4k3/8/8/3pP3/8/8/3r4/3qK3 w - d6 0 1;1-0"),
    (27, 20, "4k3/4R3/8/8/3pP3/8/8/4K3 b - e3 0 1;1-0"), (27, 20, "4k3/4r3/8/8/3pP3/8/3P4/4K3 b - e3 0 1;1-0"),
    # on the edges, from either side; both neighbours may take
    (33, 40, "4k3/8/8/pP6/8/8/8/4K3 w - a6 0 1;1-0"), (38, 47, "4k3/8/8/6Pp/8/8/8/4K3 w - h6 0 1;1-0"), (25, 16, "4k3/8/8/8/Pp6/8/8/4K3 b - a3 0 1;1-0"),
    (30, 23, "4k3/8/8/8/6pP/8/8/4K3 b - h3 0 1;1-0"), (34, 43, "4k3/4p3/8/2PpP3/8/8/8/4K3 w - d6 0 1;1-0"),
    (36, 43, "4k3/4p3/8/2PpP3/8/8/8/4K3 w - d6 0 1;1-0"),
    # a king takes back, and may not well
    (36, 43, "8/8/2k5/3pP3/8/8/8/4K3 w - d6 0 1;1-0"), (36, 43, "8/8/2k5/2PpP3/8/8/8/4K3 w - d6 0 1;1-0"),
    # another capture where there is an en passant square: what has passed stays
    (36, 45, "4k3/8/5n2/3pP3/8/8/3r4/4K3 w - d6 0 1;1-0"), (28, 35, "4k3/8/8/3pP3/4P3/8/8/3rK3 w - d6 0 1;1-0"),
)
NOT_PASSED = (
    # no pawn, a pawn that does not attack the square, none of the side to move, none at all, the passed pawn's own square, no en passant square
    (28, 43, "4k3/8/8/3pP3/4N3/8/8/4K3 w - d6 0 1;1-0"), (44, 43, "4k3/8/4K3/3pP3/8/8/8/8 w - d6 0 1;1-0"),
    (19, 43, "4k3/8/8/4p3/8/3Q4/8/4K3 w - e6 0 1;1-0"), (22, 43, "4k3/8/8/3p4/8/6B1/8/4K3 w - d6 0 1;1-0"),
    (33, 43, "4k3/8/8/1P1p4/8/8/8/4K3 w - d6 0 1;1-0"), (28, 43, "4k3/8/8/3p4/4P3/8/8/4K3 w - d6 0 1;1-0"),
    (50, 43, "4k3/2p5/8/3pP3/8/8/8/4K3 w - d6 0 1;1-0"), (37, 43, "4k3/8/8/3pP3/8/8/8/4K3 w - d6 0 1;1-0"),
    (36, 35, "4k3/8/8/3pP3/8/8/8/4K3 w - d6 0 1;1-0"), (36, 43, "4k3/8/8/3pP3/8/8/8/4K3 w - - 0 1;1-0"), (36, 43, "4k3/8/8/3pP3/8/8/8/4K3 w;1-0"),
    (36, 45, "4k3/8/8/3pPp2/8/8/8/4K3 w - d6 0 1;1-0"),
    (43, 36, "4k3/8/8/3pP3/8/8/8/4K3 w - d6 0 1;1-0"),
)
PROMOTED = (
    # the first capture, taken back and not; a later one; two of them; the same for Black
    (48, 57, "1nk5/P7/8/8/8/8/8/4K3 w - - 0 1;1-0"), (48, 57, "1n5k/P7/8/8/8/8/8/4K3 w - - 0 1;1-0"), (1, 57, "1n1r3k/P7/8/8/8/8/8/1Q2K3 w - - 0 1;1-0"),
    (48, 57, "1n1r3k/P1P5/8/8/8/8/8/4K3 w - - 0 1;1-0"),
    (8, 1, "4k3/8/8/8/8/8/p7/1NK5 b - - 0 1;1-0"), (8, 1, "4k3/8/8/8/8/8/p7/1N5K b - - 0 1;1-0"), (57, 1, "1q2k3/8/8/8/8/8/p7/1N1R3K b - - 0 1;1-0"),
    (8, 1, "4k3/8/8/8/8/8/p1p5/1N1R3K b - - 0 1;1-0"),
    # every kind taken on the last rank, a pawn there among them; a king takes the queen and is taken by a pawn that becomes one
    *((48, 57, f"1{taken}6/P7/8/8/8/8/8/k3K3 w;1-0") for taken in "pnbrq"), (48, 57, "1k6/P7/8/8/8/8/8/4K3 w;1-0"), (48, 57, "1nk5/P1P5/8/8/8/8/8/4K3 w;1-0"),
    # a capture by another kind on the last rank, by a pawn on the rank before it, and pawns that stand on end ranks
    (1, 57, "1n6/8/8/8/8/8/8/1R2K2k w;1-0"), (40, 49, "2k5/1n6/P7/8/8/8/8/4K3 w;1-0"), (16, 9, "4k3/8/8/8/8/p7/1N6/2K5 b;1-0"),
    (0, 9, "4k3/8/8/8/8/8/1n6/P3K3 w;1-0"), (56, 49, "p3k3/1N6/8/8/8/8/8/4K3 b;1-0"),
    # a pawn that may take last is not wanted: the exchange stops before it, or after it
    (59, 57, "1n1R3k/P7/8/8/8/8/8/1r2K3 w;1-0"), (59, 57, "1n1Rr2k/P7/8/8/8/8/8/1r2K3 w;1-0"),
)


def asked(capture, order=USUAL):
    """A capture in both modes: what it is worth, and its captures."""
    start, target, position = capture
    yield from (f"{word} {order} {start} {target} {position}" for word in ("see_second", "see_by", "captures_second"))


def of_captures():
    for capture in (*PASSED, *NOT_PASSED, *PROMOTED):
        yield from asked(capture)
    for position, starts, target in FOUR:
        for start in starts:
            yield from asked((start, target, position))
            yield from asked((start, target, position), BISHOPS_FIRST)
    # Exchanges without a pawn at the end are worth the same in both modes.
    yield from asked((11, 28, THIRTY_TWO))
    yield from asked((3, 35, QUEENS))
    yield from asked((27, 36, WHITE_TAKES))


def of_orders():
    """Every order, of either side in turn, with en passant and with promotion in turn and by each start; every fourth with its captures."""
    for place, order in enumerate(ORDERS):
        position, starts, target = FOUR[place % 4]
        yield f"see_second {text(order)} {starts[place // 4 % len(starts)]} {target} {position}"
    for place, order in enumerate(ORDERS[1::4]):
        position, starts, target = FOUR[place % 4]
        yield f"captures_second {text(order)} {starts[place // 4 % len(starts)]} {target} {position}"


def of_refusals():
    """SQUARE, ORDER, MOVE, CROWD in this mode, and the first in order of two."""
    position, starts, target = PASSING[0]
    for order in NO_ORDERS[:4]:
        yield f"see_second {order} {starts[0]} {target} {position}"
        yield f"see_second {order} 64 {target} {position}"
        yield f"see_second {order} {starts[0]} 255 {position}"
        yield f"captures_second {order} 0 {target} {position}"
    yield f"see_second {USUAL} 64 {target} {position}"
    yield f"see_second {USUAL} 11 28 {THIRTY_THREE}"
    crowded = ("4k2k/8/8/3pP3/8/8/8/4K3 w - d6 0 1;1-0", "4k3/8/8/3pP3/8/8/8/K3K3 w - d6 0 1;1-0",
               "rnbqkbnr/pppppppp/8/3pP3/8/8/PPPPPPPP/RNBQKBNR w KQkq d6 0 3;1-0")
    for one in crowded:
        yield f"see_second {USUAL} 36 43 {one}"
        yield f"see_second {USUAL} 36 35 {one}"
        yield f"captures_second 012344 36 43 {one}"
        yield f"captures_second {USUAL} 36 43 {one}"
    # 32 pieces, and the passed pawn among them.
    yield from asked((36, 43, "rnbqkbnr/ppp1pppp/8/3pP3/8/8/PPPP1PPP/RNBQKBNR w KQkq d6 0 3;1-0"))


def questions():
    return list(dict.fromkeys((*of_captures(), *of_orders(), *of_refusals())))
