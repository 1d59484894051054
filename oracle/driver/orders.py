"""Questions with an order of the kinds (02, W-206, W-207): every one of the 720, and what is no order."""

from itertools import permutations

from reference.answers import position_of
from reference.attack import attackers
from reference.pieces import KINDS

from .refusals import KINGS_AND_PAWN, THIRTY_THREE, TWO_KINGS

# Each side attacks e5 by all six kinds, a rook behind the queen; White to take a knight there, Black a rook.
WHITE_TAKES = "4r3/2b1q3/2n2p2/3Knk2/3P4/5NB1/4Q3/4R3 w;1-0"
BLACK_TAKES = "4r3/2b1q3/2n2p2/3KRk2/3P4/5NB1/4Q3/4R3 b;0-1"
WHITE_STARTS = (27, 21, 22, 12, 35)
BLACK_STARTS = (45, 42, 50, 52, 37)
# 32 pieces and 31 captures on e4, in document 01's order.
THIRTY_TWO = "Q3q3/1Q2q2Q/3nrn2/2nQRqN1/r1qQqRqQ/2NQqbn1/2bNQNQ1/4Q2q w;1-0"
QUEENS = "6k1/1b6/5n2/3p4/4P3/8/8/3Q2K1 w;1-0"
E5 = 36

ORDERS = list(permutations(KINDS))
# A kind twice at each place and each left out; kinds past the king.
NO_ORDERS = ["001234", "012344", "012340", "112345", "000000", "555555", "012346", "612345", "012395", "999999"]


def text(order):
    return "".join(map(str, order))


def of_exchanges():
    """Every order on some capture, of either side in turn and by each start; every fifth on the longest exchange."""
    for place, order in enumerate(ORDERS):
        starts, position = ((WHITE_STARTS, WHITE_TAKES), (BLACK_STARTS, BLACK_TAKES))[place % 2]
        yield f"see_by {text(order)} {starts[place % 5]} {E5} {position}"
        if place % 5 == 0:
            yield f"see_by {text(order)} 11 28 {THIRTY_TWO}"
    for order in ((0, 1, 2, 3, 4, 5), (0, 2, 1, 3, 4, 5)):
        yield f"see_by {text(order)} 3 35 {QUEENS}"


def of_least_attackers():
    """Every order, of either colour, with fewer and fewer attackers still there."""
    position = position_of(WHITE_TAKES)
    attacks = attackers(position, E5, position.occupied())
    for place, order in enumerate(ORDERS):
        gone = sum(1 << square for square in (*WHITE_STARTS, *BLACK_STARTS)[: place % 7])
        yield f"lvp_by {text(order)} {place % 2} {attacks} {position.occupied() & ~gone} {WHITE_TAKES}"


def of_captures():
    """Every fourth order on either side's captures; the longest exchange; exchanges that stop at once, at zero, and never."""
    for place, order in enumerate(ORDERS[::4]):
        starts, position = ((WHITE_STARTS, WHITE_TAKES), (BLACK_STARTS, BLACK_TAKES))[place % 2]
        yield f"captures {text(order)} {starts[place % 5]} {E5} {position}"
    for order in ("012345", "021345", "543210"):
        yield f"captures {order} 11 28 {THIRTY_TWO}"
        yield f"captures {order} 3 35 {QUEENS}"
        yield f"captures {order} 27 {E5} 4r3/4q3/8/4n3/3P4/8/8/4R3 w;1-0"
        yield f"captures {order} 12 {E5} 4r3/8/8/4p3/8/8/4R3/4R3 w;1-0"
        yield f"captures {order} 4 {E5} 4k3/8/8/4p3/8/8/8/4R3 w;1-0"


def of_no_orders():
    """ORDER: after SHAPE and SQUARE, before MOVE and CROWD."""
    for order in NO_ORDERS:
        yield f"see_by {order} 27 {E5} {WHITE_TAKES}"
        yield f"see_by {order} 64 {E5} {WHITE_TAKES}"
        yield f"see_by {order} 27 64 {WHITE_TAKES}"
        yield f"see_by {order} 0 {E5} {WHITE_TAKES}"
        yield f"see_by {order} 4 {E5} {TWO_KINGS}"
        yield f"see_by {order} 11 28 {THIRTY_THREE}"
        yield f"captures {order} 27 {E5} {WHITE_TAKES}"
        yield f"captures {order} 64 {E5} {WHITE_TAKES}"
        yield f"lvp_by {order} 0 0 0 {KINGS_AND_PAWN}"
        yield f"lvp_by {order} 2 0 0 {KINGS_AND_PAWN}"
    for start, position in ((0, WHITE_TAKES), (4, TWO_KINGS)):
        yield f"see_by 543210 {start} {E5} {position}"
        yield f"captures 543210 {start} {E5} {position}"


def questions():
    return [*of_exchanges(), *of_least_attackers(), *of_captures(), *of_no_orders()]
