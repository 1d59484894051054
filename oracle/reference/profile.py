"""Only positions from real play (02, W-212): the rules in their order, each over both colours before the next."""

from .attack import attackers
from .bitboard import scan
from .pieces import COLOURS, KING, PAWN, code
from .position import tested
from .refusal import CHECK, KINGS, PAWNS, PIECES, RANK, Refused, refuse_lowest, refuse_unless

MOST_PAWNS = 8
MOST_PIECES = 16


def number(bitboard):
    return bitboard.bit_count()


def pawns_at_ends(position):
    """The squares of the pawns, of either colour, that stand on the first or the last rank."""
    pawns = position.pieces(code(PAWN, 0)) | position.pieces(code(PAWN, 1))
    return [square for square in range(64) if square // 8 in (0, 7) and pawns >> square & 1]


def judge(position):
    """Refused by the first broken rule. The side that just moved is the one not to move; it has one king, or KINGS would have come."""
    refuse_unless(all(number(position.pieces(code(KING, colour))) == 1 for colour in COLOURS), KINGS)
    refuse_unless(all(number(position.pieces(code(PAWN, colour))) <= MOST_PAWNS for colour in COLOURS), PAWNS)
    refuse_unless(all(number(position.bitboards[colour]) <= MOST_PIECES for colour in COLOURS), PIECES)
    refuse_lowest(pawns_at_ends(position), RANK)
    king = scan(position.pieces(code(KING, 1 - position.side)))
    if attackers(position, king, position.occupied()) & position.bitboards[position.side]:
        raise Refused(CHECK, king)


def judge_position(position):
    """The call on a position: SHAPE and what is at odds come first."""
    tested(position)
    judge(position)
