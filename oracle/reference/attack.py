"""Steps, rays and attacks (01, "Steps, rays and square weights")."""

from .bitboard import scan
from .pieces import (BISHOP, BLACK, CODES, KIND_OF_CODE, KING, KNIGHT, PAWN, QUEEN, ROOK, WHITE, code)
from .position import tested
from .refusal import SHAPE, SQUARE, refuse_unless

STRAIGHT = ((0, 1), (0, -1), (1, 0), (-1, 0))
DIAGONAL = ((1, 1), (1, -1), (-1, 1), (-1, -1))
LEAPS = tuple((files, ranks) for files in (-2, -1, 1, 2) for ranks in (-2, -1, 1, 2) if abs(files) != abs(ranks))


def stepped(square, step):
    """The square a step away, or None where the step leaves the board."""
    file, rank = square % 8 + step[0], square // 8 + step[1]
    return 8 * rank + file if 0 <= file <= 7 and 0 <= rank <= 7 else None


def reached(square, steps):
    """Squares reached by the piece's steps without leaving the board."""
    targets = (stepped(square, step) for step in steps)
    return sum(1 << target for target in targets if target is not None)


def line(square, step):
    """The squares of a ray on an empty board, as single bits, nearest first."""
    bits = []
    square = stepped(square, step)
    while square is not None:
        bits.append(1 << square)
        square = stepped(square, step)
    return bits


KNIGHT_STEPS = [reached(square, LEAPS) for square in range(64)]
KING_STEPS = [reached(square, STRAIGHT + DIAGONAL) for square in range(64)]
PAWN_STEPS = [[reached(square, ((-1, ahead), (1, ahead))) for square in range(64)] for ahead in (1, -1)]
LINES = {kind: [[line(square, step) for step in steps] for square in range(64)]
         for kind, steps in ((ROOK, STRAIGHT), (BISHOP, DIAGONAL), (QUEEN, STRAIGHT + DIAGONAL))}


def rays(kind, square, occupied):
    """Each ray goes on up to and including the first occupied square."""
    attacks = 0
    for bits in LINES[kind][square]:
        for bit in bits:
            attacks |= bit
            if occupied & bit:
                break
    return attacks


def attacks_from(piece, square, occupied):
    kind = KIND_OF_CODE[piece]
    if kind == PAWN:
        return PAWN_STEPS[piece % 2][square]
    if kind == KNIGHT:
        return KNIGHT_STEPS[square]
    if kind == KING:
        return KING_STEPS[square]
    return rays(kind, square, occupied)


def attackers(position, square, occupied):
    """Pieces of both colours that attack the square: those that a piece like them would attack from there."""
    boards = position.bitboards
    straight, diagonal = rays(ROOK, square, occupied), rays(BISHOP, square, occupied)
    found = boards[code(PAWN, WHITE)] & PAWN_STEPS[BLACK][square] | boards[code(PAWN, BLACK)] & PAWN_STEPS[WHITE][square]
    reaches = ((KNIGHT, KNIGHT_STEPS[square]), (KING, KING_STEPS[square]), (ROOK, straight), (BISHOP, diagonal),
               (QUEEN, straight | diagonal))
    for kind, reach in reaches:
        found |= reach & (boards[code(kind, WHITE)] | boards[code(kind, BLACK)])
    return found


def piece_attacks(piece, square, occupied):
    refuse_unless(piece in CODES, SHAPE)
    refuse_unless(0 <= square <= 63, SQUARE)
    return attacks_from(piece, square, occupied)


def attacks_to(position, square, occupied):
    tested(position)
    refuse_unless(0 <= square <= 63, SQUARE)
    return attackers(position, square, occupied)


def is_attacked(position, square, colour):
    """Whether a piece of the colour other than the one named attacks the square."""
    tested(position, colour)
    refuse_unless(0 <= square <= 63, SQUARE)
    return attackers(position, square, position.occupied()) & position.bitboards[1 - colour] != 0


def is_check(position, colour):
    """With no king it is true; with several it looks at the lowest."""
    tested(position, colour)
    kings = position.pieces(code(KING, colour))
    return kings == 0 or is_attacked(position, scan(kings), colour)
