"""What a position has beside its pieces (02, W-213): side, castling rights, en passant square, both counters; and the rule that it meets."""

from .pieces import BLACK, EMPTY, KING, PAWN, ROOK, WHITE, code
from .refusal import COUNTER, PASSANT, RIGHTS, refuse_unless

MOST = 9999
NO_RIGHTS = (False, False, False, False)
# Whose each right is, and where its king and its rook are at home: K, Q, k, q.
HOMES = ((WHITE, 4, 7), (WHITE, 4, 0), (BLACK, 60, 63), (BLACK, 60, 56))


class State:
    """What is not given is no rights, no square, counters 0 and 1. `passant` is a square or None."""

    def __init__(self, side, rights=NO_RIGHTS, passant=None, halfmoves=0, moves=1):
        self.side = side
        self.rights = tuple(rights)
        self.passant = passant
        self.halfmoves = halfmoves
        self.moves = moves


def at_home(rights, board):
    """A right needs its king and rook at home."""
    return all(board[king] == code(KING, colour) and board[rook] == code(ROOK, colour)
               for right, (colour, king, rook) in zip(rights, HOMES) if right)


def just_passed(passant, side, board):
    """No square; or it is empty, on rank 6 with White to move, a black pawn just below it, or on rank 3 with Black to move, a white pawn just above."""
    if passant is None:
        return True
    rank = 6 if side == WHITE else 3
    return passant // 8 == rank - 1 and board[passant] == EMPTY and board[passed(passant, side)] == code(PAWN, 1 - side)


def passed(passant, side):
    """The square of the pawn that went over the en passant square: below it with White to move, above with Black."""
    return passant - 8 if side == WHITE else passant + 8


def counted(halfmoves, moves):
    return 0 <= halfmoves <= MOST and 1 <= moves <= MOST


def judge_state(state, board):
    """RIGHTS, PASSANT, COUNTER, of a board that is consistent by itself."""
    refuse_unless(at_home(state.rights, board), RIGHTS)
    refuse_unless(just_passed(state.passant, state.side, board), PASSANT)
    refuse_unless(counted(state.halfmoves, state.moves), COUNTER)
