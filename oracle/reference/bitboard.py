"""Bitboards: 64-bit numbers whose bit k stands for square k."""

from .refusal import SHAPE, SQUARE, refuse_unless

FULL = 2**64 - 1


def count(board):
    return board.bit_count()


def scan(board):
    """The lowest square; 64 of the empty bitboard."""
    return (board & -board).bit_length() - 1 if board else 64


def squares(board):
    """The squares of a bitboard from the lowest up."""
    found = []
    while board:
        found.append(scan(board))
        board &= board - 1
    return found


def shift(by, board):
    """Towards higher squares for a positive number, lower for a negative one; zero changes nothing."""
    refuse_unless(-63 <= by <= 63, SHAPE)
    return (board << by) & FULL if by >= 0 else board >> -by


def from_square(square):
    refuse_unless(0 <= square <= 63, SQUARE)
    return 1 << square


def get(square, board):
    return int(board & from_square(square) != 0)


def with_square(square, board):
    return board | from_square(square)


def toggled(square, board):
    return board ^ from_square(square)


def without_square(square, board):
    return board & ~from_square(square)


def next_square(board):
    """The lowest square and the bitboard without it; None of the empty one."""
    if board == 0:
        return None
    return scan(board), board & (board - 1)
