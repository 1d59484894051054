"""A store of records (02, W-205): 34 bytes each, read by number and written; the ledger's rows for a store."""

import sys

from .ledger import shown
from .line import Line
from .pieces import CODES, EMPTY
from .position import Position, tested
from .refusal import ABSENT, CODE, LENGTH, RESULT, SHAPE, SIDE, Refused, refuse_lowest, refuse_unless
from .state import State

SIZE = 34


def record(board, side, half_points):
    """32 bytes of two squares each, the lower square in the low half, then side, then half points."""
    pairs = zip(board[::2], board[1::2])
    return bytes([low + 16 * high for low, high in pairs] + [side, half_points])


def read_piece(piece):
    """LENGTH, CODE with the lowest square, SIDE, RESULT. A record has no rights, square and counters (02, W-213)."""
    refuse_unless(len(piece) == SIZE, LENGTH)
    board = [half for byte in piece[:32] for half in (byte % 16, byte // 16)]
    refuse_lowest([square for square, code in enumerate(board) if code != EMPTY and code not in CODES], CODE)
    side, half_points = piece[32], piece[33]
    refuse_unless(side in (0, 1), SIDE)
    refuse_unless(half_points in (0, 1, 2), RESULT)
    return Line(board, State(side), half_points, None, None)


def read_record(run, number, bitboards=14, board=64):
    """SHAPE of what is lent, LENGTH of the run, ABSENT, and then what the record says."""
    refuse_unless(bitboards == 14 and board == 64, SHAPE)
    refuse_unless(len(run) % SIZE == 0, LENGTH)
    refuse_unless(number < len(run) // SIZE, ABSENT)
    return read_piece(run[SIZE * number:SIZE * (number + 1)])


def write_record(bitboards, board, state, half_points, place):
    """The position's tests, RESULT, LENGTH of the place; then the record."""
    tested(Position(bitboards, board, state))
    refuse_unless(half_points in (0, 1, 2), RESULT)
    refuse_unless(place == SIZE, LENGTH)
    return record(board, state.side, half_points)


def pieces_of(store):
    return [store[at:at + SIZE] for at in range(0, len(store), SIZE)]


def row(number, piece):
    """One piece's row, and whether it was loaded."""
    try:
        read = read_piece(piece)
    except Refused as refused:
        return f"{number} refused {refused.number}", False
    return f"{number} {read.half_points} {shown(read)}", True


def rows(store):
    """A row for each piece, numbered from 1, and the totals."""
    told = [row(number, piece) for number, piece in enumerate(pieces_of(store), 1)]
    loaded = sum(one[1] for one in told)
    told.append((f"lines {len(told)} loaded {loaded} refused {len(told) - loaded}", None))
    return "".join(text + "\n" for text, _ in told)


if __name__ == "__main__":
    sys.stdout.write(rows(sys.stdin.buffer.read()))
