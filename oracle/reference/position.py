"""A position: 14 bitboards, 64 board bytes, a state; and the test of its consistency, 01's and what 02's W-213 adds."""

from .pieces import CODES, COLOURS, EMPTY
from .refusal import BYTEBOARD, OVERLAP, SHAPE, UNION, refuse_lowest, refuse_unless
from .state import judge_state


class Position:
    """What a caller lends; nothing is promised of it before it is tested."""

    def __init__(self, bitboards, board, state):
        self.bitboards = bitboards
        self.board = board
        self.state = state
        self.side = state.side

    def occupied(self):
        return self.bitboards[0] | self.bitboards[1]

    def pieces(self, code):
        return self.bitboards[code]


def placed(board, state):
    """The position that these board bytes make: consistent as far as pieces go."""
    bitboards = [0] * 14
    for square, piece in enumerate(board):
        if piece != EMPTY:
            bitboards[piece] |= 1 << square
            bitboards[piece % 2] |= 1 << square
    return Position(bitboards, list(board), state)


def has_shape(position):
    return len(position.bitboards) == 14 and len(position.board) == 64 and position.side in COLOURS


def overlapping(position):
    """The squares that two or more of the twelve piece boards have."""
    return [square for square in range(64) if sum(position.bitboards[code] >> square & 1 for code in CODES) > 1]


def split(position):
    """The squares at which a colour's board is not the union of its pieces', White's or Black's."""
    wrong = 0
    for colour in COLOURS:
        union = 0
        for code in CODES:
            if code % 2 == colour:
                union |= position.bitboards[code]
        wrong |= union ^ position.bitboards[colour]
    return [square for square in range(64) if wrong >> square & 1]


def disagreeing(position):
    """The squares whose byte does not name the piece whose bit is there."""
    return [square for square in range(64) if not byte_agrees(position, square)]


def byte_agrees(position, square):
    byte = position.board[square]
    if byte in CODES:
        return position.bitboards[byte] >> square & 1 == 1
    return byte == EMPTY and not any(position.bitboards[code] >> square & 1 for code in CODES)


def tested(position, *colours):
    """SHAPE, then OVERLAP, UNION, BYTEBOARD, each over all squares before the next, then RIGHTS, PASSANT, COUNTER: the first tests of every call."""
    refuse_unless(has_shape(position) and all(colour in COLOURS for colour in colours), SHAPE)
    refuse_lowest(overlapping(position), OVERLAP)
    refuse_lowest(split(position), UNION)
    refuse_lowest(disagreeing(position), BYTEBOARD)
    judge_state(position.state, position.board)
