"""The line of a position (02, W-202), all six fields of it (W-213), and a collection written back in it."""

import sys

from .line import HALF_POINTS, RIGHTS_OF, SIDES, SQUARE_OF, lines_of, read_line
from .pieces import EMPTY, LETTERS
from .refusal import Refused

LETTER = {piece: letter for letter, piece in LETTERS.items()}
SIDE, RESULT, RIGHTS, SQUARE = ({said: word for word, said in words.items()} for words in (SIDES, HALF_POINTS, RIGHTS_OF, SQUARE_OF))


def rank_text(codes):
    """A rank from file a on, each run of empty squares as one digit."""
    text = "".join(" " if code == EMPTY else LETTER[code] for code in codes)
    for run in range(8, 0, -1):
        text = text.replace(" " * run, str(run))
    return text


def position_text(board, state):
    """Six fields with one space between them."""
    ranks = "/".join(rank_text(board[first:first + 8]) for first in range(56, -1, -8))
    counters = (str(counter).encode() for counter in (state.halfmoves, state.moves))
    return b" ".join((ranks.encode(), SIDE[state.side], RIGHTS[state.rights], SQUARE[state.passant], *counters))


def line_text(board, state, half_points):
    return position_text(board, state) + b";" + RESULT[half_points]


def ended_line(board, state, half_points):
    return line_text(board, state, half_points) + b"\n"


def sifted(pieces, read, make):
    """What is made of each piece that is loaded; and the rows of the others with the ledger's last row."""
    made, rows, number = [], [], 0
    for number, piece in enumerate(pieces, 1):
        try:
            one = read(piece)
        except Refused as refused:
            rows.append(f"{number} refused {refused.number}\n")
            continue
        made.append(make(one.board, one.state, one.half_points))
    rows.append(f"lines {number} loaded {len(made)} refused {len(rows)}\n")
    return b"".join(made), "".join(rows)


def rewritten(collection):
    """Each loaded line in the one form, with LF."""
    return sifted(lines_of(collection), read_line, ended_line)


if __name__ == "__main__":
    written, told = rewritten(sys.stdin.buffer.read())
    sys.stdout.buffer.write(written)
    sys.stderr.write(told)
