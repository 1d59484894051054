"""A collection packed into a store (02, W-205), and with `back` a store unpacked into lines: python3 -m reference.pack [back]"""

import sys

from .line import lines_of, read_line
from .store import pieces_of, read_piece, record
from .writer import ended_line, sifted


def packed(collection):
    """The record of each loaded line: pieces, side and half points, and nothing else of it."""
    return sifted(lines_of(collection), read_line, lambda board, state, half_points: record(board, state.side, half_points))


def unpacked(store):
    """The line of each record that is loaded: no rights, no square, counters 0 and 1."""
    return sifted(pieces_of(store), read_piece, ended_line)


if __name__ == "__main__":
    written, told = (unpacked if sys.argv[1:] == ["back"] else packed)(sys.stdin.buffer.read())
    sys.stdout.buffer.write(written)
    sys.stderr.write(told)
