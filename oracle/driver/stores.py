"""A store of nasty records: every code on every square, every side and result, refusals together, and what the nasty lines say."""

from itertools import product

from reference.line import lines_of, read_line
from reference.refusal import Refused
from reference.seeded import stream
from reference.store import record

from . import nasty

BARE = [0] * 64
SEED = 2463534242
MUTATED = 600


def with_code(square, code):
    return [code if at == square else 0 for at in range(64)]


def each_code():
    yield from (record(with_code(square, code), square % 2, code % 3) for square, code in product(range(64), range(16)))


def each_end():
    """Every side and every result, alone and after a bad code; two bad codes, of which the lower is named."""
    yield from (record(BARE, side, 1) for side in range(256))
    yield from (record(BARE, 0, half_points) for half_points in range(256))
    for low, high, side, half_points in product((1, 14, 15), (1, 14, 15), (0, 2), (0, 3)):
        board = with_code(9, low)
        board[54] = high
        yield record(board, side, half_points)


def said():
    """The records of the nasty lines that are loaded, each once."""
    found = {}
    for line in lines_of(nasty.collection()):
        try:
            read = read_line(line)
        except Refused:
            continue
        found[record(read.board, read.side, read.half_points)] = None
    yield from found


def mutated():
    numbers = stream(SEED)
    good = list(said())
    for _ in range(MUTATED):
        one = bytearray(good[next(numbers) % len(good)])
        for _ in range(1 + next(numbers) % 3):
            one[next(numbers) % 34] = next(numbers) % 256
        yield bytes(one)
    for _ in range(MUTATED):
        yield record([(0, 0, 2, 3, 4, 5, 6, 7, 8, 9, 10, 11, 12, 13, 0, 0)[next(numbers) % 16] for _ in range(64)], next(numbers) % 2, next(numbers) % 3)


def store():
    """All of them, and a short last piece."""
    return b"".join(one for part in (each_code(), each_end(), said(), mutated()) for one in part) + bytes(33)
