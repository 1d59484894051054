"""The trace and its exact sum (01, "The trace")."""

from .attack import attacks_from
from .bitboard import count, squares
from .pieces import BISHOP, BLACK, COLOURS, KING, KINDS, MOBILITY, PAIR, TEMPO, VALUE, WHITE, code
from .position import tested
from .square_weights import PST

COUNTED = [kind for kind in KINDS if kind != KING]
ENTRIES = 768
NUMBERS = 26


class Trace:
    """Counts by kind and colour, pair flags, mobility by kind and colour, 768 entries, side, piece count."""

    def __init__(self):
        self.counts = [[0, 0] for _ in COUNTED]
        self.pairs = [0, 0]
        self.mobility = [[0, 0] for _ in KINDS]
        self.entries = [0] * ENTRIES
        self.side = 1
        self.pieces = 0


def flattened(trace):
    """All numbers in the order of oracle/README.md: counts, pair flags, mobility, side, piece count, entries."""
    pairs = trace.counts + [trace.pairs] + trace.mobility
    return [number for pair in pairs for number in pair] + [trace.side, trace.pieces] + trace.entries


def unflattened(numbers):
    """The trace of such a list."""
    pairs = [numbers[place:place + 2] for place in range(0, NUMBERS - 2, 2)]
    trace = Trace()
    trace.counts, trace.pairs, trace.mobility = pairs[:5], pairs[5], pairs[6:]
    trace.side, trace.pieces = numbers[NUMBERS - 2:NUMBERS]
    trace.entries = numbers[NUMBERS:]
    return trace


def entry_place(kind, square, colour):
    return 128 * kind + 2 * square + colour


def weight_place(kind, phase, square):
    return 128 * kind + 64 * phase + square


def compute_trace(position):
    tested(position)
    trace = Trace()
    occupied = position.occupied()
    for colour in COLOURS:
        for kind in KINDS:
            piece = code(kind, colour)
            pieces = position.pieces(piece)
            if kind in COUNTED:
                trace.counts[kind][colour] = count(pieces)
            for square in squares(pieces):
                seen = square ^ 56 if colour == BLACK else square
                trace.entries[entry_place(kind, seen, colour)] = 1
                trace.mobility[kind][colour] += count(attacks_from(piece, square, occupied))
        trace.pairs[colour] = 1 if trace.counts[BISHOP][colour] >= 2 else 0
    trace.side = 1 if position.side == WHITE else -1
    trace.pieces = count(occupied)
    return trace


def shipped_squares():
    """For each kind, phase and square the PST number of the white piece there."""
    weights = [0] * ENTRIES
    for kind in KINDS:
        for phase in range(2):
            for square in range(64):
                weights[weight_place(kind, phase, square)] = PST[code(kind, WHITE)][square][phase]
    return weights


SHIPPED_SQUARES = shipped_squares()


def exact_sum(trace):
    """In thirtieths, White's side, with the shipped weights."""
    total = 0
    for kind in COUNTED:
        total += 30 * VALUE[kind] * (trace.counts[kind][WHITE] - trace.counts[kind][BLACK])
    total += 30 * PAIR * (trace.pairs[WHITE] - trace.pairs[BLACK])
    total += 30 * TEMPO * trace.side
    for kind in KINDS:
        total += 3 * MOBILITY[kind] * (trace.mobility[kind][WHITE] - trace.mobility[kind][BLACK])
    x = trace.pieces
    for place, entry in enumerate(trace.entries):
        if entry:
            kind, square, colour = place // 128, place % 128 // 2, place % 2
            opening = SHIPPED_SQUARES[weight_place(kind, 0, square)]
            ending = SHIPPED_SQUARES[weight_place(kind, 1, square)]
            part = opening * (x - 2) + ending * (32 - x)
            total += part if colour == WHITE else -part
    return total
