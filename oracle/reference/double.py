"""The trace's double: eleven named weights and 768 square weights, one rounding for each operation.

01 says "in the source's order" and gives no other text for it, so the order below is the source's. Python's
floats are IEEE 754 doubles, rounded once an operation, to nearest with ties to even.
"""

from .pieces import BISHOP, BLACK, KNIGHT, MOBILITY, PAIR, QUEEN, ROOK, TEMPO, VALUE, WHITE
from .refusal import SHAPE, TRACE, refuse_unless
from .trace import COUNTED, ENTRIES, SHIPPED_SQUARES, weight_place

MOVERS = (KNIGHT, BISHOP, ROOK, QUEEN)


class Weights:
    """The eleven by name; the squares stand beside them."""

    def __init__(self, numbers):
        self.values = dict(zip(COUNTED, numbers[0:5]))
        self.pair = numbers[5]
        self.mobility = dict(zip(MOVERS, numbers[6:10]))
        self.tempo = numbers[10]


def shipped():
    """The score's own weights: 779 numbers, the eleven and then the squares."""
    eleven = [VALUE[kind] for kind in COUNTED] + [PAIR] + [MOBILITY[kind] for kind in MOVERS] + [TEMPO]
    return [float(weight) for weight in eleven + SHIPPED_SQUARES]


def within(number, highest):
    return 0 <= number <= highest


def in_ranges(trace):
    numbers = [count for pair in trace.counts for count in pair] + [trace.pieces]
    mobility = [number for pair in trace.mobility for number in pair]
    return (all(within(number, 64) for number in numbers) and all(within(number, 1728) for number in mobility)
            and all(flag in (0, 1) for flag in trace.pairs + trace.entries) and trace.side in (1, -1))


def trace_eval(trace, weights, squares):
    refuse_unless(len(squares) == ENTRIES and len(trace.entries) == ENTRIES, SHAPE)
    refuse_unless(in_ranges(trace), TRACE)
    score = 0.0
    for kind in COUNTED:
        score += float(trace.counts[kind][WHITE] - trace.counts[kind][BLACK]) * weights.values[kind]
    score += float(trace.pairs[WHITE] - trace.pairs[BLACK]) * weights.pair
    for kind in MOVERS:
        score += float(trace.mobility[kind][WHITE]) * weights.mobility[kind] / 10.0
        score -= float(trace.mobility[kind][BLACK]) * weights.mobility[kind] / 10.0
    score += weights.tempo * float(trace.side)
    x = float(trace.pieces)
    for place, entry in enumerate(trace.entries):
        if entry:
            kind, square, colour = place // 128, place % 128 // 2, place % 2
            opening, ending = squares[weight_place(kind, 0, square)], squares[weight_place(kind, 1, square)]
            between = (opening * (2.0 - x) + ending * (x - 32.0)) / (2.0 - 32.0)
            if colour == WHITE:
                score += float(entry) * between
            else:
                score -= float(entry) * between
    return score
