"""The fitting step (02, W-211): the root, a line's part of the gradient, the Adam update.

02 says "with the arithmetic of `compute_gradient`" and "constants as in the Rust", so the order of the operations is the
source's. Python's floats are IEEE 754 doubles, rounded once an operation.
"""

import math

from .double import MOVERS, in_ranges, shipped
from .error import MILLION, expected
from .pieces import BLACK, WHITE
from .refusal import ITERATION, RESULT, SHAPE, TRACE, refuse_unless
from .trace import COUNTED, ENTRIES, weight_place

WEIGHTS = 779
NAMED = 11
PAWN = 0
BETA1, BETA2, EPSILON = 0.9, 0.999, 1e-8
MOST_ITERATIONS = 1_000_000


def root(number):
    """The nearest double; of a number below zero none. A zero keeps its sign."""
    return math.nan if number < 0 else math.sqrt(number)


def points(score):
    """What a score lets expect by 02's table, rounded down; an infinity counts as the end on its side, a NaN stays one."""
    if math.isnan(score):
        return score
    whole = math.floor(score) if math.isfinite(score) else int(math.copysign(MILLION, score))
    return expected(whole) / 1e6


def weigh(value, half_points, k, lines):
    """What a line lets expect, in points, and its coefficient, in the order of `compute_gradient`."""
    refuse_unless(lines > 0, SHAPE)
    refuse_unless(half_points in (0, 1, 2), RESULT)
    s = points(k * value)
    error = half_points / 2 - s
    slope = s * (1.0 - s) * k * math.log(10) / 400.0
    return s, -2.0 * error * slope / float(lines)


def gradient_add(trace, coefficient, sums):
    """Adds one line's part to the sums."""
    refuse_unless(len(trace.entries) == ENTRIES and len(sums) == WEIGHTS, SHAPE)
    refuse_unless(in_ranges(trace), TRACE)
    pairs = [trace.counts[kind] for kind in COUNTED] + [trace.pairs]
    parts = [coefficient * float(pair[WHITE] - pair[BLACK]) for pair in pairs]
    for kind in MOVERS:
        white, black = trace.mobility[kind]
        parts.append(coefficient * float(white - black) / 10.0)
    parts.append(coefficient * float(trace.side))
    for place, part in enumerate(parts):
        sums[place] += part
    x = float(trace.pieces)
    for place, entry in enumerate(trace.entries):
        if entry:
            kind, square, colour = place // 128, place % 128 // 2, place % 2
            sign = 1.0 if colour == WHITE else -1.0
            opening, ending = (NAMED + weight_place(kind, phase, square) for phase in range(2))
            sums[opening] += coefficient * sign * float(entry) * (2.0 - x) / (2.0 - 32.0)
            sums[ending] += coefficient * sign * float(entry) * (x - 32.0) / (2.0 - 32.0)


def powers(iteration):
    """Running products from 1."""
    first = second = 1.0
    for _ in range(iteration):
        first *= BETA1
        second *= BETA2
    return first, second


def adam_step(sums, first, second, weights, iteration, rate):
    """The update of one iteration, in place; the pawn's weight and moments stay."""
    refuse_unless(all(len(numbers) == WEIGHTS for numbers in (sums, first, second, weights)), SHAPE)
    refuse_unless(1 <= iteration <= MOST_ITERATIONS, ITERATION)
    power1, power2 = powers(iteration)
    for place in range(PAWN + 1, WEIGHTS):
        gradient = sums[place]
        first[place] = BETA1 * first[place] + (1.0 - BETA1) * gradient
        second[place] = BETA2 * second[place] + (1.0 - BETA2) * gradient * gradient
        first_hat = first[place] / (1.0 - power1)
        second_hat = second[place] / (1.0 - power2)
        weights[place] -= rate * first_hat / (root(second_hat) + EPSILON)


class Fit:
    """What a fit keeps: the lists that questions name by number."""

    def __init__(self):
        self.lists = [[0.0] * WEIGHTS, [0.0] * WEIGHTS, [0.0] * WEIGHTS, shipped()]
