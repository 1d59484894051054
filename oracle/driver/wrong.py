"""The wrong programs of 01's "Errors that look right", written so that their answers can be told from the right ones."""

from reference.answers import arguments
from reference.attack import attacks_from
from reference.bitboard import count, squares
from reference.double import Weights, shipped, trace_eval
from reference.exchange import see, settled, values_taken
from reference.pieces import (BISHOP, BLACK, COLOURS, KING, KINDS, KNIGHT, MOBILITY, PAWN, QUEEN, ROOK, VALUE, WHITE,
                              code)
from reference.score import Sums, truncated
from reference.seeded import to_bits
from reference.trace import compute_trace


def bishops_before_knights(start, target, position):
    order = (PAWN, BISHOP, KNIGHT, ROOK, QUEEN, KING)
    return settled(values_taken(position, start, target, order))


def stopping_before_the_first_capture(start, target, position):
    return max(0, see(position, start, target))


def one_division(position):
    """Both sides' square weights under one division."""
    sums, own = Sums(position), position.side
    apart = sums.parts[own] - sums.parts[1 - own]
    together = truncated(sum(sums.products[own]) - sum(sums.products[1 - own]), -30)
    return sums.additions[2] - apart + together


def own_pieces_dropped(position):
    """Squares that hold an own piece do not count as attacked."""
    sums, own = Sums(position), position.side
    reach = [0, 0]
    for colour in COLOURS:
        for kind in KINDS:
            for square in squares(position.pieces(code(kind, colour))):
                attacks = attacks_from(code(kind, colour), square, position.occupied())
                reach[colour] += MOBILITY[kind] * count(attacks & ~position.bitboards[colour])
    right, wrong = ([truncated(side[own], 10) - truncated(side[1 - own], 10)] for side in (sums.mobility, reach))
    return sums.additions[2] - right[0] + wrong[0]


def king_counted_in_the_trace(_kind, _seed, position):
    """The double of the shipped weights with 10000 a king, added where the other counts are."""
    trace, weights = compute_trace(position), shipped()
    kings = [count(position.pieces(code(KING, colour))) for colour in COLOURS]
    return to_bits(trace_eval(trace, Weights(weights[:11]), weights[11:]) + VALUE[KING] * (kings[WHITE] - kings[BLACK]))


PROGRAMS = {program.__name__: program for program in (
    bishops_before_knights, stopping_before_the_first_capture, one_division, own_pieces_dropped,
    king_counted_in_the_trace)}


def answer(name, question):
    return str(PROGRAMS[name](*arguments(question.split(" ")[1:])))
