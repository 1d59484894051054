"""Answers questions, one a line, in the format of oracle/README.md: python3 -m reference.answers < questions."""

import math
import sys
from functools import lru_cache

from . import attack, bitboard, exchange, score
from .double import Weights, in_ranges, trace_eval
from .fit import WEIGHTS, Fit, adam_step, gradient_add, root, weigh
from .line import read_line
from .position import Position, placed
from .refusal import ENTRY, SCORE, TRACE, Refused, refuse_unless
from .seeded import from_bits, odd_trace, seeded_trace, seeded_weights, stirred, to_bits
from .square_weights import PST
from .state import State
from .store import SIZE, read_record, write_record
from .trace import NUMBERS, compute_trace, exact_sum, flattened


@lru_cache(maxsize=16)
def position_of(line):
    read = read_line(line.encode())
    return placed(read.board, read.state)


@lru_cache(maxsize=4)
def weights_of(kind, seed):
    numbers = seeded_weights(kind, seed)
    return Weights(numbers[:11]), numbers[11:]


def number_or_none(answer):
    return "none" if answer is None else answer


def kinds_of(order):
    """An order's six digits, one a kind."""
    return [order // 10 ** place % 10 for place in range(5, -1, -1)]


def least(found, shown):
    """So many of square and kind, or `none`."""
    return "none" if found is None else numbers(found[:shown])


def told(captures, stop):
    """How many captures; square, kind and value taken of each; and the number of the one it stops before, or `out`."""
    listed = [number for capture in captures for number in capture]
    return numbers([len(captures), *listed, "out" if stop is None else stop])


def numbers(listed):
    return " ".join(map(str, listed))


def traced(position):
    listed = flattened(compute_trace(position))
    set_places = [place for place, entry in enumerate(listed[NUMBERS:]) if entry == 1]
    return numbers(listed[:NUMBERS] + [len(set_places)] + set_places)


def bits(number):
    return "nan" if math.isnan(number) else to_bits(number)


def double(kind, seed, trace):
    return bits(trace_eval(trace, *weights_of(kind, seed)))


MOST_ENTRIES = 64


def listed(trace):
    """A trace that has a list; what its list gives is what it gives (02, W-208)."""
    refuse_unless(in_ranges(trace), TRACE)
    refuse_unless(sum(trace.entries) <= MOST_ENTRIES, ENTRY)
    return trace


def stored(number, *run):
    """A record's side, half points and 64 codes."""
    read = read_record(bytes(run), number)
    return f"{read.side} {read.half_points} " + "".join(f"{code:x}" for code in read.board)


def next_square(board):
    found = bitboard.next_square(board)
    return "none" if found is None else numbers(found)


def bent(index, bits, square, byte, position):
    """The score of a position after one bitboard and one byte were changed: how OVERLAP, UNION and BYTEBOARD are asked for."""
    bitboards, board = list(position.bitboards), list(position.board)
    bitboards[index] ^= bits
    board[square] = byte
    return score.eval_position(Position(bitboards, board, position.state))


NO_SQUARE = 255


def in_state(side, rights, passant, halfmoves, moves, position):
    """The score of a position in another state: how RIGHTS, PASSANT and COUNTER are asked for that no line can say."""
    state = State(side, (rights >> right & 1 == 1 for right in range(4)), None if passant == NO_SQUARE else passant, halfmoves, moves)
    return score.eval_position(Position(position.bitboards, position.board, state))


class Fitting:
    """The fit that questions go on with, one after the other."""

    def __init__(self):
        self.fit = Fit()

    def begun(self, _k):
        self.fit = Fit()
        return "done"

    def put(self, which, place, number):
        numbers = self.fit.lists[which]
        for changed in [place] if place < WEIGHTS else range(WEIGHTS):
            numbers[changed] = from_bits(number)
        return "done"

    def line(self, coefficient, _result, position):
        return self.added(compute_trace(position), from_bits(coefficient), self.fit.lists[0])

    def odd_line(self, coefficient, entry, pieces, position):
        trace = compute_trace(position)
        trace.entries[0], trace.pieces = (number if number < 1000 else -1 for number in (entry, pieces))
        return self.added(trace, from_bits(coefficient), self.fit.lists[0])

    def added(self, trace, coefficient, sums):
        gradient_add(trace, coefficient, sums)
        return "done"

    def step(self, rate, iteration):
        adam_step(*self.fit.lists, iteration, from_bits(rate))
        return "done"

    def whole(self, which):
        return stirred(self.fit.lists[which])

    def at(self, which, place):
        return bits(self.fit.lists[which][place])


FITTING = Fitting()

WORDS = {
    "eval": score.eval_position,
    "ending": lambda position: number_or_none(score.ending(position)),
    "material": lambda colour, position: score.eval_material(position, colour),
    "additions": lambda position: numbers(score.Sums(position).additions),
    "see": lambda start, target, position: exchange.see(position, start, target),
    "lvp": lambda colour, attacks, occupied, position: least(exchange.lvp(position, colour, attacks, occupied), 1),
    "see_by": lambda order, start, target, position: exchange.see(position, start, target, kinds_of(order)),
    "captures": lambda order, start, target, position: told(*exchange.told(position, start, target, kinds_of(order))),
    "see_second": lambda order, start, target, position: exchange.see(position, start, target, kinds_of(order), exchange.SECOND),
    "captures_second": lambda order, start, target, position: told(
        *exchange.told(position, start, target, kinds_of(order), exchange.SECOND)),
    "lvp_by": lambda order, colour, attacks, occupied, position: least(
        exchange.lvp(position, colour, attacks, occupied, kinds_of(order)), 2),
    "check": lambda colour, position: int(attack.is_check(position, colour)),
    "attacked": lambda square, colour, position: int(attack.is_attacked(position, square, colour)),
    "attacks_to": lambda square, occupied, position: attack.attacks_to(position, square, occupied),
    "trace": traced,
    "exact": lambda position: exact_sum(compute_trace(position)),
    "double": lambda kind, seed, position: double(kind, seed, compute_trace(position)),
    "wild": lambda kind, seed, trace_seed: double(kind, seed, seeded_trace(trace_seed)),
    "odd": lambda place, value, kind, seed, trace_seed: double(kind, seed, odd_trace(trace_seed, place, value)),
    "list_trace": traced,
    "list_double": lambda kind, seed, position: double(kind, seed, listed(compute_trace(position))),
    "list_wild": lambda kind, seed, trace_seed: double(kind, seed, listed(seeded_trace(trace_seed))),
    "list_odd": lambda place, value, kind, seed, trace_seed: double(kind, seed, listed(odd_trace(trace_seed, place, value))),
    "bent": bent,
    "state": in_state,
    "record": lambda half_points, position: numbers(
        write_record(position.bitboards, position.board, position.state, half_points, SIZE)),
    "stored": stored,
    "fit": FITTING.begun,
    "put": FITTING.put,
    "line": FITTING.line,
    "list_line": FITTING.line,
    "odd_line": FITTING.odd_line,
    "step": FITTING.step,
    "of": FITTING.whole,
    "at": FITTING.at,
    "root": lambda number: bits(root(from_bits(number))),
    "weigh": lambda value, half_points, k, lines: numbers(bits(number) for number in weigh(from_bits(value), half_points, from_bits(k), lines)),
    "piece_attacks": attack.piece_attacks,
    "pst": lambda piece, square, phase: PST[piece][square][phase],
    "knight": lambda square: attack.KNIGHT_STEPS[square],
    "king": lambda square: attack.KING_STEPS[square],
    "pawn": lambda colour, square: attack.PAWN_STEPS[colour][square],
    "count": bitboard.count,
    "scan": bitboard.scan,
    "shift": bitboard.shift,
    "next": next_square,
    "from_square": bitboard.from_square,
    "get": bitboard.get,
    "set": bitboard.with_square,
    "toggle": bitboard.toggled,
    "reset": bitboard.without_square,
}


def arguments(parts):
    """Numbers, then the position if a part holds a `/`: it is the last."""
    found = []
    for place, part in enumerate(parts):
        if "/" in part:
            return found + [position_of(" ".join(parts[place:]))]
        found.append(int(part))
    return found


def answer(question):
    word, *parts = question.split(" ")
    try:
        return str(WORDS[word](*arguments(parts)))
    except Refused as refused:
        beside = "" if refused.square is None else f" {refused.square}"
        return "over" if refused.number == SCORE else f"refused {refused.number}{beside}"


def main():
    for question in sys.stdin:
        sys.stdout.write(answer(question.rstrip("\n")) + "\n")


if __name__ == "__main__":
    main()
