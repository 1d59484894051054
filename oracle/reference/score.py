"""Verdict, material and score (01, "The score")."""

from .attack import attacks_from
from .bitboard import count, squares
from .pieces import (BISHOP, COLOURS, KING, KINDS, KNIGHT, MOBILITY, PAIR, TEMPO, VALUE, WHITE, BLACK, code)
from .position import tested
from .refusal import SCORE, refuse_unless
from .square_weights import PST

WON, LOST, DRAWN = "won", "lost", "drawn"
LOWEST, HIGHEST = -32768, 32767


def both(position, kind):
    return position.pieces(code(kind, WHITE)) | position.pieces(code(kind, BLACK))


def ending(position):
    """The verdict, or None."""
    tested(position)
    kings = both(position, KING)
    if count(kings) < 2:
        return LOST if position.pieces(code(KING, position.side)) == 0 else WON
    only = kings | both(position, KNIGHT) | both(position, BISHOP)
    if count(position.occupied()) < 4 and only == position.occupied():
        return DRAWN
    return None


def material_of(position, colour):
    return sum(count(position.pieces(code(kind, colour))) * VALUE[kind] for kind in KINDS)


def eval_material(position, colour):
    tested(position, colour)
    total = material_of(position, colour)
    refuse_unless(total <= HIGHEST, SCORE)
    return total


def truncated(number, by):
    """The quotient, truncated toward zero."""
    quotient = abs(number) // abs(by)
    return quotient if (number < 0) == (by < 0) else -quotient


class Sums:
    """Every number that the score is made of, in whole numbers without bounds."""

    def __init__(self, position):
        occupied = position.occupied()
        x = count(occupied)
        self.material, self.mobility, self.products, self.parts = [], [], [], []
        for colour in COLOURS:
            mobility, weights = 0, [0, 0]
            for kind in KINDS:
                piece = code(kind, colour)
                for square in squares(position.pieces(piece)):
                    if MOBILITY[kind]:
                        mobility += count(attacks_from(piece, square, occupied)) * MOBILITY[kind]
                    weights[0] += PST[piece][square][0]
                    weights[1] += PST[piece][square][1]
            pair = PAIR if count(position.pieces(code(BISHOP, colour))) >= 2 else 0
            self.material.append(material_of(position, colour) + pair)
            self.mobility.append(mobility)
            self.products.append((weights[0] * (2 - x), weights[1] * (x - 32)))
            self.parts.append(truncated(sum(self.products[colour]), -30))
        self.add(position.side, 1 - position.side)

    def add(self, own, other):
        """The three differences are formed first, then added from left to right."""
        weights = self.parts[own] - self.parts[other]
        material = self.material[own] - self.material[other]
        mobility = truncated(self.mobility[own], 10) - truncated(self.mobility[other], 10)
        self.additions = [weights + material, weights + material + mobility, weights + material + mobility + TEMPO]

    def clauses(self):
        """The names of the clauses of SCORE that hold, in 01's order."""
        tests = {
            "material": self.material,
            "mobility": self.mobility,
            "opening_product": [products[0] for products in self.products],
            "ending_product": [products[1] for products in self.products],
            "products": [sum(products) for products in self.products],
            "first_addition": self.additions[:1],
            "second_addition": self.additions[1:2],
            "third_addition": self.additions[2:],
        }
        return [name for name, numbers in tests.items() if not all(LOWEST <= number <= HIGHEST for number in numbers)]


def eval_position(position):
    """A verdict's name or a score."""
    verdict = ending(position)
    if verdict is not None:
        return verdict
    sums = Sums(position)
    refuse_unless(not sums.clauses(), SCORE)
    return sums.additions[2]


def clauses(position):
    """The clauses of SCORE that hold, none where a verdict comes first."""
    return [] if ending(position) is not None else Sums(position).clauses()
