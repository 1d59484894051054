"""The sum over a collection (02, W-210): what scores let expect, and how far a collection's results lie from it."""

import sys

from .ledger import shown
from .line import lines_of, read_line
from .pieces import WHITE
from .refusal import MANY, RESULT, SHAPE, Refused, refuse_unless

MILLION = 1_000_000
MOST = 1_000_000
LARGEST = 2 ** 64 - 1


def meets(j, a):
    """02's inequality: a to the 100th is at most (1000000 - a) to the 100th times 10 to the j; for negative j the power stands on the other side."""
    left, right = a ** 100, (MILLION - a) ** 100
    return left <= right * 10 ** j if j >= 0 else left * 10 ** -j <= right


def entry(j):
    """The greatest a up to a million that meets it."""
    low, high = 0, MILLION
    while low < high:
        middle = (low + high + 1) // 2
        low, high = (middle, high) if meets(j, middle) else (low, middle - 1)
    return low


TABLE = [entry(j) for j in range(-400, 401)]


def expected(score):
    """Outside the range the end, else the multiple of four at or below."""
    return TABLE[(max(-1600, min(1600, score)) + 1600) // 4]


def added(totals, side, answer, half_points):
    """The totals (scored, apart, sum) with a line more; SHAPE, RESULT, MANY."""
    scored, apart, total = totals
    refuse_unless(side in (0, 1), SHAPE)
    refuse_unless(half_points in (0, 1, 2), RESULT)
    if not isinstance(answer, int):
        refuse_unless(apart < MOST, MANY)
        return scored, apart + 1, total
    square = (500_000 * half_points - expected(answer if side == WHITE else -answer)) ** 2
    refuse_unless(scored < MOST and total + square <= LARGEST, MANY)
    return scored + 1, apart, total + square


def collected(collection):
    """The totals of a collection, and how many of its lines are refused."""
    totals, refused = (0, 0, 0), 0
    for line in lines_of(collection):
        try:
            read = read_line(line)
        except Refused:
            refused += 1
            continue
        totals = added(totals, read.side, shown(read), read.half_points)
    return totals, refused


def row(collection):
    (scored, apart, total), refused = collected(collection)
    mean = "none" if scored == 0 else f"{total // scored // 10 ** 12}.{total // scored % 10 ** 12:012d}"
    return f"scored {scored} apart {apart} refused {refused} sum {total} mean {mean}\n"


if __name__ == "__main__":
    sys.stdout.write(row(sys.stdin.buffer.read()))
