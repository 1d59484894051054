"""The recorded fits. Questions of a fit go on from one to the next, so each set is asked whole and in order."""

import math

from reference.seeded import SPECIALS, stream, to_bits

from . import voices
from .refusals import EMPTY, KINGS_AND_PAWN, MIXED, START

SUMS, FIRST, SECOND, WEIGHTS = range(4)
ALL = 779
ONE, TENTH = to_bits(1.0), to_bits(0.1)
MOST = 1_000_000
POSITIONS = (KINGS_AND_PAWN, EMPTY, START, MIXED)


def asked_of_the_original():
    """Fits whose coefficients the original works out, wild ones among them, and roots."""
    return voices.harness("fits").decode().splitlines()


def shown():
    return [f"of {which}" for which in range(4)]


def of_coefficients():
    """Every special double as a coefficient, one line after the other."""
    yield f"fit {ONE}"
    for bits in SPECIALS:
        for position in POSITIONS:
            yield f"line {bits} 0 {position}"
            yield f"of {SUMS}"
            yield f"at {SUMS} 0"
        yield f"put {SUMS} {ALL} {SPECIALS[4]}"


def of_traces():
    """An entry and a piece count at their bounds and past them: TRACE, with the sums as they were."""
    yield f"fit {ONE}"
    for entry in (0, 1, 2, 999, 1000):
        for pieces in (0, 1, 2, 32, 33, 64, 65, 1000):
            yield f"odd_line {TENTH} {entry} {pieces} {MIXED}"
            yield f"of {SUMS}"


def of_iterations():
    """ITERATION, which writes nothing; and the bounds themselves."""
    yield f"fit {ONE}"
    for iteration in (0, MOST + 1, 2**64 - 1, 1, 0, 2, 7, 1000, MOST):
        yield f"line {TENTH} 0 {MIXED}"
        yield f"step {ONE} {iteration}"
        yield from shown()


def of_specials(iteration, rate):
    """Each special double in the sums against each in a moment: place 16 i + j, and the pawn's too."""
    yield f"fit {ONE}"
    for place in range(256):
        yield f"put {SUMS} {place} {SPECIALS[place % 16]}"
        yield f"put {FIRST if place % 3 else SECOND} {place} {SPECIALS[place // 16]}"
    yield f"step {rate} {iteration}"
    yield from shown()
    yield from (f"at {WEIGHTS} {place}" for place in range(0, 256, 15))


def of_rates():
    """Every special double as a rate; weights and moments go on."""
    yield f"fit {ONE}"
    draws = stream(211)
    for iteration, rate in enumerate(SPECIALS, start=1):
        for _ in range(8):
            yield f"put {SUMS} {next(draws) % ALL} {next(draws)}"
        yield f"line {TENTH} 0 {MIXED}"
        yield f"step {rate} {iteration}"
        yield from shown()


def by_the_table():
    """Coefficients by the table: every special double as a line's and as K; scores at whole numbers and beside them, at the ends and past them; SHAPE, RESULT."""
    for half_points, bits in enumerate(SPECIALS):
        yield f"weigh {bits} {half_points % 3} {ONE} 1000"
        yield f"weigh {to_bits(117.0)} {half_points % 3} {bits} 1000"
    for whole in (-1700, -1601, -1600, -1599, -1597, -1596, -401, -5, -4, -3, -1, 0, 1, 3, 4, 5, 117, 400, 1596, 1599, 1600, 1601, 1700):
        for near in (math.nextafter(whole, -math.inf), float(whole), math.nextafter(whole, math.inf), whole + 0.5):
            yield f"weigh {to_bits(near)} {whole % 3} {ONE} 7"
    draws = stream(212)
    for _ in range(64):
        value = (next(draws) % 2**20 - 2**19) / 256
        yield f"weigh {to_bits(value)} {next(draws) % 3} {to_bits((next(draws) % 25 + 1) / 10)} {next(draws) % 10**6 + 1}"
    for lines in (0, 1, 3, 100_000, 2**53 + 1, 2**64 - 1):
        for half_points in (0, 1, 2, 3, 255):
            yield f"weigh {to_bits(-33.25)} {half_points} {ONE} {lines}"


def asked_of_the_reference():
    """What only the reference answers: moments, states that no fit reaches, refusals, coefficients by the table."""
    return [*of_coefficients(), *of_traces(), *of_iterations(), *of_specials(1, ONE),
            *of_specials(1000, TENTH), *of_rates(), *by_the_table()]
