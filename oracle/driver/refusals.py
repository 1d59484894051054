"""Questions that only 01's rules answer: refusals by number, and the exact sum."""

from reference.answers import position_of
from reference.bitboard import squares

KINGS_AND_PAWN = "4k3/8/8/8/8/8/4P3/4K3 w;1-0"
EMPTY = "8/8/8/8/8/8/8/8 b;1-0"
START = "rnbqkbnr/pppppppp/8/8/8/8/PPPPPPPP/RNBQKBNR w;1-0"
TWO_KINGS = "4k3/8/8/4p3/8/8/8/K3R2K w;1-0"
THIRTY_THREE = "Q3q3/1Q2q2Q/3nrn2/2nQRqN1/r1qQqRqQ/2NQqbn1/2bNQNQ1/1b2Q2q w;1-0"
MIXED = "r3k2r/1b1nqp2/p2p4/1p1Pp2p/4P1B1/2N5/PP3QPP/R4RK1 b;1-0"
TRACE_SEED = 7046029254386353131
WEIGHTS_SEED = 1181783497276652981
POSITIONS = (KINGS_AND_PAWN, EMPTY, START, TWO_KINGS, THIRTY_THREE, MIXED)


def of_colours():
    """SHAPE for a colour that is neither 0 nor 1, before SQUARE."""
    for position in POSITIONS:
        for colour in (2, 3, 255):
            yield f"material {colour} {position}"
            yield f"check {colour} {position}"
            yield f"attacked 0 {colour} {position}"
            yield f"attacked 64 {colour} {position}"
            yield f"lvp {colour} 0 0 {position}"


def of_squares():
    for square in (64, 65, 127, 255):
        for position in POSITIONS:
            yield f"attacked {square} 0 {position}"
            yield f"attacks_to {square} 0 {position}"
            yield f"see {square} 4 {position}"
            yield f"see 4 {square} {position}"
        for word in ("get", "set", "toggle", "reset"):
            yield f"{word} {square} 1"
        yield f"from_square {square}"
        yield f"piece_attacks 2 {square} 0"


def of_codes_and_shifts():
    for code in (0, 1, 14, 15, 255):
        yield f"piece_attacks {code} 0 0"
        yield f"piece_attacks {code} 64 0"
    for by in (-128, -65, -64, 64, 65, 127):
        yield f"shift {by} 255"


def of_traces():
    """TRACE: each number of a trace at its bounds and past them, and some entries; shipped and wild weights."""
    bounds = [(0, 64)] * 10 + [(0, 1)] * 2 + [(0, 1728)] * 12 + [(-1, 1), (0, 64)] + [(0, 1)] * 768
    places = [*range(26), *range(26, 794, 59), 793]
    for place in places:
        lowest, highest = bounds[place]
        for value in (lowest - 1, lowest, 0, highest, highest + 1):
            yield f"odd {place} {value} 0 0 {TRACE_SEED + place}"
            yield f"odd {place} {value} 5 {WEIGHTS_SEED} {TRACE_SEED - place}"


def of_moves():
    """MOVE: starts and targets all over the board, most of which are no capture."""
    pairs = [(start, target) for start in range(64) for target in range(64)]
    for position in POSITIONS:
        for start, target in pairs[::31]:
            yield f"see {start} {target} {position}"


def of_crowds():
    """CROWD where the piece attacks the target, MOVE where it does not: every own piece on every other."""
    for text in (TWO_KINGS, THIRTY_THREE):
        position = position_of(text)
        own, other = (squares(position.bitboards[colour]) for colour in (position.side, 1 - position.side))
        for start in own:
            for target in other:
                yield f"see {start} {target} {text}"


def of_bent():
    """OVERLAP, UNION, BYTEBOARD: each bitboard and each byte of a position bent in turn; and bytes that change nothing."""
    for index in range(14):
        for square in (0, 4, 12, 60, 63):
            yield f"bent {index} {1 << square} 0 0 {KINGS_AND_PAWN}"
    for square, byte in ((4, 6), (12, 2), (60, 7), (0, 0)):
        yield f"bent 0 0 {square} {byte} {KINGS_AND_PAWN}"
    for square in (0, 4, 12, 60, 63):
        for byte in (*range(16), 64, 255):
            yield f"bent 0 0 {square} {byte} {KINGS_AND_PAWN}"
    # Bits and byte bent together: a pawn put on e3 by its own board, by its colour's too, by the byte.
    for index, bits, square, byte in ((2, 1 << 20, 20, 2), (0, 1 << 20, 20, 2), (0, 0, 20, 2), (2, 1 << 12, 12, 0)):
        yield f"bent {index} {bits} {square} {byte} {KINGS_AND_PAWN}"
    # Several squares of one fault, the lowest named: two boards overlap at two, White's and Black's union wrong at two, byte and byte.
    for index, bits in ((2, 1 << 4 | 1 << 60), (3, 1 << 12 | 1 << 60), (0, 1 << 20 | 1 << 63), (1, 1 << 3 | 1 << 60), (3, 1 << 33 | 1 << 62)):
        yield f"bent {index} {bits} 0 0 {KINGS_AND_PAWN}"
    # Two faults, the first in order at the higher square and at the lower: overlap and union, overlap and byte, union and byte.
    for index, bits, square, byte in ((3, 1 << 0 | 1 << 60, 0, 0), (3, 1 << 4 | 1 << 63, 0, 0), (2, 1 << 4, 0, 9), (2, 1 << 4, 63, 9),
                                      (1, 1 << 63, 0, 9), (0, 1 << 0, 63, 9), (0, 1 << 63, 4, 0), (1, 1 << 5, 60, 0)):
        yield f"bent {index} {bits} {square} {byte} {KINGS_AND_PAWN}"


def questions(recorded):
    """All of them; `recorded` are pairs of family and question, whose positions are asked again."""
    asked = [*of_colours(), *of_squares(), *of_codes_and_shifts(), *of_bent(), *of_traces(), *of_moves(), *of_crowds()]
    evals = [question.split(" ", 1)[1] for _, question in recorded if question.startswith("eval ")]
    asked += [f"exact {position}" for position in evals]
    return asked
