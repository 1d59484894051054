"""Colours, kinds and piece codes, and what belongs to each kind."""

WHITE, BLACK = 0, 1
COLOURS = (WHITE, BLACK)

# Kinds run in 01's order; the codes are the source's, so code order is not kind order.
PAWN, KNIGHT, BISHOP, ROOK, QUEEN, KING = KINDS = range(6)
CODE_OF_KIND = (2, 4, 8, 10, 12, 6)
VALUE = (100, 304, 292, 487, 1013, 10000)
PAIR = 33
TEMPO = 11
MOBILITY = (0, 24, 47, 39, 21, 0)

EMPTY = 0
CODES = range(2, 14)
LETTERS = {letter: CODE_OF_KIND[kind] + colour
           for colour, letters in enumerate(("PNBRQK", "pnbrqk"))
           for kind, letter in enumerate(letters)}
KIND_OF_CODE = {CODE_OF_KIND[kind] + colour: kind for kind in KINDS for colour in COLOURS}


def code(kind, colour):
    return CODE_OF_KIND[kind] + colour

