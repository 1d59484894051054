"""PST: the 1,792 square weights, from the twelve printed grids in grids.txt."""

from pathlib import Path

from .pieces import COLOURS, KINDS, WHITE, code


def read_grids():
    """The grids by kind and phase, each of 64 numbers as printed, rank 8 first."""
    rows = [row.split() for row in Path(__file__).with_name("grids.txt").read_text().splitlines()]
    numbers = [int(entry) for row in rows if len(row) == 8 and row[0].lstrip("-").isdigit() for entry in row]
    assert len(numbers) == 12 * 64
    return [[numbers[64 * (2 * kind + phase):][:64] for phase in range(2)] for kind in KINDS]


def table(grids):
    """By code, square and phase: a white piece takes entry square xor 56, a black one entry square."""
    pst = [[[0, 0] for _ in range(64)] for _ in range(14)]
    for kind in KINDS:
        for colour in COLOURS:
            for square in range(64):
                entry = square ^ 56 if colour == WHITE else square
                pst[code(kind, colour)][square] = [grids[kind][phase][entry] for phase in range(2)]
    return pst


PST = table(read_grids())
