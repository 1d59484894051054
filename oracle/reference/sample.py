"""What a fit reads of a collection: a sample for each loaded line, and the ledger's rows of the others (docs/DECISIONS.md, "What a fit reads: samples")."""

import struct

from .ledger import row
from .line import lines_of, read_line
from .position import placed
from .refusal import Refused
from .trace import NUMBERS, compute_trace, flattened

ENTRIES = 64


def sample(position, half_points):
    """The 300 bytes: 26 numbers of 32 bits, the lowest byte first; used entries, half points, the entries, two zeros."""
    numbers = flattened(compute_trace(position))
    ones = [place for place, entry in enumerate(numbers[NUMBERS:]) if entry == 1]
    entries = b"".join(bytes([place // 128, place % 128 // 2, place % 2]) for place in ones)
    return struct.pack("<26i", *numbers[:NUMBERS]) + bytes([len(ones), half_points]) + entries.ljust(3 * ENTRIES + 2, b"\0")


def sifted(collection):
    """The samples of the loaded lines in order, and the rows of the refused ones with the last row."""
    samples, rows, lines = [], [], lines_of(collection)
    for number, line in enumerate(lines, 1):
        try:
            read = read_line(line)
        except Refused:
            rows.append(row(number, line, read_line)[0])
            continue
        samples.append(sample(placed(read.board, read.state), read.half_points))
    rows.append(f"lines {len(lines)} loaded {len(samples)} refused {len(lines) - len(samples)}")
    return samples, "".join(text + "\n" for text in rows)
