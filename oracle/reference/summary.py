"""Totals beside a store (02, W-214): 770 numbers, worked out afresh and kept up to date by adding and replacing records; and the summary of a whole
store as a table or a picture, or the row of the first record that is refused."""

import sys

from .pieces import CODES
from .refusal import ABSENT, LENGTH, MANY, ROOM, SHAPE, Refused, refuse_unless
from .store import SIZE, pieces_of, read_piece, read_record, write_record

MOST = 10_000_000
PLACES = 2 + 64 * len(CODES)


def brings(piece):
    """What one record brings: itself, its half points, and each piece on its square."""
    numbers = [0] * PLACES
    numbers[0], numbers[1] = 1, piece[33]
    for square in range(64):
        code = piece[square // 2] // (16 if square % 2 else 1) % 16
        if code in CODES:
            numbers[2 + 64 * (code - 2) + square] = 1
    return numbers


def moved(summary, piece, times):
    """Sums are 64 bits and wrap."""
    return [(held + times * brought) % 2**64 for held, brought in zip(summary, brings(piece))]


def afresh(run, records):
    summary = [0] * PLACES
    for piece in pieces_of(run)[:records]:
        summary = moved(summary, piece, 1)
    return summary


def put(run, number, piece):
    return run[:SIZE * number] + piece + run[SIZE * (number + 1):]


def add_record(bitboards, board, state, half_points, run, summary):
    """SHAPE of the summary, what writing a record calls for, LENGTH of the run, MANY, ROOM; then run and summary afterwards."""
    refuse_unless(len(summary) == PLACES, SHAPE)
    piece = write_record(bitboards, board, state, half_points, SIZE)
    refuse_unless(len(run) % SIZE == 0, LENGTH)
    refuse_unless(summary[0] < MOST, MANY)
    refuse_unless(summary[0] < len(run) // SIZE, ROOM)
    return put(run, summary[0], piece), moved(summary, piece, 1)


def replace_record(bitboards, board, state, half_points, number, run, summary):
    """SHAPE of the summary, what writing a record and then reading the old one call for, ABSENT of the summary."""
    refuse_unless(len(summary) == PLACES, SHAPE)
    piece = write_record(bitboards, board, state, half_points, SIZE)
    read_record(run, number)
    refuse_unless(number < summary[0], ABSENT)
    old = run[SIZE * number:SIZE * (number + 1)]
    return put(run, number, piece), moved(moved(summary, old, -1), piece, 1)


# ---- what a person sees of a whole store
KINDS = ("pawn", "knight", "king", "bishop", "rook", "queen")
NAMES = [f"{colour} {kind}" for kind in KINDS for colour in ("white", "black")]
DRAWN = [8 * rank + file for rank in range(7, -1, -1) for file in range(8)]


def gathered(store):
    """The summary of a store; or the number, from 1, and the refusal of the first record that has no place in it."""
    pieces = pieces_of(store)
    for number, piece in enumerate(pieces, 1):
        try:
            refuse_unless(number <= MOST, MANY)
            read_piece(piece)
        except Refused as refused:
            return None, f"{number} refused {refused.number}\n"
    return afresh(store, len(pieces)), None


def boards(summary):
    for piece, name in enumerate(NAMES):
        counts = summary[2 + 64 * piece:66 + 64 * piece]
        yield piece, f"{name} {sum(counts) % 2**64}", [counts[square] for square in DRAWN], max(counts)


def table(summary):
    rows = [f"records {summary[0]} half points {summary[1]}"]
    for _, title, counts, most in boards(summary):
        width = len(str(most))
        rows += ["", title]
        for row in range(8):
            words = [str(count) if count else "." for count in counts[8 * row:8 * row + 8]]
            rows.append(str(8 - row) + "".join(" " + word.rjust(width) for word in words))
        rows.append(" " + "".join(" " + letter.rjust(width) for letter in "abcdefgh"))
    return "".join(row + "\n" for row in rows)


SHADES = "#fff #fed #fdc #fdb #fca #fb8 #fa6 #f95 #e83 #d62".split()


def dark(most, count):
    return 0 if most == 0 else 9 if count >= 2**60 else 9 * count // most


def words(across, down, text):
    return f"<text x='{across}' y='{down}'>{text}</text>"


def picture(summary):
    classes = "".join(f".h{place}{{fill:{shade}}}" for place, shade in enumerate(SHADES))
    parts = ["<svg xmlns='http://www.w3.org/2000/svg' viewBox='0 0 1800 1430' font-family='sans-serif' font-size='11' text-anchor='middle'>\n",
             f"<style>rect{{stroke:#aaa}}.t{{font-size:18px;text-anchor:start}}{classes}</style>\n",
             "<path d='M0 0h1800v1430H0z' fill='#fff'/>\n",
             f"<text class='t' x='60' y='40'>records {summary[0]} half points {summary[1]}</text>\n"]
    for piece, title, counts, most in boards(summary):
        parts.append(f"<g transform='translate({60 + 440 * (piece % 4)} {100 + 450 * (piece // 4)})'>\n<text class='t' y='-12'>{title}</text>\n")
        for place, count in enumerate(counts):
            across, down = 48 * (place % 8), 48 * (place // 8)
            if across == 0:
                parts.append(words(-14, down + 29, 8 - place // 8))
            parts.append(f"<rect x='{across}' y='{down}' width='48' height='48' class='h{dark(most, count)}'/>")
            if count:
                parts.append(words(across + 24, down + 29, count))
            if place % 8 == 7:
                parts.append("\n")
        parts += [words(48 * file + 24, 402, letter) for file, letter in enumerate("abcdefgh")] + ["\n</g>\n"]
    return "".join(parts + ["</svg>\n"])


def main():
    summary, row = gathered(sys.stdin.buffer.read())
    if row:
        sys.stderr.write(row)
        sys.exit(1)
    sys.stdout.write(picture(summary) if sys.argv[1:] == ["--svg"] else table(summary))


if __name__ == "__main__":
    main()
