"""Questions about exchanges (02, W-207; docs/CAPTURES.md): one a line on standard input, the captures and the stopping point on standard output; with
`--second` in W-213's second mode."""

import sys

from .exchange import FIRST, SECOND, settled, told
from .line import BLANK, lines_of, read_line
from .pieces import KINDS
from .position import placed
from .refusal import ORDER, SQUARE, Refused, refuse_unless

FILES, RANKS, LETTERS = b"abcdefgh", b"12345678", b"pnbrqk"
WORDS = ("pawn", "knight", "bishop", "rook", "queen", "king")


def move_of(field):
    """Two squares side by side; SQUARE."""
    refuse_unless(len(field) == 4 and all(field[at] in FILES and field[at + 1] in RANKS for at in (0, 2)), SQUARE)
    return tuple(FILES.index(field[at]) + 8 * RANKS.index(field[at + 1]) for at in (0, 2))


def order_of(field):
    """Document 01's order where there is none; else the kinds of six letters; ORDER."""
    if not field:
        return list(KINDS)
    refuse_unless(len(field) == 6 and all(letter in LETTERS for letter in field), ORDER)
    return [LETTERS.index(letter) for letter in field]


def asked(question, mode):
    """The captures that a question asks for, and the stopping point: the line's refusals, then SQUARE, ORDER, MOVE, CROWD."""
    read = read_line(question)
    fields = [field.strip(BLANK) for field in question.split(b";")] + [b"", b""]
    start, target = move_of(fields[2])
    return told(placed(read.board, read.state), start, target, order_of(fields[3]), mode)


def square_name(square):
    return f"{chr(FILES[square % 8])}{chr(RANKS[square // 8])}"


def rows(number, question, mode):
    """A question's rows, and whether it was told."""
    try:
        captures, point = asked(question, mode)
    except Refused as refused:
        return [f"{number} refused {refused.number}"], False
    worth = settled([taken for _, _, taken in captures])
    shown = [f"{number} {square_name(square)} {WORDS[kind]} {taken}" for square, kind, taken in captures]
    return shown + [f"{number} played out worth {worth}" if point is None else f"{number} stop {point} worth {worth}"], True


def answers(questions, mode=FIRST):
    found = [rows(number, question, mode) for number, question in enumerate(lines_of(questions), 1)]
    told_all = sum(is_told for _, is_told in found)
    shown = [row for one, _ in found for row in one] + [f"lines {len(found)} told {told_all} refused {len(found) - told_all}"]
    return "".join(row + "\n" for row in shown)


MODES = {(): FIRST, ("--second",): SECOND}


if __name__ == "__main__":
    sys.stdout.write(answers(sys.stdin.buffer.read(), MODES[tuple(sys.argv[1:])]))
