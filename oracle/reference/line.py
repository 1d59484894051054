"""One line of a collection (01, "A collection's line", with 02's W-203 and W-213), as bytes without LF and the dropped CR."""

import re
from itertools import product

from .pieces import BLACK, EMPTY, LETTERS, WHITE
from .refusal import BYTE, COUNTER, FIELD, LONG, PASSANT, PLACE, RESULT, RIGHTS, SIDE, Refused, refuse_unless
from .state import State, at_home, counted, just_passed

LONGEST = 256
BLANK = b" \t\r"
SIDES = {b"w": WHITE, b"b": BLACK}
HALF_POINTS = {b"1-0": 2, b"1/2-1/2": 1, b"0-1": 0}
PIECES = {ord(letter): piece for letter, piece in LETTERS.items()}
DIGITS = {ord(str(digit)): digit for digit in range(1, 9)}
# Every word that says rights: `-`, or letters in the order KQkq. Every word that says a square, or none.
RIGHTS_OF = {"".join(letter for letter, right in zip("KQkq", rights) if right).encode() or b"-": rights
             for rights in product((False, True), repeat=4)}
SQUARE_OF = {b"-": None, **{f"{file}{rank}".encode(): files + 8 * ranks
                            for files, file in enumerate("abcdefgh") for ranks, rank in enumerate("12345678")}}
# Decimal without leading zeros.
NUMBER = re.compile(rb"0|[1-9][0-9]*")


class Line:
    """What a line that is not refused says."""

    def __init__(self, board, state, half_points, start, length):
        self.board = board
        self.state = state
        self.side = state.side
        self.half_points = half_points
        self.start = start
        self.length = length


def taken(byte):
    return 32 <= byte <= 126 or byte in b"\t\r"


def rank_of(text):
    """The eight codes of a rank; PLACE unless letters and digits total eight, and no digit follows a digit (02, W-203)."""
    codes = []
    for byte, before in zip(text, b"/" + text):
        refuse_unless(byte in PIECES or byte in DIGITS and before not in DIGITS, PLACE)
        codes += [PIECES[byte]] if byte in PIECES else [EMPTY] * DIGITS[byte]
    refuse_unless(len(codes) == 8, PLACE)
    return codes


def placement(text):
    """Eight ranks from 8 to 1, as codes from a1 to h8."""
    ranks = [rank_of(rank) for rank in text.split(b"/")]
    refuse_unless(len(ranks) == 8, PLACE)
    return [piece for rank in reversed(ranks) for piece in rank]


def read_state(words, board):
    """Side; then nothing, or rights and square, or these and both counters. Each is refused by its text or by its rule before the next is looked at;
    three fields of a line lack the square, five and more than six are not its counters."""
    refuse_unless(words and words[0] in SIDES, SIDE)
    state = State(SIDES[words[0]])
    if len(words) > 1:
        refuse_unless(words[1] in RIGHTS_OF and at_home(RIGHTS_OF[words[1]], board), RIGHTS)
        refuse_unless(len(words) > 2 and words[2] in SQUARE_OF and just_passed(SQUARE_OF[words[2]], state.side, board), PASSANT)
        state.rights, state.passant = RIGHTS_OF[words[1]], SQUARE_OF[words[2]]
    if len(words) > 3:
        refuse_unless(len(words) == 5 and all(NUMBER.fullmatch(word) for word in words[3:]), COUNTER)
        state.halfmoves, state.moves = (int(word) for word in words[3:])
        refuse_unless(counted(state.halfmoves, state.moves), COUNTER)
    return state


def position_of(field):
    """The board and state of a trimmed position field. The ranks end at the first space or the field's end, and spaces alone part what follows."""
    ranks, _, after = field.partition(b" ")
    board = placement(ranks)
    return board, read_state([word for word in after.split(b" ") if word], board)


def read_line(line):
    refuse_unless(len(line) <= LONGEST, LONG)
    refuse_unless(all(taken(byte) for byte in line), BYTE)
    refuse_unless(b";" in line, FIELD)
    fields = line.split(b";")
    field, result = fields[0].strip(BLANK), fields[1].strip(BLANK)
    board, state = position_of(field)
    refuse_unless(result in HALF_POINTS, RESULT)
    start = len(fields[0]) - len(fields[0].lstrip(BLANK))
    return Line(board, state, HALF_POINTS[result], start, len(field))


def position_field(line):
    """The trimmed field as a part of the line; the empty part exactly when the line is refused."""
    try:
        read = read_line(line)
    except Refused:
        return b""
    return line[read.start:read.start + read.length]


def lines_of(collection):
    """The lines of a collection: each ends before LF or the end of input, one CR before an LF is dropped."""
    ended = collection.split(b"\n")
    last = ended.pop()
    lines = [line[:-1] if line.endswith(b"\r") else line for line in ended]
    return lines + [last] if last else lines
