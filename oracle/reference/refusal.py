"""The refusals of document 01, "Numbers given back instead", and those of 02."""

SHAPE = 1
# 2 was BOARD. Document 02 has 14 to 16 in its place, and no other refusal has its number.
SCORE, SQUARE, MOVE, CROWD, TRACE, LONG, BYTE, FIELD, PLACE, SIDE, RESULT, OVERLAP, UNION, BYTEBOARD = range(3, 17)
ROOM = 17
LENGTH = 18
CODE = 19
ORDER = 20
ENTRY = 21
MANY = 22
ITERATION = 23
KINGS, PAWNS, PIECES, RANK, CHECK = range(24, 29)
RIGHTS, PASSANT, COUNTER = range(29, 32)
ABSENT = 32


class Refused(Exception):
    """An input that does not meet 01's rules; `number` is the answer, and `square` stands beside it if it names one."""

    def __init__(self, number, square=None):
        super().__init__(number, square)
        self.number = number
        self.square = square


def refuse_unless(held, number):
    """Tests are written in 01's order, so that the first broken one gives the number."""
    if not held:
        raise Refused(number)


def refuse_lowest(squares, number):
    """Refused with the lowest of the squares that are wrong, if there is one."""
    wrong = min(squares, default=None)
    if wrong is not None:
        raise Refused(number, wrong)
