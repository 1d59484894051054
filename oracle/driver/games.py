"""Published games played over: the moves of oracle/games.pgn, each legal, the positions that they come to, and the same with faults put in."""

import re

from driver import voices
from reference.attack import attackers, attacks_from
from reference.bitboard import scan
from reference.line import read_line
from reference.pieces import EMPTY, KIND_OF_CODE, KING, KNIGHT, LETTERS, PAWN, ROOK, WHITE, code
from reference.position import placed
from reference.state import HOMES, State
from reference.writer import position_text

START = "rnbqkbnr/pppppppp/8/8/8/8/PPPPPPPP/RNBQKBNR"
KINDS = {letter: KIND_OF_CODE[piece] for letter, piece in LETTERS.items() if letter.isupper()}
SHOWN = {piece: letter for letter, piece in LETTERS.items()}
MOVE = re.compile(r"([NBRQK])?([a-h])?([1-8])?x?([a-h][1-8])(?:=([NBRQ]))?[+#]?")


def square_of(name):
    return "abcdefgh".index(name[0]) + 8 * (int(name[1]) - 1)


class Game:
    """A game under way: the board, the side to move, the castlings that are left, the square that a pawn has passed, and both counters."""

    def __init__(self):
        ranks = [[EMPTY] * 8 if rank == "8" else [LETTERS[letter] for letter in rank] for rank in START.split("/")]
        self.board = [piece for rank in reversed(ranks) for piece in rank]
        self.side = WHITE
        self.home = {square for square in range(64) if square // 8 in (0, 7)}
        self.passed = None
        self.halfmoves, self.moves = 0, 1

    def position(self):
        return placed(self.board, self.state())

    def state(self):
        """The square is given after every pawn's step of two, whether it can be taken or not (PGN standard, 16.1.3.4)."""
        rights = ({king, rook} <= self.home for _, king, rook in HOMES)
        return State(self.side, rights, self.passed, self.halfmoves, self.moves)

    def attacked(self, square, by):
        position = self.position()
        return attackers(position, square, position.occupied()) & position.bitboards[by]

    def in_check(self, side):
        return self.attacked(scan(self.position().pieces(code(KING, side))), 1 - side)

    def reaches(self, start, target):
        """Whether the piece on the start may go to the target, checks aside."""
        piece, position = self.board[start], self.position()
        if position.bitboards[self.side] >> target & 1:
            return False
        if KIND_OF_CODE[piece] != PAWN:
            return attacks_from(piece, start, position.occupied()) >> target & 1
        if attacks_from(piece, start, 0) >> target & 1:
            return self.board[target] != EMPTY or target == self.passed
        ahead = 8 if self.side == WHITE else -8
        twice = start // 8 == (1 if self.side == WHITE else 6) and self.board[start + ahead] == EMPTY
        return self.board[target] == EMPTY and (target == start + ahead or twice and target == start + 2 * ahead)

    def after(self, start, target, promoted):
        """The board after a move; a pawn that was passed leaves it."""
        board, piece = list(self.board), self.board[start]
        board[start], board[target] = EMPTY, piece if promoted is None else code(promoted, self.side)
        if KIND_OF_CODE[piece] == PAWN and target == self.passed:
            board[target + (-8 if self.side == WHITE else 8)] = EMPTY
        return board

    def turn(self, board, moved, passed):
        """The board, if the side to move has not left its king in check; then the other side's turn."""
        before, self.board = self.board, board
        if self.in_check(self.side):
            self.board = before
            return False
        quiet = KIND_OF_CODE[before[moved[0]]] != PAWN and board.count(EMPTY) == before.count(EMPTY)
        self.halfmoves = self.halfmoves + 1 if quiet else 0
        self.moves += self.side
        self.home -= set(moved)
        self.side, self.passed = 1 - self.side, passed
        return True

    def castle(self, long):
        king, rook = 4 + 56 * self.side, (0 if long else 7) + 56 * self.side
        step = -1 if long else 1
        between = range(min(king, rook) + 1, max(king, rook))
        free = all(self.board[square] == EMPTY for square in between)
        if not (free and {king, rook} <= self.home) or any(self.attacked(king + k * step, 1 - self.side) for k in range(3)):
            return False
        board = list(self.board)
        board[king] = board[rook] = EMPTY
        board[king + 2 * step], board[king + step] = code(KING, self.side), code(ROOK, self.side)
        return self.turn(board, (king, rook), None)

    def play(self, move):
        """One move as it is written; whether exactly one piece may make it."""
        if move.rstrip("+#") in ("O-O", "O-O-O"):
            return self.castle(move.startswith("O-O-O"))
        kind, file, rank, target, promoted = MOVE.fullmatch(move).groups()
        kind, target = KINDS[kind or "P"], square_of(target)
        starts = [square for square in range(64)
                  if self.board[square] == code(kind, self.side) and file in (None, "abcdefgh"[square % 8])
                  and rank in (None, str(square // 8 + 1)) and self.reaches(square, target)]
        legal = [start for start in starts if self.stays_safe(start, target)]
        last = kind == PAWN and target // 8 in (0, 7)
        if len(legal) != 1 or last != (promoted is not None):
            return False
        start = legal[0]
        passed = (start + target) // 2 if kind == PAWN and abs(start - target) == 16 else None
        return self.turn(self.after(start, target, KINDS[promoted] if promoted else None), (start, target), passed)

    def stays_safe(self, start, target):
        before, self.board = self.board, self.after(start, target, None)
        safe = not self.in_check(self.side)
        self.board = before
        return safe


def shown(board, side, result):
    """A position as a line of a collection, of two fields."""
    rows = []
    for rank in range(7, -1, -1):
        text = "".join("1" if piece == EMPTY else SHOWN[piece] for piece in board[8 * rank:8 * rank + 8])
        rows.append(re.sub("1+", lambda run: str(len(run.group())), text))
    return f"{'/'.join(rows)} {'wb'[side]};{result}"


def games():
    """By game: its tags, its moves."""
    text = "\n".join(line for line in (voices.ORACLE / "games.pgn").read_text().splitlines() if not line.startswith("%"))
    for part in re.split(r"(?=^\[Event )", text, flags=re.M)[1:]:
        tags = dict(re.findall(r'^\[(\w+) "([^"]*)"\]$', part, flags=re.M))
        words = re.sub(r"^\[.*\]$", "", part, flags=re.M).split()
        yield tags, [word for word in words if not re.fullmatch(r"\d+\.|1-0|0-1|1/2-1/2", word)]


def lines():
    """The different positions of all games, by pieces and side, in their order: six fields and the result, of the first game that has them."""
    found = {}
    for tags, moves in games():
        game = Game()
        for number, move in enumerate([None] + moves):
            if move is not None and not game.play(move):
                voices.stop(f"{tags['White']} - {tags['Black']}, {tags['Event']} {tags['Date']}: move {(number + 1) // 2}, {move}, is not legal")
            whole = position_text(game.board, game.state()).decode()
            found.setdefault(shown(game.board, game.side, ""), f"{whole};{tags['Result']}")
    return list(found.values())


def set_where(board, piece, squares, upto):
    """The piece put on the empty ones of the squares until the colour has so many of what is counted."""
    for square in squares:
        if board[square] == EMPTY and not upto():
            board[square] = piece


def without_king(board, side):
    board[board.index(code(KING, side))] = EMPTY
    return side


def second_king(board, side):
    board[board.index(EMPTY)] = code(KING, side)
    return side


def nine_pawns(board, side):
    pawn = code(PAWN, side)
    set_where(board, pawn, range(16, 48), lambda: board.count(pawn) == 9)
    return side


def seventeen_pieces(board, side):
    set_where(board, code(KNIGHT, side), range(64), lambda: sum(piece != EMPTY and piece % 2 == side for piece in board) == 17)
    return side


def pawn_on_end(board, side):
    pawn, ends = code(PAWN, side), [*range(8), *range(56, 64)]
    free = [square for square in ends if board[square] == EMPTY]
    if pawn in board and free:
        board[board.index(pawn)] = EMPTY
        board[free[-1 if side == WHITE else 0]] = pawn
    return side


def other_to_move(board, side):
    return 1 - side


FAULTS = (without_king, second_king, nine_pawns, seventeen_pieces, pawn_on_end, other_to_move)


def broken(lines):
    """Every other line with a fault put in, one after another, and no field but ranks and side; a check that is given becomes one that was left, and other
    turns pass as they are."""
    made = []
    for number, line in enumerate(lines):
        read = read_line(line.encode())
        game = Game()
        game.board, game.side = list(read.board), read.side
        if game.in_check(read.side):
            fault = other_to_move
        elif number % 2 == 0:
            fault = FAULTS[number // 2 % len(FAULTS)]
        else:
            fault = None
        board, side = list(read.board), read.side
        side = side if fault is None else fault(board, side)
        made.append(shown(board, side, line.split(";")[1]))
    return made
