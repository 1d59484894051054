"""Questions of a seed that the rules of 02 alone answer: exchanges in both modes, lines of two, four and six fields, states, lists, records, gradients."""

from reference.attack import attacks_from
from reference.pieces import CODE_OF_KIND, EMPTY, KING, PAWN, ROOK, code
from reference.seeded import WORD, stream, to_bits
from reference.state import HOMES, State
from reference.store import record
from reference.writer import position_text

from .orders import NO_ORDERS, ORDERS, text

KINDS_DRAWN = CODE_OF_KIND[:5] + CODE_OF_KIND[:1] * 2
NO_SQUARE = 255
# Draws of one position are far from those of the next.
APART = 0x9E3779B97F4A7C15


def board_and_state(draws, passing):
    """A random board with up to 30 pieces, a king a side at times, and its state; where asked for a pawn has just passed a square and one may take it."""
    board, side = [EMPTY] * 64, next(draws) % 2
    for _ in range(3 + next(draws) % 26):
        board[next(draws) % 64] = KINDS_DRAWN[next(draws) % 7] + next(draws) % 2
    if next(draws) % 2:
        for colour in (0, 1):
            board[next(draws) % 64] = code(KING, colour)
    if not passing:
        return board, State(side)
    file, rank = next(draws) % 8, 4 - side
    square, beside = 8 * (rank + (1 if side == 0 else -1)) + file, file + 1 if file == 0 or file < 7 and next(draws) % 2 else file - 1
    board[square], board[8 * rank + file], board[8 * rank + beside] = EMPTY, code(PAWN, 1 - side), code(PAWN, side)
    return board, State(side, passant=square)


def with_rights(draws, board, state):
    """Kings and rooks at home at times, now and then a king more, of the rights that they bear out some, and any counters."""
    rights, more = [], next(draws) % 64
    if next(draws) % 32 == 0 and board[more] == EMPTY and more != state.passant:
        board[more] = code(KING, next(draws) % 2)
    for colour, king, rook in HOMES:
        if next(draws) % 4 == 0:
            board[:] = [EMPTY if piece == code(KING, colour) else piece for piece in board]
            board[king], board[rook] = code(KING, colour), code(ROOK, colour)
        at_home = board[king] == code(KING, colour) and board[rook] == code(ROOK, colour)
        rights.append(at_home and next(draws) % 2 == 1)
    return State(state.side, rights, state.passant, next(draws) % 10000, 1 + next(draws) % 9999)


def line(board, state, fields):
    """The line with its first two, four or six fields."""
    words = position_text(board, state).decode().split(" ")
    return " ".join(words[:fields]) + ";1-0"


def captures(board, state):
    """Who may take what: pieces of the other side, and the en passant square."""
    occupied = sum(1 << square for square in range(64) if board[square] != EMPTY)
    targets = [square for square in range(64) if square == state.passant or board[square] != EMPTY and board[square] % 2 != state.side]
    own = [square for square in range(64) if board[square] != EMPTY and board[square] % 2 == state.side]
    reach = {start: attacks_from(board[start], start, occupied) for start in own}
    return [(start, target) for target in targets for start in own if reach[start] >> target & 1]


def of_exchanges(draws, board, state, position):
    """Some captures in a drawn order, each in both modes; one that is none, and one in no order at times."""
    found = captures(board, state)
    some = [found[next(draws) % len(found)] for _ in range(3)] if found else []
    some += [(start, state.passant) for start, target in found if target == state.passant][:2]
    for start, target in (*dict.fromkeys(some), (next(draws) % 65, next(draws) % 65)):
        order = text(ORDERS[next(draws) % len(ORDERS)]) if next(draws) % 16 else NO_ORDERS[next(draws) % len(NO_ORDERS)]
        for word in ("see_by", "see_second", "captures", "captures_second"):
            yield f"{word} {order} {start} {target} {position}"


def of_states(draws, state, position):
    """The position in its own state and in one with each part at fault at times."""
    rights = sum(right << place for place, right in enumerate(state.rights))
    passant = NO_SQUARE if state.passant is None else state.passant
    yield f"state {state.side} {rights} {passant} {state.halfmoves} {state.moves} {position}"
    side = next(draws) % (3 if next(draws) % 8 == 0 else 2)
    rights = next(draws) % 16 if next(draws) % 3 == 0 else rights
    passant = next(draws) % 256 if next(draws) % 3 == 0 else passant
    halfmoves, moves = (next(draws) % 65536 if next(draws) % 4 == 0 else 1 + next(draws) % 9999 for _ in range(2))
    yield f"state {side} {rights} {passant} {halfmoves} {moves} {position}"


def of_lists(draws, position):
    """The trace and its double by way of the list, and those of a wild trace with one number changed."""
    yield f"list_trace {position}"
    yield f"list_double {next(draws) % 6} {next(draws) | 1} {position}"
    yield f"list_wild {next(draws) % 6} {next(draws) | 1} {next(draws) | 1}"
    yield f"list_odd {next(draws) % 794} {next(draws) % 4 - 1} {next(draws) % 6} {next(draws) | 1} {next(draws) | 1}"


def of_records(draws, board, state, position):
    """Written, with any half points; read again with some byte changed at times, and by a number that is not there."""
    half_points = next(draws) % (4 if next(draws) % 8 == 0 else 3)
    yield f"record {half_points} {position}"
    run = bytearray(record(board, state.side, half_points))
    for _ in range(next(draws) % 3):
        run[next(draws) % len(run)] = next(draws) % 256
    del run[len(run) - (next(draws) % 16 == 0):]
    yield " ".join(map(str, ("stored", next(draws) % 16 // 15, *run)))


def of_fits(draws, position, first):
    """A line's part of a gradient, flat or by way of its list, added to what the lines before it made; a step at times."""
    if first:
        yield f"fit {to_bits(1.0)}"
    coefficient = to_bits((next(draws) % 2**40 - 2**39) / 2**43)
    yield f"{'list_line' if next(draws) % 2 else 'line'} {coefficient} 0 {position}"
    yield "of 0"
    if next(draws) % 8 == 0:
        yield f"step {to_bits(1.0)} {1 + next(draws) % 50}"
        yield from (f"of {which}" for which in range(4))
        yield "put 0 779 0"
    value, k = (next(draws) % 2**20 - 2**19) / 256, (next(draws) % 25 + 1) / 10
    yield f"weigh {to_bits(value)} {next(draws) % 4} {to_bits(k)} {next(draws) % 10**6}"


def of_position(seed, number, first):
    """All questions of a position of the seed, as pairs of family and question."""
    draws = stream((seed * APART ^ number + 1) & WORD or 1)
    for _ in range(4):
        next(draws)
    board, state = board_and_state(draws, number % 2 == 0)
    state = with_rights(draws, board, state)
    position = line(board, state, 6)
    yield from (("lines", f"eval {line(board, state, fields)}") for fields in (2, 4, 6))
    for family, questions in (("exchanges", of_exchanges(draws, board, state, position)), ("states", of_states(draws, state, position)),
                              ("lists", of_lists(draws, position)), ("records", of_records(draws, board, state, position)),
                              ("fits", of_fits(draws, position, first))):
        yield from ((family, question) for question in questions)


def questions(seed, first, count):
    """Those of some positions of a seed; a fit begins with the first of them."""
    return [pair for number in range(first, first + count) for pair in of_position(seed, number, number == first)]
