"""The least attacker and the exchange (01, "The exchange"), for any order of the kinds (02, W-206) and in both modes (W-213)."""

from .attack import attackers, attacks_from
from .bitboard import count, scan
from .pieces import COLOURS, EMPTY, KING, KIND_OF_CODE, KINDS, PAWN, QUEEN, VALUE, code
from .position import tested
from .refusal import CROWD, MOVE, ORDER, SQUARE, refuse_unless
from .state import passed

# In the first mode there is no promotion and no en passant; the second has both.
FIRST, SECOND = MODES = range(2)
PROMOTION = 913


def is_order(order):
    """Each kind once."""
    return sorted(order) == list(KINDS)


def least(position, colour, attacks, occupied, order=KINDS):
    """The lowest square of the first kind in the order that has an attacker still there, and the kind; or None."""
    still_there = attacks & occupied
    for kind in order:
        found = still_there & position.pieces(code(kind, colour))
        if found:
            return scan(found), kind
    return None


def lvp(position, colour, attacks, occupied, order=KINDS):
    tested(position, colour)
    refuse_unless(is_order(order), ORDER)
    return least(position, colour, attacks, occupied, order)


def passes(position, start, target):
    """A pawn of the side to move attacks the en passant square, which is the target."""
    pawn = code(PAWN, position.side)
    return target == position.state.passant and position.board[start] == pawn and attacks_from(pawn, start, 0) >> target & 1 == 1


def may_capture(position, start, target, mode=FIRST):
    """A piece of the side to move on the start, one of the other side on the target, and the first attacks it; in the second mode a pawn may pass, too."""
    if mode == SECOND and passes(position, start, target):
        return True
    piece, taken = position.board[start], position.board[target]
    if piece == EMPTY or taken == EMPTY or piece % 2 != position.side or taken % 2 == position.side:
        return False
    return attacks_from(piece, start, position.occupied()) >> target & 1 == 1


def crowded(position):
    several = any(count(position.pieces(code(KING, colour))) >= 2 for colour in COLOURS)
    return count(position.occupied()) > 32 or several


def capture_list(position, start, target, order=KINDS, mode=FIRST):
    """Each capture's square, kind and the value that it takes: v0 what is taken first, v1 the first capturer, and so on. In the second mode a passed pawn is v0
    and leaves with the first capture; a pawn that captures onto the last rank takes 913 more, and is a queen to who takes it."""
    captures = []
    capturer, side, occupied = (start, KIND_OF_CODE[position.board[start]]), position.side, position.occupied()
    if mode == SECOND and passes(position, start, target):
        standing = PAWN
        occupied &= ~(1 << passed(target, side))
    else:
        standing = KIND_OF_CODE[position.board[target]]
    while capturer is not None:
        square, kind = capturer
        promotes = mode == SECOND and kind == PAWN and target // 8 == (7, 0)[side]
        captures.append((square, kind, VALUE[standing] + (PROMOTION if promotes else 0)))
        standing = QUEEN if promotes else kind
        occupied &= ~(1 << square)
        side = 1 - side
        capturer = least(position, side, attackers(position, target, occupied), occupied, order)
    return captures


def values_taken(position, start, target, order=KINDS, mode=FIRST):
    return [taken for _, _, taken in capture_list(position, start, target, order, mode)]


def settled(values):
    """S(0), where S(i) = vi - max(0, S(i+1)) and the last S is its own value."""
    s = values[-1]
    for value in reversed(values[:-1]):
        s = value - max(0, s)
    return s


def begins(position, start, target, order, mode):
    tested(position)
    refuse_unless(0 <= start <= 63 and 0 <= target <= 63, SQUARE)
    refuse_unless(is_order(order), ORDER)
    refuse_unless(may_capture(position, start, target, mode), MOVE)
    refuse_unless(not crowded(position), CROWD)


def see(position, start, target, order=KINDS, mode=FIRST):
    begins(position, start, target, order, mode)
    return settled(values_taken(position, start, target, order, mode))


def stop(values):
    """The earliest capture after the first whose S is not above zero, or None (02, W-207)."""
    return next((place for place in range(1, len(values)) if settled(values[place:]) <= 0), None)


def told(position, start, target, order=KINDS, mode=FIRST):
    """All captures, and where the exchange stops; what is taken before that adds up to the value."""
    begins(position, start, target, order, mode)
    captures = capture_list(position, start, target, order, mode)
    return captures, stop([taken for _, _, taken in captures])
