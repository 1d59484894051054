"""Questions of a position in a state that no line need say (02, W-213): RIGHTS, PASSANT, COUNTER by value, and what comes before them."""

from itertools import product

from .rest import BOTH, HOME, PASSED

NONE = 255
BOARDS = {name: f"{board.decode()} w;1-0" for name, board in (("home", HOME), ("white", BOTH[b"w"]), ("black", BOTH[b"b"]), ("passed", PASSED[b"w"]))}
BARE = "4k3/8/8/8/8/8/4P3/4K3 w;1-0"
D6, E3 = 43, 20


def asked(side, rights, passant, halfmoves, moves, position):
    return f"state {side} {rights} {passant} {halfmoves} {moves} {position}"


def of_rights():
    """All sixteen with either side to move; on a board that has kings alone; with one rook each away."""
    yield from (asked(rights % 2, rights, NONE, 0, 1, BOARDS["home"]) for rights in range(16))
    yield from (asked(1, rights, NONE, 0, 1, BARE) for rights in (0, 1, 2, 4, 8, 15))
    for away in ("r3k2r/8/8/8/8/8/8/R3K1R1", "r3k2r/8/8/8/8/8/8/1R2K2R", "r3k1r1/8/8/8/8/8/8/R3K2R", "1r2k2r/8/8/8/8/8/8/R3K2R"):
        yield from (asked(0, rights, NONE, 0, 1, f"{away} w;1-0") for rights in (1, 2, 4, 8, 15))


def of_squares():
    """Every square and some past the board, where a pawn has passed d6 and where one has passed e3."""
    for square in (*range(16, 24), *range(40, 48), 0, 35, 36, 63, 64, 65, 107, 128, 254, NONE):
        yield asked(0, 15, square, 0, 1, BOARDS["white"])
        yield asked(1, 15, square, 0, 1, BOARDS["black"])
    for side, square in product((0, 1), (D6, E3)):
        yield asked(side, 0, square, 0, 1, BOARDS["white"])
        yield asked(side, 0, square, 0, 1, BOARDS["black"])


def of_counters():
    for number in (0, 1, 2, 99, 9998, 9999, 10000, 10001, 32768, 65535):
        yield asked(0, 0, NONE, number, 1, BOARDS["passed"])
        yield asked(1, 0, NONE, 0, number, BOARDS["passed"])


def of_two():
    """Two faults and more at once: SHAPE before all, RIGHTS before PASSANT before COUNTER; and what is at odds before any of them."""
    for side, rights, passant, halfmoves, moves in product((0, 2), (0, 1), (NONE, 64, E3), (0, 10000), (1, 0)):
        yield asked(side, rights, passant, halfmoves, moves, BARE)
    yield from (asked(side, 15, D6, 9999, 9999, BOARDS["white"]) for side in (0, 1, 2, 255))
    # A rook off its own board only: UNION at its home, and not RIGHTS; a pawn bit where the pawn has passed: OVERLAP, and not PASSANT.
    home, white = f"{HOME.decode()} w KQkq - 0 1;1-0", f"{BOTH[b'w'].decode()} w KQkq d6 0 1;1-0"
    for index, bits, square, byte, position in ((10, 1 << 7, 0, 10, home), (10, 1 << 7, 7, 0, home), (6, 1 << 4, 4, 6, home), (11, 1 << 56, 56, 11, home),
                                                (0, 0, 7, 0, home), (0, 0, 4, 4, home),
                                               (2, 1 << 35, 35, 3, white), (3, 1 << 35, 35, 0, white), (0, 0, 35, 0, white), (0, 0, 43, 2, white),
                                               (2, 1 << 43, 43, 2, white)):
        yield f"bent {index} {bits} {square} {byte} {position}"


def questions():
    return [*of_rights(), *of_squares(), *of_counters(), *of_two()]
