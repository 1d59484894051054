"""The ledger program (01, "The ledger program"): a collection on standard input, its rows on standard output; with `--profile real-play` under 02's W-212."""

import sys

from .line import lines_of, read_line
from .position import placed
from .profile import judge
from .refusal import Refused
from .score import eval_position


def shown(read):
    """The score for the side to move, the verdict, or `over`."""
    try:
        return eval_position(placed(read.board, read.state))
    except Refused:
        return "over"


def read_real_play(line):
    """The line's refusals, then the profile's."""
    read = read_line(line)
    judge(placed(read.board, read.state))
    return read


def row(number, line, reader):
    """One line's row, and whether it was loaded."""
    try:
        read = reader(line)
    except Refused as refused:
        return f"{number} refused {refused.number}", False
    return f"{number} {read.half_points} {shown(read)}", True


def ledger(collection, reader=read_line):
    rows = [row(number, line, reader) for number, line in enumerate(lines_of(collection), 1)]
    loaded = sum(one[1] for one in rows)
    rows.append((f"lines {len(rows)} loaded {loaded} refused {len(rows) - loaded}", None))
    return "".join(text + "\n" for text, _ in rows)


READERS = {(): read_line, ("--profile", "real-play"): read_real_play}


if __name__ == "__main__":
    sys.stdout.write(ledger(sys.stdin.buffer.read(), READERS[tuple(sys.argv[1:])]))
