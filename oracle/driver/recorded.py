"""The recorded questions and answers, in sets of parallel files."""

from reference.line import read_line
from reference.refusal import Refused

from . import voices

FOLDER = voices.ORACLE / "recorded"

# A set's questions, its answers, and its families if it has any.
SETS = {
    "recorded": ("questions.txt", "answers.txt", "families.txt"),
    "ruled": ("ruled-questions.txt", "ruled-answers.txt", None),
    "fits": ("fits-questions.txt", "fits-answers.txt", None),
    "ruled-fits": ("ruled-fits-questions.txt", "ruled-fits-answers.txt", None),
}


def rows(name):
    return (FOLDER / name).read_text().splitlines()


def read(name):
    """Pairs of family and question, and the answers."""
    questions, answers, families = SETS[name]
    asked = rows(questions)
    return list(zip(rows(families) if families else [name] * len(asked), asked)), rows(answers)


def write(name, pairs, answers):
    for file, content in zip(SETS[name], ([pair[1] for pair in pairs], answers, [pair[0] for pair in pairs])):
        if file:
            write_rows(file, content)


def write_rows(file, content):
    (FOLDER / file).write_text("".join(row + "\n" for row in content))
    print(file, len(content))


def line_answer(line):
    """`refused N`; or side, half points, start and length of the position field, 64 codes in hex from a1, four rights, square, both counters."""
    try:
        read = read_line(line)
    except Refused as refused:
        return f"refused {refused.number}"
    codes = "".join(f"{code:x}" for code in read.board)
    state = read.state
    rights, square = "".join(str(int(right)) for right in state.rights), "none" if state.passant is None else state.passant
    return f"{read.side} {read.half_points} {read.start} {read.length} {codes} {rights} {square} {state.halfmoves} {state.moves}"
