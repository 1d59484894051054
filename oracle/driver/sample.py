"""The recorded sample: which questions are kept, in which order."""

from . import tables, voices

SEED = 2026
POSITIONS = 3250

# How many questions of a word are kept from each family (and kind of weights), spread evenly over what was drawn.
KEPT = {
    "eval": 60, "ending": 16, "material": 24, "check": 20, "attacked": 24, "attacks_to": 24, "lvp": 24, "see": 60,
    "trace": 16, "double": 6, "piece_attacks": 240, "shift": 60, "count": 20, "scan": 20, "next": 20, "get": 20,
    "set": 20, "toggle": 20, "reset": 20, "wild": 50,
}

# What hangs on a single number at its bound is kept whole, and so are the tables.
WHOLE = ("bound", "eval")
ORDER = ["count", "scan", "next", "shift", "from_square", "get", "set", "toggle", "reset", "knight", "king", "pawn",
         "pst", "piece_attacks", "attacks_to", "attacked", "check", "lvp", "see", "ending", "material", "eval", "trace",
         "double", "wild"]


def listed():
    """The questions of both tables that the checked Rust and the reference answer alike."""
    rows = tables.read("listed.txt") + tables.read("intended.txt")
    return [("listed", row.question) for row in rows if row.rust == row.reference]


def spread(pairs, kept):
    """So many of them, at even distances."""
    if len(pairs) <= kept:
        return pairs
    return [pairs[place * len(pairs) // kept] for place in range(kept)]


def word_of(pair):
    return pair[1].split(" ", 1)[0]


def group_of(pair):
    """Family and word; the two words with weights are parted by kind of weights too."""
    words = pair[1].split(" ")
    return pair[0], words[0], words[1] if words[0] in ("double", "wild") else None


def chosen():
    """The sample as pairs of family and question, grouped by word."""
    groups = {}
    for pair in voices.generated(SEED, 0, POSITIONS):
        groups.setdefault(group_of(pair), []).append(pair)
    sample = listed() + voices.all_tables()
    for (family, word, _), pairs in groups.items():
        sample += pairs if (family, word) == WHOLE else spread(pairs, KEPT[word])
    sample = list(dict.fromkeys(sample))
    return sorted(sample, key=lambda pair: ORDER.index(word_of(pair)))
