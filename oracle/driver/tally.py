"""How many answers of two voices agree, by word and by family, and which question is the first that does not."""

from collections import Counter


class Tally:
    def __init__(self, first, second):
        self.voices = (first, second)
        self.asked = {"word": Counter(), "family": Counter()}
        self.agreed = {"word": Counter(), "family": Counter()}
        self.differing = 0
        self.first_difference = None

    def add(self, family, question, one, other):
        same = one == other
        for kind, name in (("word", question.split(" ", 1)[0]), ("family", family)):
            self.asked[kind][name] += 1
            self.agreed[kind][name] += same
        if not same:
            self.differing += 1
            self.first_difference = self.first_difference or (family, question, one, other)

    def add_all(self, pairs, answers, others):
        """Pairs of family and question, and the two voices' answers."""
        for (family, question), one, other in zip(pairs, answers, others, strict=True):
            self.add(family, question, one, other)

    def total(self):
        return sum(self.asked["word"].values())

    def report(self):
        """The rows to print: each word, each family, the total, the first difference."""
        rows = []
        for kind in ("word", "family"):
            rows += [f"{kind} {name} agree {self.agreed[kind][name]} of {asked}"
                     for name, asked in sorted(self.asked[kind].items())]
        rows.append(f"positions {self.asked['word']['eval']} captures {self.asked['word']['see']}")
        rows.append(f"{self.voices[0]} and {self.voices[1]}: {self.total() - self.differing} of {self.total()} agree, "
                    f"{self.differing} differ")
        if self.first_difference:
            family, question, one, other = self.first_difference
            rows.append(f"first difference, family {family}: {question}")
            rows += [f"  {voice}: {answer}" for voice, answer in zip(self.voices, (one, other))]
        return "\n".join(rows)
