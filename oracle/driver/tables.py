"""Tables of questions with the answer that each voice is known to give: listed.txt and intended.txt."""

from . import voices

NOT_ASKED = "-"


class Row:
    def __init__(self, text):
        self.question, self.rust, self.release, self.reference, mistake, self.words = text.split("\t")
        self.mistake = None if mistake == NOT_ASKED else tuple(mistake.split(" "))

    def wanted(self):
        """The voices asked, each with its answer."""
        answers = (("rust", self.rust), ("release", self.release), ("reference", self.reference))
        return [(voice, answer) for voice, answer in answers if answer != NOT_ASKED]

    def shown(self):
        answers = ", ".join(f"{voice} {answer}" for voice, answer in self.wanted())
        mistake = "" if self.mistake is None else f" ({' would say '.join(self.mistake)})"
        return f"{self.question}: {answers}{mistake}"


def read(name):
    text = (voices.ORACLE / name).read_text().splitlines()
    return [Row(row) for row in text if not row.startswith("#")]
