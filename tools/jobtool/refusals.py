"""The refusals, by tools/refusals.txt: number, name and sentence, the same for every caller; and by tools/faults.txt the parts of 10, with what
each says of its place."""
import os
from dataclasses import dataclass

TOOLS = os.path.dirname(os.path.dirname(os.path.abspath(__file__)))


def table(name):
    """Number, name, sentence of each line."""
    with open(os.path.join(TOOLS, name), encoding="utf-8") as lines:
        parts = [line.rstrip("\n").split("\t") for line in lines]
    return [(int(number), name, sentence) for number, name, sentence in parts]


def rows():
    return table("refusals.txt")


def faults():
    return table("faults.txt")


def sentence_of(number):
    return {n: sentence for n, _, sentence in rows()}[number]


@dataclass(frozen=True)
class Refusal:
    """A refusal's number; of 10 the part of the recount that failed, its place, and the second number of part 4."""

    number: int
    part: int = 0
    place: int = 0
    second: int = 0

    @property
    def name(self):
        """The number as the listing writes it: 3, or 10.3."""
        return "%d.%d" % (self.number, self.part) if self.part else str(self.number)

    @property
    def sentence(self):
        if not self.part:
            return sentence_of(self.number)
        fault = {part: sentence for part, _, sentence in faults()}[self.part]
        return "The recount fails: %s." % fault.format(place=self.place, second=self.second)


def read(words):
    """The refusal of a line of the listing, without its R: `3`, `10.3 7` or `10.4 2 17`."""
    number, _, part = words[0].partition(".")
    places = [int(word) for word in words[1:]]
    return Refusal(int(number), int(part or 0), *places)
