"""The listing that the program writes, as records."""
from dataclasses import dataclass, field
from typing import List, Optional

from jobtool import refusals
from jobtool.wrong import Wrong

ANSWERS = {"A": "acted", "N": "no move", "C": "choice outside"}


@dataclass
class Slot:
    number: int
    start: int
    end: int
    owner: Optional[int]  # None: nobody

    @property
    def minutes(self):
        return self.end - self.start


@dataclass
class Person:
    number: int
    minutes: int
    target: int


@dataclass
class Listing:
    slots: List[Slot] = field(default_factory=list)
    people: List[Person] = field(default_factory=list)
    answers: List[str] = field(default_factory=list)  # of the draws, as words
    uncovered: int = 0
    refusal: Optional[refusals.Refusal] = None  # and then nothing else


def read(text):
    listing = Listing()
    for line in text.splitlines():
        kind, *words = line.split()
        if kind == "S":
            number, start, end, owner = words
            listing.slots.append(Slot(int(number), int(start), int(end), None if owner == "-" else int(owner)))
        elif kind == "P":
            listing.people.append(Person(*map(int, words)))
        elif kind == "D":
            listing.answers.append(ANSWERS[words[1]])
        elif kind == "U":
            listing.uncovered = int(words[0])
        elif kind == "R":
            listing.refusal = refusals.read(words)
        else:
            raise Wrong("the program wrote a line that no listing has: '%.40s'" % line)
    return listing
