"""Boltraven for Python: whole jobs, by the shared library.

    >>> listing = boltraven.run_job(open("paper.job", "rb").read())

A job that isn't taken raises Refusal, with its number and its sentence; a failed recount also with its part and its place. The library is for x86-64 Linux; it is the file that the environment
variable BOLTRAVEN_SO names, or libboltraven_c.so in ../lib beside this file's folder, or in this file's own folder.
"""
import ctypes
import os

__all__ = ["FAULTS", "Refusal", "SENTENCES", "VERSION", "run_job"]

VERSION = "0.4.0"

# What a refusal's number says.
SENTENCES = {
    1: "A count is outside its limits, or a set is longer than 1,024 slots.",
    2: "A lent buffer is shorter than needed.",
    3: "A base slot is empty or reversed, ends after minute 100,000,000, or starts before the previous one ends.",
    4: "A range starts after its end, ends after minute 100,000,000, or names an unknown person.",
    5: "More than 1,024 atomic slots result, or a store of settings has no room.",
    6: "A capacity is no number from 0 to 1,000, or prior minutes are above 100,000,000.",
    7: "Fairness, lock, boundary, every-count, weekday mask, shift days, cap or rest are outside their limits.",
    8: "An unrounded target is not finite, or of size 2^40 or more.",
    9: "Lent slots are empty, reversed, too late or overlap, or unit starts don't rise from 0 below the slot count.",
    10: "The recount fails: owners, units, sets, minutes and totals don't fit together.",
    11: "A slot, unit, person or index is not below its count, or no saved settings have the number.",
    12: "A person is to get a slot for which they aren't available.",
    13: "The job file, a recording or the store of settings breaks its layout or is too long.",
}

# What a part of the recount, which is refusal 10, says of its place.
FAULTS = {
    1: "slot {place}'s owner is unknown",
    2: "slot {place}'s owner is not available for it",
    3: "unit {place} has more than one owner",
    4: "person {place}'s set is wrong at slot {second}",
    5: "person {place}'s minutes are wrong",
    6: "stored total {place} is wrong (0 is the uncovered minutes, 1 the unassigned slots)",
}

# Room for a listing, in bytes: more than the longest one needs.
ROOM = 65536


class Refusal(Exception):
    """Why a job was refused: its number, 1 to 13, and its sentence. Of 10, part, place and second number say where the recount failed; of the
    others they are 0."""

    def __init__(self, number, part=0, place=0, second=0):
        self.number, self.part, self.place, self.second = number, part, place, second
        self.sentence = SENTENCES[number]
        if part:
            self.sentence = "The recount fails: %s." % FAULTS[part].format(place=place, second=second)
        super().__init__("refused by %s: %s" % ("%d.%d" % (number, part) if part else number, self.sentence))


def _load():
    here = os.path.dirname(os.path.abspath(__file__))
    places = [os.path.join(here, "..", "lib", "libboltraven_c.so"), os.path.join(here, "libboltraven_c.so")]
    path = os.environ.get("BOLTRAVEN_SO") or next((place for place in places if os.path.exists(place)), places[0])
    try:
        library = ctypes.CDLL(path)
    except OSError as error:
        machine = os.uname().machine
        raise OSError("Boltraven's library is for x86-64 Linux, and this is %s: %s" % (machine, error)) from None
    library.boltraven_version.argtypes = []
    library.boltraven_version.restype = ctypes.c_uint32
    library.boltraven_run_job.argtypes = [
        ctypes.c_char_p,
        ctypes.c_size_t,
        ctypes.c_char_p,
        ctypes.c_size_t,
        ctypes.POINTER(ctypes.c_uint64),
    ]
    library.boltraven_run_job.restype = ctypes.c_uint64
    number = library.boltraven_version()
    found = "%d.%d.%d" % (number // 10000, number // 100 % 100, number % 100)
    if found != VERSION:
        raise ImportError("the library at %s is version %s, and this module %s" % (path, found, VERSION))
    return library


_library = _load()


def run_job(file):
    """The listing of a job file, given as bytes: a line for each slot, person and draw, and one for the uncovered minutes."""
    file = bytes(file)
    room = ctypes.create_string_buffer(ROOM)
    length = ctypes.c_uint64()
    answer = _library.boltraven_run_job(file, len(file), room, ROOM, ctypes.byref(length))
    if answer:
        raise Refusal(answer & 255, answer >> 8 & 255, answer >> 16 & 65535, answer >> 32 & 65535)
    return room.raw[: length.value].decode("ascii")
