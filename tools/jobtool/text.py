"""The text form of a job, and of a recording: a record a line.

One record a line, in the file's order; what follows # is a comment. UTF-8, with or without a byte-order mark. TIME is a number of minutes,
or a date like 1970-01-04T22:00.

  settings fairness 0 lock 1 weekdays mon,thu days 7     (or: every 1; or: boundary B value V; edition 2 of targets, else 1)
  base TIME TIME             start, end
  person CAPACITY PRIOR      capacity a number, or bits 0x7ff8000000000000; prior minutes
  range PERSON TIME TIME     person's number, start, end
  freeze TIME
  owner SLOT OWNER           a person's number, or - for nobody
  draw DRAW FIRST SECOND
  recorded DRAW FIRST SECOND ANSWER    in a recording: a draw with the answer that it got, 0 to 2
  close                                in a recording: the end of a block
  record KIND HEX            any other record, its body in hexadecimal

Text that is wrong is reported with its line, and no file is written. Order, counts and sense are not judged here: boltraven does that.
"""
import re
import struct

from jobtool import layout, times
from jobtool.layout import BASE, CLOSE, DRAW, FREEZE, NOBODY, OWNER, PERSON, RANGE, RECORDED, SETTINGS
from jobtool.wrong import Wrong

U16, U32, U64 = 2**16 - 1, 2**32 - 1, 2**64 - 1


# ---- from text


def number(word, most, what, least=0):
    if not re.fullmatch(r"[0-9]+|0[xX][0-9a-fA-F]+", word, re.ASCII):
        raise Wrong("%s is to be a number, not '%.40s'" % (what, word))
    n = int(word, 16 if word[1:2] in ("x", "X") else 10) if len(word) <= 40 else most + 1
    if not least <= n <= most:
        raise Wrong("%s is to be %d to %d, not %.40s" % (what, least, most, word))
    return n


def time(word):
    return times.minute_of(word) if "T" in word else number(word, U32, "a time")


def mask(word):
    if word == "none":
        return 0
    if word[:1].isdigit():
        return number(word, U16, "the weekdays")
    bits = 0
    for day in word.split(","):
        if day not in times.WEEKDAYS:
            raise Wrong("'%.40s' is no weekday of %s" % (day, " ".join(times.WEEKDAYS)))
        bits |= 1 << times.WEEKDAYS.index(day)
    return bits


# What each name of a setting gives, by its word.
GIVES = {
    "fairness": lambda word: {"fairness": number(word, 255, "fairness")},
    "lock": lambda word: {"lock": number(word, 255, "lock")},
    "boundary": lambda word: {"boundary": number(word, 255, "boundary")},
    "edition": lambda word: {"edition": number(word, 256, "edition", 1) - 1},
    "value": lambda word: {"value": number(word, U16, "value")},
    "days": lambda word: {"days": number(word, U16, "days")},
    "every": lambda word: {"boundary": 0, "value": number(word, U16, "every")},
    "weekdays": lambda word: {"boundary": 1, "value": mask(word)},
}


def settings(words):
    if len(words) % 2:
        raise Wrong("settings are pairs of a name and a value")
    names, given = words[::2], {}
    for name, word in zip(names, words[1::2]):
        if name not in GIVES:
            raise Wrong("settings have no '%.40s'" % name)
        if names.count(name) > 1:
            raise Wrong("settings have %s twice" % name)
        gives = GIVES[name](word)
        if gives.keys() & given.keys():
            raise Wrong("settings have two boundaries: give every, or weekdays, or boundary and value")
        given.update(gives)
    given.setdefault("edition", 0)
    order = ("fairness", "lock", "boundary", "edition", "value", "days")
    for name in order:
        if name not in given:
            raise Wrong("settings lack %s" % ("every or weekdays" if name in ("boundary", "value") else name))
    return layout.body(SETTINGS, *(given[name] for name in order))


def capacity(words):
    """The bits of a capacity: a number, or bits and a pattern."""
    if words[:1] == ["bits"]:
        return struct.pack("<Q", number(words[1], U64, "the pattern"))
    if not re.fullmatch(r"[-+]?([0-9]+\.?[0-9]*([eE][-+]?[0-9]+)?|\.[0-9]+|nan|inf)", words[0], re.ASCII):
        raise Wrong("capacity is to be a number, not '%.40s'" % words[0])
    return struct.pack("<d", float(words[0]))


def want(words, count, what):
    if len(words) != count:
        raise Wrong(what)


def record(word, words):
    """The kind and the body of a line."""
    if word == "settings":
        return SETTINGS, settings(words)
    if word == "base":
        want(words, 2, "a base slot is: start, end")
        return BASE, layout.body(BASE, time(words[0]), time(words[1]))
    if word == "person":
        want(words, 3 if words[:1] == ["bits"] else 2, "a person is: capacity (a number, or bits and a pattern), prior minutes")
        return PERSON, layout.body(PERSON, capacity(words), number(words[-1], U32, "prior minutes"))
    if word == "range":
        want(words, 3, "a range is: person, start, end")
        return RANGE, layout.body(RANGE, number(words[0], U16, "a person"), time(words[1]), time(words[2]))
    if word == "freeze":
        want(words, 1, "a freeze is: instant")
        return FREEZE, layout.body(FREEZE, time(words[0]))
    if word == "owner":
        want(words, 2, "an owner is: slot, person or -")
        owner = NOBODY if words[1] == "-" else number(words[1], U16, "an owner")
        return OWNER, layout.body(OWNER, number(words[0], U16, "a slot"), owner)
    if word == "draw":
        want(words, 3, "a draw is: draw, first, second")
        return DRAW, layout.body(DRAW, *(number(one, U16, "a draw's number") for one in words))
    if word == "recorded":
        want(words, 4, "a recorded draw is: draw, first, second, answer")
        return RECORDED, layout.body(RECORDED, *(number(one, U16, "a recorded draw's number") for one in words))
    if word == "close":
        want(words, 0, "a close has nothing after it")
        return CLOSE, layout.body(CLOSE)
    if word == "record":
        return other(words)
    raise Wrong("no record is called '%.40s'" % word)


def other(words):
    """Any record, by its kind and its body in hexadecimal."""
    if not words:
        raise Wrong("a record is: kind, body in hexadecimal")
    try:
        data = bytes.fromhex("".join(words[1:]))
    except ValueError:
        raise Wrong("a body is to be hexadecimal")
    if len(data) > layout.BODY_MOST:
        raise Wrong("a body is at most %d bytes" % layout.BODY_MOST)
    return number(words[0], U16, "a kind"), data


def decoded(line):
    if b"\0" in line:
        raise Wrong("no text in UTF-8: it has bytes of 0 (UTF-16 is to be saved as UTF-8; `job show` reads a job file)")
    try:
        return line.decode("utf-8")
    except UnicodeDecodeError as e:
        raise Wrong("no text in UTF-8: byte 0x%02x at column %d" % (line[e.start], e.start + 1))


def records_of(data):
    """The records of a text, given as bytes."""
    records = []
    for at, line in enumerate(data.removeprefix(b"\xef\xbb\xbf").splitlines(), 1):
        try:
            words = decoded(line).split("#")[0].split()
            if words:
                records.append(record(words[0], words[1:]))
        except Wrong as e:
            raise Wrong("line %d: %s" % (at, e))
    return records


# ---- to text


def line_of(kind, data, shown=str):
    """The line of a record, its times as `shown` gives them."""
    got = layout.fields(kind, data)
    if got is None:
        return "record %d %s" % (kind, data.hex())
    if kind == SETTINGS:
        fairness, lock, boundary, edition, value, days = got
        rest = " edition %d" % (edition + 1) if edition else ""
        return "settings fairness %d lock %d %s days %d%s" % (fairness, lock, rule_of(boundary, value), days, rest)
    if kind == BASE:
        return "base %s %s" % tuple(map(shown, got))
    if kind == PERSON:
        return "person %s %d" % (capacity_of(got[0]), got[1])
    if kind == RANGE:
        return "range %d %s %s" % (got[0], shown(got[1]), shown(got[2]))
    if kind == FREEZE:
        return "freeze %s" % shown(got[0])
    if kind == OWNER:
        return "owner %d %s" % (got[0], "-" if got[1] == NOBODY else got[1])
    if kind == RECORDED:
        return "recorded %d %d %d %d" % got
    if kind == CLOSE:
        return "close"
    return "draw %d %d %d" % got


def rule_of(boundary, value):
    if boundary == 0:
        return "every %d" % value
    if boundary == 1 and value < 128:
        return "weekdays " + (",".join(d for i, d in enumerate(times.WEEKDAYS) if value >> i & 1) or "none")
    return "boundary %d value %d" % (boundary, value)


def capacity_of(bits):
    """The shortest number with these bits, or the bits themselves where no number's text has them (a NaN)."""
    text = repr(struct.unpack("<d", bits)[0])
    return text if struct.pack("<d", float(text)) == bits else "bits 0x%016x" % struct.unpack("<Q", bits)
