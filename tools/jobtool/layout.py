"""The job file and the recording: records of a body's length (u16), a kind (u16) and the body, all little-endian (docs/REFERENCE.md)."""
import struct

from jobtool.wrong import Wrong

SETTINGS, BASE, PERSON, RANGE, FREEZE, OWNER, DRAW, RECORDED, CLOSE = range(1, 10)
NOBODY = 255
BODY_MOST = 65535

# What a body of each kind holds.
BODIES = {
    SETTINGS: struct.Struct("<BBBBHH"),  # fairness, lock, boundary, edition, value, days
    BASE: struct.Struct("<II"),  # start, end
    PERSON: struct.Struct("<8sI"),  # capacity's bits, prior minutes
    RANGE: struct.Struct("<HII"),  # person, start, end
    FREEZE: struct.Struct("<I"),  # instant
    OWNER: struct.Struct("<HH"),  # slot, owner
    DRAW: struct.Struct("<HHH"),  # draw, first, second
    RECORDED: struct.Struct("<HHHH"),  # draw, first, second, answer
    CLOSE: struct.Struct("<"),  # nothing
}


def body(kind, *fields):
    return BODIES[kind].pack(*fields)


def fields(kind, data):
    """What a body holds, or None where it isn't one of its kind."""
    if kind not in BODIES or BODIES[kind].size != len(data):
        return None
    return BODIES[kind].unpack(data)


def file_of(records):
    return b"".join(struct.pack("<HH", len(data), kind) + data for kind, data in records)


def records_of(data):
    """The records of a file, one by one: kind and body. A file that is cut is wrong where it is cut."""
    at = 0
    while at < len(data):
        left = len(data) - at - 4
        if left < 0:
            raise Wrong("byte %d: %d bytes are left over" % (at, left + 4))
        size, kind = struct.unpack_from("<HH", data, at)
        if left < size:
            raise Wrong("byte %d: a record of kind %d is cut: %d of %d bytes" % (at, kind, left, size))
        yield kind, data[at + 4 : at + 4 + size]
        at += 4 + size
