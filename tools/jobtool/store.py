"""A store of settings as a file: its used bytes alone, records numbered from 1 (docs/REFERENCE.md)."""
from jobtool import layout, text
from jobtool.layout import SETTINGS
from jobtool.wrong import Wrong

# The kinds: the old body, the body with its edition, and the last of the newer ones; and the most records.
OLD, EDITION, LAST = 32, 33, 63
RECORDS_MOST = 128


def entries_of(data):
    """The kind and the body of each record, in order. A store whose layout is broken is wrong where it is."""
    entries = list(layout.records_of(data))
    if len(entries) > RECORDS_MOST:
        raise Wrong("%d records, where a store has at most %d" % (len(entries), RECORDS_MOST))
    for number, (kind, body) in enumerate(entries, 1):
        if not OLD <= kind <= LAST:
            raise Wrong("record %d: a store has kinds %d to %d, not %d" % (number, OLD, LAST, kind))
        if kind <= EDITION and layout.fields(SETTINGS, body) is None:
            raise Wrong("record %d: settings have 8 bytes, not %d" % (number, len(body)))
        if kind == OLD and body[3]:
            raise Wrong("record %d: an old record's zero byte is %d" % (number, body[3]))
    return entries


def line_of(kind, body):
    """A record as text: settings as a job has them, or the bytes of a newer record."""
    return text.line_of(SETTINGS, body) if kind <= EDITION else "newer kind %d %s" % (kind, body.hex())


def settings_of(data, number):
    """The body of the settings record that a number stands for, as a job has it."""
    entries = entries_of(data)
    if not 1 <= number <= len(entries):
        raise Wrong("no record has the number %d: there are %d" % (number, len(entries)))
    kind, body = entries[number - 1]
    if kind > EDITION:
        raise Wrong("record %d is newer than this reader (kind %d)" % (number, kind))
    return body
