"""A job's records by name, and what a reader of its rota asks besides the listing: units, frozen slots, runs, who is away when.

Nothing of this is proved: it is worked out here, by the rules of docs/REFERENCE.md, to be shown.
"""
import struct

from jobtool import layout, times


class Job:
    """What an accepted job's file says."""

    def __init__(self, records):
        found = {kind: [layout.fields(kind, data) for k, data in records if k == kind] for kind in layout.BODIES}
        self.fairness, self.lock, self.boundary, self.edition, self.value, self.days = found[layout.SETTINGS][0]
        self.people = [(struct.unpack("<d", bits)[0], prior) for bits, prior in found[layout.PERSON]]
        self.ranges = found[layout.RANGE]
        self.freeze = found[layout.FREEZE][0][0] if found[layout.FREEZE] else None

    def unit_starts(self, slots):
        """The first slot of each unit: of each slot unlocked, of each rotation locked."""
        if not self.lock:
            return list(range(len(slots)))
        if self.boundary == 0:
            return list(range(0, len(slots), self.value or 1))
        return [0] + [i for i in range(1, len(slots)) if self.begins(slots[i - 1].start, slots[i].start)]

    def begins(self, before, start):
        """Whether a rotation by weekdays begins at a slot: on another date than the slot before it, and on a listed day."""
        weekday = times.WEEKDAYS.index(times.weekday_of(start))
        return before // times.DAY != start // times.DAY and bool(self.value >> weekday & 1)

    def units(self, slots):
        """Each slot's unit."""
        starts = set(self.unit_starts(slots))
        units, unit = [], -1
        for i in range(len(slots)):
            unit += i in starts
            units.append(unit)
        return units

    def is_frozen(self, slot):
        return self.freeze is not None and slot.end <= self.freeze

    def away(self, person, start, end):
        """The stretches of a time in which a person isn't available."""
        at, gaps = start, []
        for opens, shuts in sorted((a, b) for p, a, b in self.ranges if p == person and a < b):
            if opens > at:
                gaps.append((at, min(opens, end)))
            at = max(at, shuts)
            if at >= end:
                break
        if at < end:
            gaps.append((at, end))
        return [(a, b) for a, b in gaps if a < b]


def runs(slots):
    """The maximal stretches of neighbouring slots with one owner, each as its slots."""
    found = []
    for slot in slots:
        if found and found[-1][-1].owner == slot.owner:
            found[-1].append(slot)
        else:
            found.append([slot])
    return found
