"""The forms in which a listing is written: lines, CSV, JSON; with dates, units and frozen slots where they are asked for."""
import csv
import io
import json

from jobtool import times


def as_lines(lines, listing, job, wants):
    """The program's own lines; of the slots, times as dates, the unit and 'frozen' where asked."""
    if listing.refusal is not None:
        return lines
    units = job.units(listing.slots)
    lines = lines.splitlines()
    for i, slot in enumerate(listing.slots):
        owner = "-" if slot.owner is None else slot.owner
        lines[i] = "S %d %s %s %s" % (slot.number, shown(slot.start, wants), shown(slot.end, wants), owner)
        lines[i] += " unit %d" % units[i] if wants.units else ""
        lines[i] += " frozen" if wants.frozen and job.is_frozen(slot) else ""
    return "\n".join(lines) + "\n"


def shown(minute, wants):
    return "%s %s" % (times.weekday_of(minute), times.date_of(minute)) if wants.dates else str(minute)


def slot_rows(listing, job, wants):
    """A dict a slot, in the order in which its fields are written."""
    units = job.units(listing.slots)
    for i, slot in enumerate(listing.slots):
        row = {"slot": slot.number}
        for name, minute in (("start", slot.start), ("end", slot.end)):
            row[name] = times.date_of(minute) if wants.dates else minute
            if wants.dates:
                row[name + "_day"] = times.weekday_of(minute)
        row.update(owner=slot.owner, minutes=slot.minutes)
        if wants.units:
            row["unit"] = units[i]
        if wants.frozen:
            row["frozen"] = job.is_frozen(slot)
        yield row


def as_json(lines, listing, job, wants):
    if listing.refusal is not None:
        refusal = listing.refusal
        whole = {"refused": refusal.number, "sentence": refusal.sentence}
        if refusal.part:
            whole.update(part=refusal.part, place=refusal.place, second=refusal.second)
        return json.dumps(whole, indent=1) + "\n"
    parts = {
        "slots": list(slot_rows(listing, job, wants)),
        "people": [{"person": p.number, "minutes": p.minutes, "target": p.target} for p in listing.people],
        "draws": [{"draw": i, "answer": answer} for i, answer in enumerate(listing.answers)],
    }
    # a line a slot, a person, a draw
    whole = ['"%s": [\n%s\n]' % (name, ",\n".join(map(json.dumps, rows))) if rows else '"%s": []' % name for name, rows in parts.items()]
    return "{\n%s,\n\"uncovered\": %d\n}\n" % (",\n".join(whole), listing.uncovered)


def as_csv(lines, listing, job, wants):
    """One table of all lines: `line` says which, `number` is the slot's, the person's, the draw's or the refusal's. A refusal's
    sentence, with its place where it has one, stands for an answer."""
    days = ["start_day", "end_day"] if wants.dates else []
    extra = [name for name in ("unit", "frozen") if getattr(wants, "units" if name == "unit" else name)]
    names = ["line", "number", "start", "end"] + days + ["owner", "minutes"] + extra + ["target", "answer"]
    out = io.StringIO()
    table = csv.DictWriter(out, names, lineterminator="\n")
    table.writeheader()
    if listing.refusal is not None:
        table.writerow({"line": "refused", "number": listing.refusal.name, "answer": listing.refusal.sentence})
        return out.getvalue()
    for row in slot_rows(listing, job, wants):
        if wants.frozen:
            row["frozen"] = "yes" if row["frozen"] else "no"
        table.writerow({"line": "slot", "number": row.pop("slot"), **row})
    for p in listing.people:
        table.writerow({"line": "person", "number": p.number, "minutes": p.minutes, "target": p.target})
    for i, answer in enumerate(listing.answers):
        table.writerow({"line": "draw", "number": i, "answer": answer})
    table.writerow({"line": "uncovered", "minutes": listing.uncovered})
    return out.getvalue()
