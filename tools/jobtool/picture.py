"""A rota as one SVG that a planner reads at a glance: people down, time across.

Each run of slots is a row of blocks with its minutes above it, as far as there is room; hatched is where somebody is away, grey what is
frozen, red what nobody holds; minutes stand beside the published targets at the right. A browser tells of each block when asked.
"""
from xml.sax.saxutils import escape

from jobtool import rota, times
from jobtool.listing import ANSWERS
from jobtool.times import DAY

RIGHT, TOP, ROW, HEAD = 250, 64, 46, 40
NARROWEST, WIDEST, DAY_WIDTH = 560, 1400, 44  # of the time's part; a day's width where that is between the two
LEAST_DAY, LONGEST = 12, 5000  # a long time is drawn wider, so that days stay apart up to a year and more
LETTER, SMALL, BOLD = 6.4, 6.2, 8.2  # the width of a letter at most: of a run's minutes, of small text, of a name

STYLE = """
text { font: 12px "DejaVu Sans", "Segoe UI", Arial, sans-serif; fill: #1d2733; }
.title { font-size: 17px; font-weight: bold; }
.small { font-size: 10.5px; fill: #5b6775; }
.run { font-size: 11px; font-weight: bold; text-anchor: middle; }
.mid { text-anchor: middle; }
.end { text-anchor: end; }
.bold { font-weight: bold; }
.weekend { fill: #f3f5f8; }
.row { stroke: #c9d0d9; }
.day { stroke: #dde2e8; }
.week { stroke: #8793a1; }
.join { stroke: #2f6fb5; stroke-width: 3; opacity: 0.45; }
.join.frozen { stroke: #7b8796; }
.join.hole { stroke: #c8321f; }
.slot { fill: #2f6fb5; stroke: #ffffff; stroke-width: 0.6; }
.slot.frozen { fill: #7b8796; }
.slot.thin { stroke: none; }
.slot.hole { fill: #fde7e4; stroke: #c8321f; stroke-width: 1.4; }
.unit { fill: #d9a441; }
.past { fill: #7b8796; opacity: 0.13; }
.now { stroke: #4a5563; stroke-width: 1.5; stroke-dasharray: 5 3; }
.hole { fill: #c8321f; }
.track { fill: #e6eaef; }
.held { fill: #2f6fb5; }
.target { stroke: #1d2733; stroke-width: 2; }
"""


def svg_of(name, job, listing, names):
    return Picture(name, job, listing, names).svg()


def grouped(n):
    return "{:,}".format(n)


def long_date(minute):
    """As Mon 5 Jan 1970, 22:00."""
    at = times.moment(minute)
    if at is None:
        return "minute %s" % grouped(minute)
    return "%s %d %s, %s" % (at.strftime("%a"), at.day, at.strftime("%b %Y"), at.strftime("%H:%M"))


def label_of(job, person, names):
    """What a row says of its person: name, and figures."""
    capacity, prior = job.people[person]
    name = names[person] if person < len(names) else "Person %d" % person
    return name, "capacity %g" % capacity + (", prior %s" % grouped(prior) if prior else "")


def counted(n, one, many):
    return "%s %s" % (grouped(n), one if n == 1 else many)


class Picture:
    def __init__(self, name, job, listing, names):
        self.name, self.job, self.listing = name, job, listing
        self.labels = [label_of(job, person.number, names) for person in listing.people]
        self.left = max([126.0] + [28 + max(BOLD * len(who), SMALL * len(figures)) for who, figures in self.labels])
        slots = listing.slots
        # whole days, or whole hours where all is within a day
        span = slots[-1].end - slots[0].start
        self.step = DAY if span > DAY else 60
        self.first = slots[0].start // self.step * self.step
        self.last = -(-slots[-1].end // self.step) * self.step
        days = (self.last - self.first) / DAY
        self.width = max(min(WIDEST, max(NARROWEST, days * DAY_WIDTH)), min(LONGEST, days * LEAST_DAY))
        self.rows = len(listing.people) + (listing.uncovered > 0)
        self.bottom = TOP + HEAD + self.rows * ROW
        self.parts = []
        self.labelled = {}  # up to where each row has a run's minutes, so that no two stand on each other

    def svg(self):
        width, height = self.left + self.width + RIGHT, self.bottom + 64
        self.heading()
        self.calendar()
        for person in self.listing.people:
            self.person(person)
        if self.listing.uncovered:
            self.holes()
        self.freeze()
        self.legend()
        size = 'width="%.0f" height="%.0f" viewBox="0 0 %.0f %.0f"' % (width, height, width, height)
        start = '<svg xmlns="http://www.w3.org/2000/svg" %s role="img" aria-label="%s">' % (size, escape(self.title(), {'"': "&quot;"}))
        return "\n".join([start, "<style>%s</style>" % STYLE, DEFS, '<rect width="100%" height="100%" fill="#ffffff"/>']
                         + self.parts + ["</svg>\n"])

    # ---- small parts

    def x(self, minute):
        return self.left + (min(max(minute, self.first), self.last) - self.first) * self.width / (self.last - self.first)

    def row_top(self, row):
        return TOP + HEAD + row * ROW

    def line(self, kind, x1, y1, x2, y2):
        self.parts.append('<line class="%s" x1="%.2f" y1="%.2f" x2="%.2f" y2="%.2f"/>' % (kind, x1, y1, x2, y2))

    def text(self, kind, x, y, words):
        self.parts.append('<text class="%s" x="%.2f" y="%.2f">%s</text>' % (kind, x, y, escape(words)))

    def box(self, kind, start, end, y, height, tip=""):
        """A box over a stretch of time, with what a pointer that rests on it is shown."""
        x, width = self.x(start), max(self.x(end) - self.x(start), 1.5)
        tip = "<title>%s</title>" % escape(tip) if tip else ""
        self.parts.append('<rect class="%s" x="%.2f" y="%.2f" width="%.2f" height="%.2f">%s</rect>' % (kind, x, y, width, height, tip))

    # ---- the whole

    def title(self):
        slots = self.listing.slots
        return "%s: %s to %s" % (self.name, long_date(slots[0].start), long_date(slots[-1].end))

    def heading(self):
        slots, answers = self.listing.slots, self.listing.answers
        self.text("title", 14, 26, self.title())
        words = "%s, %s" % (counted(len(slots), "slot", "slots"), counted(len(self.listing.people), "person", "people"))
        if self.job.lock:
            words += ", " + counted(len(self.job.unit_starts(slots)), "unit", "units") + " held whole"
        if answers:
            words += "; draws: " + ", ".join("%d %s" % (answers.count(one), one) for one in ANSWERS.values())
        self.text("small", 14, 44, words)

    def calendar(self):
        """Weekends, the lines of days and weeks (or hours), and their names."""
        per_day = self.width * DAY / (self.last - self.first)
        if self.step == DAY and per_day >= 3:
            for day in range(self.first, self.last, DAY):
                if times.weekday_of(day) in ("sat", "sun"):
                    self.box("weekend", day, day + DAY, TOP + HEAD, self.bottom - TOP - HEAD)
        for row in range(self.rows + 1):
            self.line("row", 10, self.row_top(row), self.left + self.width + RIGHT - 14, self.row_top(row))
        if self.step == DAY:
            self.days(per_day)
        else:
            self.hours()
        if self.job.lock:
            self.units()
        self.line("week", self.left, TOP + 4, self.left, self.bottom)
        self.line("week", self.left + self.width, TOP + 4, self.left + self.width, self.bottom)
        for x, words in ((75, "minutes"), (145, "target"), (220, "difference")):
            self.text("small end", self.left + self.width + x, TOP + HEAD - 8, words)

    def days(self, per_day):
        """A line a day and a stronger one a week; months and years where these would stand too close."""
        named = self.left - 100.0  # where the last name stands
        for day in range(self.first, self.last, DAY):
            x, at = self.x(day), times.moment(day)
            if per_day >= 3:
                is_mark, name = times.weekday_of(day) == "mon", "%d %s" % (at.day, at.strftime("%b %Y"))
            elif per_day >= 0.5:
                is_mark, name = at.day == 1, at.strftime("%b %Y")
            else:
                is_mark, name = at.day == 1 and at.month == 1, at.strftime("%Y")
            if is_mark or per_day >= 3:
                self.line("week" if is_mark else "day", x, TOP + (4 if is_mark else 22), x, self.bottom)
            if (is_mark or day == self.first) and x - named >= 94 and self.left + self.width - x >= 60:
                self.text("bold", x + 4, TOP + 16, name)
                named = x
            if per_day >= 40:
                self.text("small mid", x + per_day / 2, TOP + HEAD - 8, at.strftime("%a ") + str(at.day))
            elif per_day >= 16:
                self.text("small mid", x + per_day / 2, TOP + HEAD - 8, str(at.day))

    def hours(self):
        self.text("bold", self.left + 4, TOP + 16, times.moment(self.first).strftime("%a %d %b %Y"))
        per_hour = self.width * 60 / (self.last - self.first)
        each = next(n for n in (1, 2, 3, 6, 12, 24) if n * per_hour >= 44 or n == 24)
        for hour in range(self.first, self.last, 60):
            self.line("day", self.x(hour), TOP + 22, self.x(hour), self.bottom)
            if hour // 60 % each == 0:
                self.text("small", self.x(hour) + 3, TOP + HEAD - 8, times.moment(hour).strftime("%H:%M"))

    def units(self):
        """A band above the rows that shows which slots are held together."""
        slots, starts = self.listing.slots, self.job.unit_starts(self.listing.slots)
        for unit, (first, after) in enumerate(zip(starts, starts[1:] + [len(slots)])):
            tip = "unit %d: slots %d to %d" % (unit, first, after - 1)
            self.box("unit", slots[first].start, slots[after - 1].end, TOP + HEAD - 5, 4, tip)

    def freeze(self):
        if self.job.freeze is None or self.job.freeze <= self.first:
            return
        at = min(self.job.freeze, self.last)
        self.box("past", self.first, at, TOP + HEAD, self.bottom - TOP - HEAD)
        self.line("now", self.x(at), TOP + HEAD, self.x(at), self.bottom + 8)
        words = "frozen before %s" % long_date(self.job.freeze)
        room = self.x(at) - self.left > 100
        self.text("small end" if room else "small", self.x(at) + (4 if room else -4), self.bottom + 20, words)

    # ---- the rows

    def person(self, person):
        top, (name, figures) = self.row_top(person.number), self.labels[person.number]
        self.text("bold", 14, top + 20, name)
        self.text("small", 14, top + 35, figures)
        for start, end in self.job.away(person.number, self.first, self.last):
            tip = "%s is away from %s to %s" % (name, long_date(start), long_date(end))
            self.box("away", start, end, top + 1, ROW - 2, tip)
        for run in rota.runs(self.listing.slots):
            if run[0].owner == person.number:
                self.run(run, top, name)
        self.figures(person, top)

    def run(self, run, top, name):
        """The blocks of a run, joined, with its minutes above."""
        minutes = sum(slot.minutes for slot in run)
        start, end = run[0].start, run[-1].end
        kind = "hole" if run[0].owner is None else ""
        is_past = self.job.is_frozen(run[-1])
        self.line(("join " + (kind or "frozen" * is_past)).strip(), self.x(start), top + 30, self.x(end), top + 30)
        for slot in run:
            look = kind or "frozen" * self.job.is_frozen(slot)
            look += " thin" * (self.x(slot.end) - self.x(slot.start) < 5)
            tip = "%s: slot %d, %s to %s, %s minutes; the run has %s" % (
                name, slot.number, long_date(slot.start), long_date(slot.end), grouped(slot.minutes), grouped(minutes))
            self.box(("slot " + look).strip(), slot.start, slot.end, top + 20, 20, tip)
        words = grouped(minutes)
        half = len(words) * LETTER / 2
        middle = min(max((self.x(start) + self.x(end)) / 2, self.left + half), self.left + self.width - half)
        if middle - half >= self.labelled.get(top, 0):
            self.text(("run " + kind).strip(), middle, top + 15, words)
            self.labelled[top] = middle + half + 7

    def holes(self):
        top = self.row_top(len(self.listing.people))
        self.text("bold hole", 14, top + 20, "Nobody")
        for run in rota.runs(self.listing.slots):
            if run[0].owner is None:
                self.run(run, top, "Nobody")
        self.text("end bold hole", self.left + self.width + 75, top + 20, grouped(self.listing.uncovered))

    def figures(self, person, top):
        """Minutes, target and the difference; below them the minutes as a bar, with the target as a mark on it."""
        x, more = self.left + self.width, person.minutes - person.target
        self.text("end bold", x + 75, top + 20, grouped(person.minutes))
        self.text("end", x + 145, top + 20, grouped(person.target))
        self.text("end", x + 220, top + 20, "%s%s" % ("+" if more > 0 else "−" if more < 0 else "", grouped(abs(more))))
        most = max([1] + [max(p.minutes, p.target) for p in self.listing.people])
        bar = '<rect class="%s" x="%.2f" y="%.2f" width="%.2f" height="8" rx="2"/>'
        self.parts.append(bar % ("track", x + 24, top + 29, 196))
        self.parts.append(bar % ("held", x + 24, top + 29, 196 * person.minutes / most))
        mark = x + 24 + 196 * max(person.target, 0) / most
        self.line("target", mark, top + 26, mark, top + 40)

    def legend(self):
        x, y = 14.0, self.bottom + 44
        shown = [("slot", "on duty, minutes of the run above"), ("slot frozen", "frozen"), ("away", "away")]
        if self.listing.uncovered:
            shown.append(("slot hole", "nobody"))
        if self.job.lock:
            shown.append(("unit", "a unit, held by one person"))
        for kind, words in shown:
            self.parts.append('<rect class="%s" x="%.2f" y="%.2f" width="18" height="11"/>' % (kind, x, y - 10))
            self.text("small", x + 24, y, words)
            x += 44 + len(words) * 6
        self.line("target", x + 8, y - 12, x + 8, y + 2)
        self.text("small", x + 16, y, "target")


DEFS = """<defs>
<pattern id="away" width="7" height="7" patternUnits="userSpaceOnUse" patternTransform="rotate(45)">
<rect width="7" height="7" fill="#f6f1e4"/><line x1="0" y1="0" x2="0" y2="7" stroke="#c9b98a" stroke-width="2"/>
</pattern>
</defs>
<style>.away { fill: url(#away); }</style>"""
