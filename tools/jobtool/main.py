"""The command line of tools/job."""
import argparse
import os
import sys

from jobtool import VERSION, forms, layout, listing, picture, program, refusals, rota, store, text, times
from jobtool.wrong import Wrong

# A job file has at most 6,144 records, of 8 bytes at least: their text is far shorter than this. A recording's text is limited alike here;
# boltraven_replay itself reads one of any length.
INPUT_MOST = 2**20

STATUS = """status: 0 done; 1 the job is refused, or a replay finds a difference (the sentence is on standard error); 2 something can't be read or isn't there.
A file name of - is standard input. A file whose name begins with - is given as ./-NAME."""


class Parser(argparse.ArgumentParser):
    def error(self, message):
        self.exit(2, "%s: %s (--help tells more; a file whose name begins with - is given as ./-NAME)\n" % (self.prog, message))


def parser():
    plain = argparse.RawDescriptionHelpFormatter
    top = Parser(prog="job", formatter_class=plain, description="A job as text, as a file, as its listing and as a picture.",
                 epilog="The text of a job:\n" + text.__doc__.partition("\n")[2] + "\n" + STATUS)
    top.add_argument("--version", action="version", version="job %s" % VERSION)
    subs = top.add_subparsers(dest="what", required=True, metavar="pack | show | run | picture | replay | store", parser_class=Parser)

    one = subs.add_parser("pack", help="make a job file of a text", epilog=STATUS, formatter_class=plain)
    with_store(one)
    one.add_argument("text", metavar="TEXT")
    one.add_argument("job", metavar="JOB")

    one = subs.add_parser("show", help="print a job file as a text", epilog=STATUS, formatter_class=plain)
    one.add_argument("--dates", action="store_true", help="times as dates")
    one.add_argument("job", metavar="JOB")

    one = subs.add_parser("run", help="run the program boltraven on a text and print the listing", epilog=STATUS, formatter_class=plain)
    one.add_argument("--dates", action="store_true", help="times as dates with their weekday")
    one.add_argument("--units", action="store_true", help="each slot's unit")
    one.add_argument("--frozen", action="store_true", help="which slots are frozen")
    form = one.add_mutually_exclusive_group()
    form.add_argument("--csv", action="store_const", dest="form", const=forms.as_csv, help="one table, with a line of names")
    form.add_argument("--json", action="store_const", dest="form", const=forms.as_json, help="one object")
    one.set_defaults(form=forms.as_lines)
    with_store(one)
    one.add_argument("text", metavar="TEXT")

    one = subs.add_parser("picture", help="run a text and draw its rota as an SVG", epilog=STATUS, formatter_class=plain)
    with_store(one)
    one.add_argument("--names", default="", metavar="NAME,NAME..", help="what to call the people, in their order")
    one.add_argument("text", metavar="TEXT")
    one.add_argument("svg", metavar="SVG")

    one = subs.add_parser("replay", help="run the program boltraven_replay on a recording's text and print what it shows", epilog=STATUS,
                          formatter_class=plain)
    one.add_argument("text", metavar="TEXT")

    one = subs.add_parser("store", help="print a store of settings as a text, a record a line", epilog=STATUS, formatter_class=plain)
    one.add_argument("store", metavar="STORE")
    return top


def with_store(one):
    one.add_argument("--settings", nargs=2, metavar=("STORE", "NUMBER"), help="the settings of this number in a store, for those of the text")


def content(name):
    """The bytes of a file, or of standard input. One that is too long is read no further than tells so."""
    with sys.stdin.buffer if name == "-" else open(name, "rb") as file:
        data = file.read(INPUT_MOST + 1)
    if len(data) > INPUT_MOST:
        raise Wrong("more than %d bytes, which no job has" % INPUT_MOST)
    return data


def records_of(name, settings=None):
    """The records of a text; with settings from a store these stand first, and the text's are left out."""
    try:
        records = text.records_of(content(name))
    except Wrong as e:
        raise Wrong("%s: %s" % (name, e))
    if not settings:
        return records
    stored, number = settings
    try:
        body = store.settings_of(content(stored), text.number(number, text.U64, "a number of a store"))
    except Wrong as e:
        raise Wrong("%s: %s" % (stored, e))
    return [(layout.SETTINGS, body)] + [(kind, data) for kind, data in records if kind != layout.SETTINGS]


def pack(words):
    file = layout.file_of(records_of(words.text, words.settings))
    with open(words.job, "wb") as out:
        out.write(file)


def show(words):
    try:
        for kind, body in layout.records_of(content(words.job)):
            print(text.line_of(kind, body, times.date_of if words.dates else str))
    except Wrong as e:
        raise Wrong("%s: %s" % (words.job, e))


def show_store(words):
    try:
        for number, (kind, body) in enumerate(store.entries_of(content(words.store)), 1):
            print(number, store.line_of(kind, body))
    except Wrong as e:
        raise Wrong("%s: %s" % (words.store, e))


def ran(name, settings):
    """The listing of a text, as the program wrote it and as records; and the job, of one that is accepted."""
    records = records_of(name, settings)
    lines = program.listing_of(layout.file_of(records))
    read = listing.read(lines)
    return lines, read, rota.Job(records) if read.refusal is None else None


def refused(refusal):
    print("refused by %s: %s" % (refusal.name, refusal.sentence), file=sys.stderr)
    return 1


def run(words):
    lines, read, job = ran(words.text, words.settings)
    sys.stdout.write(words.form(lines, read, job, words))
    return refused(read.refusal) if read.refusal is not None else 0


def replay(words):
    """A recording's replay: the blocks as they are shown, and the last line, which says how it ended."""
    shown = program.listing_of(layout.file_of(records_of(words.text)), "boltraven_replay")
    sys.stdout.write(shown)
    kind, *rest = shown.splitlines()[-1].split()
    if kind == "R":
        return refused(refusals.read(rest))
    if kind == "X":
        print("the answer to draw %s of block %s is another one than the recorded" % (rest[1], rest[0]), file=sys.stderr)
        return 1
    return 0


def draw(words):
    _, read, job = ran(words.text, words.settings)
    if read.refusal is not None:
        return refused(read.refusal)
    names = [name.strip() for name in words.names.split(",") if name.strip()]
    if len(names) > len(read.people):
        raise Wrong("%d names are given, and there are %d people" % (len(names), len(read.people)))
    svg = picture.svg_of(os.path.basename(words.text), job, read, names)
    with open(words.svg, "w", encoding="utf-8") as out:
        out.write(svg)
    return 0


def main(words):
    """The status with which to end."""
    given = parser().parse_args(words)
    try:
        status = {"pack": pack, "show": show, "run": run, "picture": draw, "replay": replay, "store": show_store}[given.what](given) or 0
        sys.stdout.flush()
        return status
    except BrokenPipeError:
        silence()  # whoever reads has seen enough
        return 0
    except OSError as e:
        silence()
        print("job: %s: %s" % (e.filename or "standard output", e.strerror), file=sys.stderr)
        return 2
    except Wrong as e:
        print("job: %s" % e, file=sys.stderr)
        return 2


def silence():
    """Nothing more is written to standard output, not even what is still held back when the program ends."""
    os.dup2(os.open(os.devnull, os.O_WRONLY), sys.stdout.fileno())
