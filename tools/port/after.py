#!/usr/bin/env python3
"""After the kit's port.py: the names of this repository in the newer spelling, snake case for definitions, lemmas' parts and fields.

Puts back the placeholders of before.py, respells each lower camel word (peopleOk is people_ok), by the table OTHER where the plain
spelling would fall together with another name, renames the lemmas of LEMMAS that would have their function's name, and gives
plain structs and enums the derives that a copy asks for now. Stops, with nothing written, where names would fall together.
"""
import collections
import os
import re
import sys

TOP = os.path.dirname(os.path.dirname(os.path.dirname(os.path.abspath(__file__))))
PLACED = re.compile(r"(?<![\w.])([a-z]\w*)\.Own(Given|Atoms|Base)(?![\w'-])")
WORD = re.compile(r"(?<![A-Za-z0-9_'])[a-z][a-z0-9]*(?:[A-Z][a-z0-9]*)+(?![A-Za-z0-9_])")
# where the plain spelling stands for something else in a file that names both
OTHER = {
    "allRuns": "ends_of_runs",
    "frozenThen": "frozen_after",
    "noMember": "has_no_member",
    "opensBy": "opens_by_owners",
    "storeOk": "is_store",
    "targetRun": "target_run_of",
    "wayBack": "way_back_of",
}
# a record's own field of that name stays the word: promises' Entries has one for each entry
FIELDS = {"crates/promises/specs/Entries.antt": {"allRuns": "all_runs", "targetRun": "target_run", "wayBack": "way_back"}}
FIELD_USE = re.compile(r"(?<=\.)(allRuns|targetRun|wayBack)(?![A-Za-z0-9_])")
# lemmas that would have their function's name
LEMMAS = {
    "crates/slots/proofs/Packed.antt": ["packed_all"],
    "crates/promises/proofs/StoreRules.antt": ["read_asked"],
    "crates/promises/proofs/Exports.antt": ["read_found", "read_number"],
}
TEXTS = (".antt", ".rt", ".edit")
ALSO = ("README.md", "CHANGELOG.md", "CONTRIBUTING.md")


def snake(word):
    return re.sub(r"[A-Z]", lambda m: "_" + m[0].lower(), word)


def spelled(word):
    return OTHER.get(word, snake(word))


def paths():
    for folder, dirs, files in os.walk(os.path.join(TOP, "crates")):
        dirs[:] = sorted(d for d in dirs if d not in ("out", "target"))
        for name in sorted(files):
            if name.endswith(TEXTS):
                yield os.path.relpath(os.path.join(folder, name), TOP)


def read(path):
    with open(os.path.join(TOP, path), encoding="utf-8") as f:
        return f.read()


def turned(path, text):
    text = PLACED.sub(r"\1.\2", text)
    for name in LEMMAS.get(path, []):
        text = re.sub(r"(?<![\w.'-])%s(?![\w'-])(?!\.)" % name, name + "_lem", text)
    own = FIELDS.get(path, {})
    if own:
        text = re.sub(r"(?m)^(\s*pub )(%s)(?= :)" % "|".join(own), lambda m: m[1] + own[m[2]], text)
    text = FIELD_USE.sub(lambda m: snake(m[0]), text)
    return WORD.sub(lambda m: spelled(m[0]), text)


def together(texts):
    """Names that stood beside each other in one file and would be one word now."""
    bad = []
    for path, text in texts.items():
        if not path.endswith(".antt"):
            continue
        declared = set(re.findall(r"(?m)^\s*(?:pub |abbrev |unfoldable |record |data )*([^\s:(){}.]+) :", text))
        for word in set(WORD.findall(text)):
            if word not in OTHER and snake(word) in declared and snake(word) not in LEMMAS.get(path, []):
                bad.append(f"{path}: {word} and {snake(word)}")
    return bad


def copied(path, text):
    """Every struct and enum here is plain and was copied without a word; port.py gives it Drop alone."""
    return text.replace("#[derive(Drop)]", "#[derive(Clone, Copy)]") if path.endswith(".rt") else text


def main():
    texts = {p: read(p) for p in paths()}
    bad = together(texts)
    if bad:
        print("\n".join(bad))
        return 1
    made = collections.defaultdict(set)
    for text in texts.values():
        for word in WORD.findall(text):
            made[spelled(word)].add(word)
    both = {k: v for k, v in made.items() if len(v) > 1}
    if both:
        print(both)
        return 1
    known = {word for words in made.values() for word in words}
    pages = [n for n in ALSO if os.path.exists(os.path.join(TOP, n))]
    for folder in ("docs", "docs/landings", "tools/tried"):
        pages += [f"{folder}/{n}" for n in sorted(os.listdir(os.path.join(TOP, folder))) if n.endswith((".md", ".txt"))]
    pages += ["tools/rules", "tools/try-wrong"]
    for path, text in texts.items():
        write(path, text, copied(path, turned(path, text)))
    for path in pages:
        text = read(path)
        write(path, text, WORD.sub(lambda m: spelled(m[0]) if m[0] in known else m[0], text))
    return 0


def write(path, old, new):
    if old != new:
        with open(os.path.join(TOP, path), "w", encoding="utf-8") as f:
            f.write(new)


if __name__ == "__main__":
    sys.exit(main())
