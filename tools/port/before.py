#!/usr/bin/env python3
"""Before the kit's port.py: own names that stand behind an alias and read like words of the older library get a placeholder.

port.py takes `targets.Given` for the library's own Given, and stops. after.py puts the names back.
"""
import os
import re

WORDS = re.compile(r"(?<![\w.])([a-z]\w*)\.(Given|Atoms|Base)(?![\w'′.-])")


def main():
    top = os.path.dirname(os.path.dirname(os.path.dirname(os.path.abspath(__file__))))
    for folder, dirs, files in os.walk(os.path.join(top, "crates")):
        dirs[:] = [d for d in dirs if d not in ("out", "target")]
        for name in files:
            if name.endswith((".antt", ".rt")):
                path = os.path.join(folder, name)
                with open(path, encoding="utf-8") as f:
                    old = f.read()
                new = WORDS.sub(r"\1.Own\2", old)
                if new != old:
                    with open(path, "w", encoding="utf-8") as f:
                        f.write(new)


if __name__ == "__main__":
    main()
