#!/usr/bin/env python3
"""Brings the names that comments and pages put in backticks to the spelling that tools/respell.py gave the definitions and lemmas.

usage: tools/respell_comments.py OLD       OLD: a folder with the repository as it stood before port.py
"""

import os
import re
import sys

sys.dont_write_bytecode = True
sys.path.insert(0, os.path.dirname(os.path.realpath(__file__)))

import respell

HERE = respell.TOP
PLACES = ["README.md", "docs/ARCHITECTURE.md", "docs/CLAIMS.md", "docs/DECISIONS.md", "docs/STATEMENTS.in.md"]


def main():
    respell.TOP = os.path.realpath(sys.argv[1])
    new = respell.table()
    respell.TOP = HERE
    name = re.compile(r"[^\s(){}.;,@\"«»\[\]`]+")
    changed = 0
    for path in [*respell.files(".antt", ".rt", ".edit"), *(os.path.join(HERE, p) for p in PLACES)]:
        if os.path.exists(path):
            text = respell.read(path)
            turn = lambda m: name.sub(lambda w: new.get(w[0], w[0]), m[0])
            if path.endswith(".md"):
                turned = re.sub(r"(?ms)^```.*?^```|`[^`\n]+`", turn, text)
            else:
                turned = re.sub(r"`[^`\n]+`", turn, text)
            if turned != text:
                changed += 1
                with open(path, "w", encoding="utf-8") as f:
                    f.write(turned)
    print(f"respell_comments: {changed} files")


if __name__ == "__main__":
    main()
