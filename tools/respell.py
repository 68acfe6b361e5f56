#!/usr/bin/env python3
"""Brings the repository's own definitions and lemmas to snake case: `bookOf` to `book_of`, `sum-small` to `sum_small`.

usage: tools/respell.py [--check]        at the top, once, right after port.py

It turns every name that an .antt file below crates/ declares, at the top, in a section, in a `where` or as a field, and every name that a `let`
binds, wherever a file of crates/ has it; and the names in backticks of README.md and of the pages of docs/ that say what stands. Types, modules
and names of a library stay. Where a lemma would get the name of a definition or of a field, it ends in `_lem`. --check prints what would fall together
and writes nothing.
"""

import os
import re
import sys

TOP = os.path.realpath(os.path.join(os.path.dirname(os.path.realpath(__file__)), ".."))
WORD = r"[^\s(){}.;,@\"«»\[\]]+"
DECLARED = re.compile(r"^[ \t]*(?:(?:pub|abbrev|unfoldable|data|record|ruleset)[ \t]+)*(" + WORD + r")(?:[ \t]+[({][^:\n]*)?(?:[({].*?[)}][ \t]*)*[ \t]+:(?=\s)", re.M)
BOUND = re.compile(r"\blet (" + WORD + r") [=:]")
LIBRARY = re.compile(r"\buse (?!Rattle\.)([\w.+]+)\.\{([^}]*)\}|\buse (Rattle\.(?:std|core|io|os|libc)\.[\w.+]+)\.\{([^}]*)\}")
PAGES = ["README.md", "docs/ARCHITECTURE.md", "docs/CLAIMS.md", "docs/DECISIONS.md", "docs/STATEMENTS.in.md"]


def files(*endings):
    for folder, folders, names in os.walk(os.path.join(TOP, "crates")):
        folders[:] = sorted(f for f in folders if f != "out")
        yield from (os.path.join(folder, n) for n in sorted(names) if n.endswith(endings))


def read(path):
    with open(path, encoding="utf-8") as f:
        return f.read()


def uncommented(text):
    return re.sub(r"(?m)--.*$", "", text)


def in_snake_case(name):
    name = name.replace("getD", "get_or")
    name = re.sub(r"(?<=[a-z0-9])[A-Z]", lambda m: "_" + m[0].lower(), name)
    return re.sub(r"(?<=[\w'₀-₉])-(?=\w)", "_", name)


def is_turned(name):
    return not name[0].isupper() and in_snake_case(name) != name


def names_of_libraries(text):
    found = set()
    for m in LIBRARY.finditer(text):
        for item in (m[2] or m[4]).split(","):
            found.add(item.split(" as ")[-1].strip())
    return found


def table():
    declared, bound = set(), set()
    for path in files(".antt"):
        text = uncommented(read(path))
        declared.update(DECLARED.findall(text))
        bound.update(BOUND.findall(text))
    definitions = {n for n in declared if not re.search(r"\w-\w", n)}
    taken = {in_snake_case(n) for n in definitions}
    new = {}
    for name in sorted(declared | bound):
        if is_turned(name):
            turned = in_snake_case(name)
            new[name] = turned + "_lem" if name not in definitions and turned in taken else turned
    return new


def main():
    check = "--check" in sys.argv[1:]
    new = table()
    token = re.compile(WORD)
    changed = 0
    for path in files(".antt", ".rt", ".edit"):
        text = read(path)
        kept = names_of_libraries(text)
        if check:
            there = set(token.findall(text))
            for old in sorted(there & set(new) - kept):
                if new[old] in there:
                    print(f"{os.path.relpath(path, TOP)}: {old} meets {new[old]}")
        turned = token.sub(lambda m: new[m[0]] if m[0] in new and m[0] not in kept else m[0], text)
        if turned != text:
            changed += 1
            if not check:
                with open(path, "w", encoding="utf-8") as f:
                    f.write(turned)
    for page in PAGES:
        path = os.path.join(TOP, page)
        if os.path.exists(path):
            text = read(path)
            inside = lambda m: re.sub(WORD[:-2] + "`]+", lambda w: new.get(w[0], w[0]), m[0])
            turned = re.sub(r"(?ms)^```.*?^```|`[^`\n]+`", inside, text)
            if turned != text and not check:
                with open(path, "w", encoding="utf-8") as f:
                    f.write(turned)
    print(f"respell: {len(new)} names, {changed} files")


if __name__ == "__main__":
    main()
