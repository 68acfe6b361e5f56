# docs/STATEMENTS.md as its template and the files have it. The template has the prose, and in place of each quote a line that names a file
# and items of it:
#     @quote crates/divisions/specs/Award.antt Priced priced givesMore
# What the page has there is taken from the file, in the file's order:
#   - a definition (with abbrev, unfoldable, record or data, or in specs/) and a struct, enum or const of the code: whole, with the comment
#     directly above it
#   - a theorem: its signature, without its proof; a function of the code: its signature and contract, without its body. Both without the
#     comment above them, since the page has a reading of each
#   - above what stands in a `module _ .. where`, that line, since it holds what the item is said of; above a method, which is named with its
#     type, as `Bid::listed`, the line of its `impl`
# A line `..` shows that lines of the file are left out between two of these. `python3 tests/docs/statements.py` writes the page, from the
# repository's top; tests/docs/check.py looks whether it is the one that stands there.
import os
import re
import sys

from edits import read

TEMPLATE = "docs/STATEMENTS.in.md"
PAGE = "docs/STATEMENTS.md"
MARK = "@quote"
TOP = "<!-- Made by tests/docs/statements.py from STATEMENTS.in.md: that is the file to edit. -->"

# `f : ..` and `record R (x : A) : ..`, each after words like `pub`; an equation `f (some x) = λ (y : A). ..` declares nothing.
DECLARED = re.compile(r"\s*(?P<words>(?:(?:pub|abbrev|unfoldable) )*)(?:(?P<kind>record|data) )?(?P<name>\S+)(?(kind)(?: .*)?|) :(?: |$)")
MODULE = re.compile(r"\s*module ")
CODE = re.compile(r"(?P<in>    )?(?:pub )?(?:extern \"C\" )?(?P<kind>fn|struct|enum|const) (?P<name>\w+)")
IMPL = re.compile(r"impl(?:<[^{]*?>)? (?:.+ for )?(?P<owner>\w+)")


class Fault(Exception):
    """What is wrong in the template."""


def indent(line):
    return len(line) - len(line.lstrip())


def aside(line):
    """Nothing but a comment, or an attribute of the code."""
    return line.lstrip().startswith(("--", "//", "#["))


def first(lines, start, holds):
    """The first line from `start` on of which the test holds, as its number; past the last line where there is none."""
    return next((i for i in range(start, len(lines)) if holds(lines[i])), len(lines))


def whole(lines, start, end):
    """The numbers of the lines of a definition, with the comment directly above it and without what stands after it."""
    while start > 0 and aside(lines[start - 1]) and indent(lines[start - 1]) == indent(lines[start]):
        start -= 1
    while lines[end - 1].strip() == "" or aside(lines[end - 1]):
        end -= 1
    return list(range(start, end))


def begins(line, depth):
    """Whether something else begins with the line, after an item that is indented by `depth`."""
    return line.strip() != "" and (indent(line) < depth or indent(line) == depth and bool(MODULE.match(line) or DECLARED.match(line)))


def stated(lines, specs):
    """The definitions and theorems of a file, each as its name and the numbers of the lines that are quoted of it."""
    modules = []
    for i, line in enumerate(lines):
        if line.strip() == "" or aside(line):
            continue
        while modules and indent(line) <= indent(lines[modules[-1][0]]):
            modules.pop()
        # What is indented further belongs to the item above: fields, cases, the second line of a signature.
        depth = 2 * len(modules)
        declared = DECLARED.match(line) if indent(line) == depth else None
        if indent(line) == depth and MODULE.match(line):
            modules.append(range(i, first(lines, i, lambda l: l.endswith(" where")) + 1))
        elif declared:
            if specs or declared["kind"] or re.search("abbrev|unfoldable", declared["words"]):
                own = whole(lines, i, first(lines, i + 1, lambda l: begins(l, depth)))
            else:
                own = list(range(i, first(lines, i + 1, lambda l: indent(l) <= depth)))
            yield declared["name"], [number for module in modules for number in module] + own


def coded(lines):
    """The same of the code; no lines of a function without a contract."""
    above, owner = [], None
    for i, line in enumerate(lines):
        block, declared = IMPL.match(line), CODE.match(line)
        if block:
            above, owner = [i], block["owner"]
        elif line.startswith("}"):
            above, owner = [], None
        elif declared and bool(declared["in"]) == (owner is not None):
            depth, name = declared["in"] or "", f"{owner}::{declared['name']}" if owner else declared["name"]
            if declared["kind"] == "fn":
                # After a contract the body begins on a line of its own.
                end = first(lines, i, lambda l: l in (depth + "{", depth + "}"))
                yield name, above + list(range(i, end)) if lines[end : end + 1] == [depth + "{"] else []
            elif not owner:
                end = i if line.endswith((";", "}")) else first(lines, i + 1, lambda l: l.strip() and indent(l) == 0)
                yield name, whole(lines, i, end + 1)


def quote(path, names):
    """The lines of a quote."""
    if not os.path.isfile(path):
        raise Fault(f"no file {path}")
    lines = read(path).split("\n")
    items = list(coded(lines) if path.endswith(".rt") else stated(lines, "/specs/" in path))
    shown = set()
    for name in names:
        found = [numbers for item, numbers in items if item == name]
        if len(found) != 1:
            raise Fault(f"{path} declares {name} {len(found)} times")
        if found[0] == []:
            raise Fault(f"{name} in {path} has no contract")
        shown.update(found[0])
    if not shown:
        raise Fault(f"no item of {path} is named")
    block, last = [], min(shown) - 1
    for number in sorted(shown):
        between = lines[last + 1 : number]
        block += [".."] if any(line.strip() for line in between) else between
        block.append(lines[number])
        last = number
    return block


def page():
    """The page as the template and the files have it."""
    made = [TOP]
    for number, line in enumerate(read(TEMPLATE).split("\n"), 1):
        try:
            if line.startswith("```"):
                raise Fault("a quote by hand")
            if line.startswith(MARK):
                path, *names = line[len(MARK) :].split() or [""]
                made += ["```" + path] + quote(path, names) + ["```"]
            else:
                made.append(line)
        except Fault as fault:
            raise Fault(f"{TEMPLATE}:{number}: {fault}") from None
    return "\n".join(made)


if __name__ == "__main__":
    try:
        made = page()
    except Fault as fault:
        sys.exit(str(fault))
    with open(PAGE, "w", encoding="utf-8") as file:
        file.write(made)
