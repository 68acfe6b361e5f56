# The must-fail edits as docs/CLAIMS.md lists them: by the public function whose contract each guards, or the theorem of a crate without code.
# What an edit does and what it guards stands in the first lines of its file:
#     # A demand of 0 would be accepted.
#     # guards: bookrules::check
# An edit may guard several functions, with commas between them. `python3 tests/docs/edits.py` puts the list into the page, from the
# repository's top; tests/docs/check.py looks whether it is the one that stands there.
import glob
import os
import re

CLAIMS = "docs/CLAIMS.md"
BEGIN = "<!-- From here on made by tests/docs/edits.py from the files of the edits. -->"
END = "<!-- Up to here. -->"


class Edit:
    def __init__(self, path):
        self.path = path
        self.crate = path.split("/")[1]
        self.name = os.path.basename(path)[: -len(".edit")]
        said = [line[1:].strip() for line in read(path).split("\n") if line.startswith("#")]
        guards = [line[len("guards:") :] for line in said if line.startswith("guards:")]
        self.text = " ".join(line for line in said if not line.startswith("guards:"))
        self.guards = [name.strip() for line in guards for name in line.split(",")]


def read(path):
    with open(path, encoding="utf-8") as file:
        return file.read()


def crates():
    lines = [line.split("#")[0] for line in read("crates.txt").split("\n")]
    return [line.split(":")[0].split()[0] for line in lines if ":" in line]


def edits():
    """In the order of crates.txt, and in a crate by name."""
    return [Edit(path) for crate in crates() for path in sorted(glob.glob(f"crates/{crate}/must-fail/*.edit"))]


def sources(crate):
    """The files of a crate's code, lib.rt first."""
    return sorted(glob.glob(f"crates/{crate}/src/**/*.rt", recursive=True), key=lambda path: (not path.endswith("lib.rt"), path))


def declared(path):
    """The functions of a file, each with whether it is public: by its name, or of an `impl` block by the type and its name, as `Bid::listed`.
    What implements a trait is as public as the type is."""
    owner, of_trait, found = None, False, []
    for line in read(path).split("\n"):
        block = re.match(r"impl(?:<[^{]*?>)? (?:(?P<tr>.+) for )?(?P<owner>\w+)", line)
        if block:
            owner, of_trait = block["owner"], block["tr"] is not None
        elif line.startswith("}"):
            owner = None
        head = re.match(r"(?P<in>    )?(?P<pub>pub )?(?:extern \"C\" )?fn (?P<name>\w+)", line)
        if head and bool(head["in"]) == (owner is not None):
            found.append((f"{owner}::{head['name']}" if owner else head["name"], bool(head["pub"]) or (owner is not None and of_trait)))
    return found


def functions(crate):
    """The functions of a crate, public or not, in the order of its files, lib.rt first."""
    return [name for path in sources(crate) for name, _ in declared(path)]


def theorems(crate):
    """What the proofs of a crate state for others, in the order of its files."""
    files = sorted(glob.glob(f"crates/{crate}/proofs/*.antt"))
    return [name for path in files for name in re.findall(r"^pub ([a-z][^\s:]*) :", read(path), re.M)]


def guarded(crate):
    """What an edit can guard: the functions of a crate, and where it has no code its theorems."""
    return functions(crate) or theorems(crate)


def public(crate):
    """The public functions of a library: those of lib.rt, those of its modules that it names with `pub use`, and the methods of the types that
    it declares or names so. What it hands on from another crate is that crate's."""
    path = f"crates/{crate}/src/lib.rt"
    text = read(path) if os.path.isfile(path) else ""
    used = re.findall(r"^pub use (\w+)(?:::\w+)*::(?:\{([^}]*)\}|(\w+));", text, re.M)
    named = [name for owner, many, one in used if owner not in crates() for name in re.findall(r"\w+", many or one)]
    types = named + re.findall(r"^pub (?:struct|enum) (\w+)", text, re.M)
    free = re.findall(r"^pub (?:extern \"C\" )?fn (\w+)", text, re.M) + [name for name in named if not name[0].isupper()]
    files = sources(crate) if text else []
    return free + [name for path in files for name, shown in declared(path) if shown and "::" in name and name.split("::")[0] in types]


def listing():
    """The lines of the list: a row for each function or theorem and edit, in the order of crates.txt and of their files."""
    rows = ["| Contract, or theorem | Wrong program or statement | What it does |", "|---|---|---|"]
    everything = edits()
    for crate in crates():
        for function in guarded(crate):
            name = f"{crate}::{function}"
            for edit in [edit for edit in everything if name in edit.guards]:
                place = "" if edit.crate == crate else f" (in `{edit.crate}`)"
                rows.append(f"| `{name}` | {edit.name}{place} | {edit.text} |")
    return rows


def page():
    """The page with the list as the files have it."""
    text = read(CLAIMS)
    before, rest = text.split(BEGIN, 1)
    return before + BEGIN + "\n\n" + "\n".join(listing()) + "\n\n" + END + rest.split(END, 1)[1]


if __name__ == "__main__":
    made = page()
    with open(CLAIMS, "w", encoding="utf-8") as file:
        file.write(made)
