# That the pages quote and cite what is there, and that the files keep five rules. Run from the repository's top (tests/docs/run does).
# Twelve kinds of check, the last five of the files:
#   page   docs/STATEMENTS.md is what tests/docs/statements.py makes, and no other page quotes a file in a fenced block
#   path   a file, folder or heading that a page cites exists
#   name   a name cited together with a file is declared in it
#   edit   CLAIMS.md cites no must-fail edit that is not there, and its list of them is the one that tests/docs/edits.py makes; each edit
#          says what it does and which function's contract, or which theorem, it guards; every public function of a library is guarded by
#          two or more, where those of crates below count, and every entry that README.md lists by one or more of its own crate
#   asks   CLAIMS.md lists every public function and method of a library that has a `requires`, and no other; no entry of README.md has one
#   crate  ARCHITECTURE.md names every crate of crates.txt, and its table of groups no other
#   same   where the last landing's note says that the contracts of the entries are those of a commit, they are, word for word
#   layer  what is to be believed names nothing of proofs/: no definition of specs/ and no contract of src/, but for the exceptions below
#   shut   a definition behind a name is opened by the proofs of its own crate alone, and the code names a bid's carriage only where it is
#          read, written, checked and put into a price, the printed sampling table only where none is passed, or it is written
#   sums   a choice's record is made in `choicerecord` alone, and that it carries its sums is an invariant of it, a ghost field
#   proof  what stands in proofs/ of a function (Answers.antt, or Invariants.antt where that is all) begins with a comment, which says why the
#          function meets its contract
#   named  nothing that a file of specs/ or proofs/ declares or binds, and no parameter, field or local of the code, has the name of a
#          function of the library, which a reader would take it for
import glob
import os
import re
import subprocess
import sys

import edits
import statements

# The template is checked as the page that is made of it.
OF_THE_PAST = ["docs/PORT.md", "docs/DESIGN-PASS.md", "docs/LOOK-BACK.md"]
PAGES = ["README.md"] + [page for page in sorted(glob.glob("docs/*.md")) if page not in (statements.TEMPLATE, *OF_THE_PAST)]
# The landing notes, and the pages of the port, the design pass and the look back, speak of the past: of them only links are checked, and paths
# written with docs/ or tests/ in front.
NOTES = OF_THE_PAST + sorted(glob.glob("docs/landings/*.md"))

passed = 0
faults = []


def check(holds, where, fault):
    """Counts a check; a fault is kept with the page and what it says there."""
    global passed
    if holds:
        passed += 1
    else:
        faults.append(f"{where}: {fault}")


def read(path):
    with open(path, encoding="utf-8") as file:
        return file.read()


def uncommented(path):
    """A file of the code, or of its definitions and proofs, without what its comments say."""
    return re.sub("(?:--|//).*", "", read(path))


# ---- the parts of a page


def parts(page):
    """The fenced blocks of a page as (line, info string, lines), and the other lines, each with its number."""
    blocks, prose, block = [], [], None
    for number, line in enumerate(read(page).split("\n"), 1):
        if line.startswith("```"):
            if block is None:
                block = (number, line[3:].strip(), [])
            else:
                blocks.append(block)
                block = None
        elif block is not None:
            block[2].append(line)
        else:
            prose.append((number, line))
    return blocks, prose


def paragraphs(prose):
    """What is read as one: lines up to an empty one, joined, so that a name and its file may stand on two lines; a table's row is alone."""
    start, held = 0, []
    for number, line in prose + [(0, "")]:
        alone = line.startswith("|")
        if held and (line.strip() == "" or alone):
            yield start, " ".join(held)
            held = []
        if alone:
            yield number, line
        elif line.strip():
            start = start if held else number
            held.append(line.strip())


# ---- quotes


def check_page():
    here = read(statements.PAGE).split("\n")
    try:
        made = statements.page().split("\n")
    except statements.Fault as fault:
        check(False, statements.PAGE, fault)
        return
    same = next((i for i, (a, b) in enumerate(zip(here, made)) if a != b), min(len(here), len(made)))
    where = f"{statements.PAGE}:{same + 1}"
    check(here == made, where, "not what its template and the files give: python3 tests/docs/statements.py makes it")


def check_fences(page):
    marks = sum(line.startswith("```") for line in read(page).split("\n"))
    check(marks % 2 == 0, page, "a fenced block is not closed")
    for number, info, _ in parts(page)[0]:
        check("/" not in info or page == statements.PAGE, f"{page}:{number}", f"a quote that nothing compares with {info}")


# ---- paths

EXTENSIONS = ("antt", "book", "c", "edit", "h", "md", "py", "rt", "rs", "sh", "toml", "txt")
CRATES = [os.path.basename(path) for path in sorted(glob.glob("crates/*"))]
TOPS = [".ci", "bench", "crates", "docs", "examples", "include", "tests"]
CRATE_FOLDERS = ["must-fail", "proofs", "specs", "src"]
WORD = r"(?:\*|[.+]?\w(?:[\w.+-]*\w)?)"
PATH = re.compile(rf"(?<![\w./<:-]){WORD}(?:/{WORD})*/?")
LINK = re.compile(r"\]\(([^)\s]+)\)")


def looks_like_path(text):
    """With a slash: below a folder of this repository or a crate, or with a known ending. Without: with a known ending. What is built
    (target/) and what holds a place for a name (crates/NAME/src/, proofs/f/Proof.antt) is none."""
    first = text.split("/")[0]
    if first == "target" or {"NAME", "f"} & set(text.split("/")):
        return False
    ending = "." in text and text.rsplit(".", 1)[1] in EXTENSIONS and not text.startswith(".")
    return ending or ("/" in text and first in TOPS + CRATES + CRATE_FOLDERS)


def resolve(path, page):
    """The files and folders that a cited path means: from the top; from crates/, with the crate and what is in it; within some crate; or
    beside the page. A file name without a folder is looked for everywhere."""
    tries = [path, os.path.join(os.path.dirname(page), path)]
    if "/" in path.rstrip("/"):
        tries.append("crates/" + path)
    if path.split("/")[0] in CRATE_FOLDERS:
        tries.append("crates/*/" + path)
    if "/" not in path:
        tries += ["crates/*/*/" + path, "crates/*/*/*/" + path, "*/" + path]
    found = []
    for attempt in tries:
        found = found or glob.glob(attempt)
    return found


def headings(page):
    """The anchors of a page's headings, as they are made for links: lower case, hyphens for spaces, no other marks."""
    titles = [line.lstrip("#").strip() for _, line in parts(page)[1] if line.startswith("#")]
    return [re.sub(r"[^\w -]", "", title.lower()).replace(" ", "-") for title in titles]


def check_link(page, number, target):
    if "://" in target:
        return
    file, _, anchor = target.partition("#")
    goal = os.path.normpath(os.path.join(os.path.dirname(page), file)) if file else page
    there = os.path.exists(goal)
    check(there, f"{page}:{number}", f"no file for the link {target}")
    if there and anchor:
        check(anchor in headings(goal), f"{page}:{number}", f"no heading for the link {target}")


def check_paths(page, fronts):
    """Of a page with `fronts` only the paths that begin with one of them."""
    for number, line in parts(page)[1]:
        for target in LINK.findall(line):
            check_link(page, number, target)
        for path in PATH.findall(LINK.sub("]", line)):
            if looks_like_path(path) and (not fronts or path.startswith(fronts)):
                check(bool(resolve(path, page)), f"{page}:{number}", f"no file {path}")


# ---- names

# One name or several in backticks, and then the file: `a`, `b` and `c` (x/specs/Y.antt), (`a`, x/specs/Y.antt), `a` in `x/specs/Y.antt`.
NAMES = r"(?P<names>`[^`]+`(?:(?:, | and )`[^`]+`)*)"
FILE = r"(?P<path>[\w.+-]+(?:/[\w.+-]+)+/?)"
CITED = re.compile(NAMES + r"(?: \(|, | in |, in )`?" + FILE)
# The file first: theorems (x/proofs/Y.antt): `a` (in words), `b`, up to a semicolon or the end of the cell.
LISTED = re.compile(r"theorems \(" + FILE + r"\): (?P<names>[^|]*)")


def files_of(found):
    """The files that a citation means: of a folder all that are in it."""
    for path in found:
        if os.path.isfile(path):
            yield path
        else:
            yield from (file for file in glob.glob(path.rstrip("/") + "/**", recursive=True) if os.path.isfile(file))


def declares(file, name):
    """A definition, theorem, field or case stands at the beginning of its line, after words like `pub`; a function of the code after `fn`,
    another thing of it after its kind. Remarks and lines that take names from elsewhere declare nothing."""
    before = r"^\s*(?:(?:pub|abbrev|unfoldable|record|data|fn|struct|enum|const|mod|extern \"C\") )*"
    declared = re.compile(before + re.escape(name) + r"(?![\w-])")
    return any(declared.match(line) for line in read(file).split("\n"))


def citations(text):
    """What a paragraph cites, as names in backticks and a path."""
    for cited in CITED.finditer(text):
        yield cited["names"], cited["path"]
    for cited in LISTED.finditer(text):
        yield re.sub(r"\([^()]*\)", "", cited["names"]).split(";")[0], cited["path"]


def check_names(page):
    for number, text in paragraphs(parts(page)[1]):
        for names, path in citations(text):
            files = list(files_of(resolve(path, page)))
            for name in re.findall(r"`([^`]+)`", names):
                # A path among the names, and a path that is not there, are faults of the other kind; of crate::name the name counts.
                if "/" not in name and " " not in name and files:
                    last = name.split("::")[-1]
                    check(any(declares(file, last) for file in files), f"{page}:{number}", f"no {last} in {path}")


# ---- must-fail edits

CLAIMS = "docs/CLAIMS.md"


def cited_edits():
    """CLAIMS.md writes an edit's name plain. So a word of lower case letters and digits with an underscore is one, unless it stands in
    backticks (functions, files, crates) or in quotes (cases of the test programs)."""
    for number, line in parts(CLAIMS)[1]:
        plain = re.sub(r'`[^`]*`|"[^"]*"', " ", line)
        for word in re.findall(r"(?<![\w/.-])[a-z0-9]+(?:_[a-z0-9]+)+(?![\w/-])", plain):
            yield number, word


def listed_entries():
    """The entries of README.md's tables, as the functions that they are: what `tender` hands on is `bookanswers`' or `tableanswers`'."""
    for _, line in parts("README.md")[1]:
        for name in re.findall(r"`([a-z]+::[a-z_]+|boccelarch_[a-z_]+)`", line.split("|")[1] if line.startswith("| `") else ""):
            crate, _, function = name.rpartition("::")
            crate = crate or "boccelarch"
            if function not in edits.functions(crate):
                crate = next(other for other in ("bookanswers", "tableanswers") if function in edits.functions(other))
            yield f"{crate}::{function}"


def check_edits():
    there = edits.edits()
    names = {edit.name for edit in there}
    for number, word in cited_edits():
        check(word in names, f"{CLAIMS}:{number}", f"no edit {word}")
    for edit in there:
        check(edit.text != "" and edit.guards != [], edit.path, "it does not say what it does, or what it guards")
        for guarded in edit.guards:
            crate, _, function = guarded.partition("::")
            check(function in edits.guarded(crate), edit.path, f"no function or theorem {guarded}")
    for crate in edits.crates():
        for function in edits.public(crate):
            guards = [edit for edit in there if f"{crate}::{function}" in edit.guards]
            check(len(guards) >= 2, f"crates/{crate}", f"fewer than two edits guard {function}")
    for entry in listed_entries():
        own = [edit for edit in there if entry in edit.guards and edit.crate == entry.split("::")[0]]
        check(own != [], "README.md", f"no edit of its own crate guards the entry {entry}")
    check(read(CLAIMS) == edits.page(), CLAIMS, "its list of edits is not that of the files: python3 tests/docs/edits.py makes it")


# ---- what is asked of a caller


def asking(crate):
    """The public functions of a library that have a `requires`."""
    files = glob.glob(f"crates/{crate}/src/**/*.rt", recursive=True)
    heads = [head for path in files for head in re.findall(r"^pub (?:extern \"C\" )?fn .*?\{$", uncommented(path), re.S | re.M)]
    return [name for head in heads if "requires" in head for name in re.findall(r"fn (\w+)", head)[:1] if name in edits.public(crate)]


def asking_methods(crate):
    """The public methods of a library that have a `requires`, as Type::method."""
    found = []
    for path in glob.glob(f"crates/{crate}/src/**/*.rt", recursive=True):
        for owner, body in re.findall(r"^impl(?:<[^{]*?>)? (\w+)[^\n]*\{\n(.*?)^\}", uncommented(path), re.S | re.M):
            heads = re.findall(r"^    pub fn .*?^    \{$", body, re.S | re.M)
            found += [f"{owner}::{name}" for head in heads if "requires" in head for name in re.findall(r"fn (\w+)", head)[:1]]
    return [name for name in found if name in edits.public(crate)]


def listed_asking():
    """The first column of the table `Function`, `What it asks`; a name without a crate is of the crate before it."""
    inside = False
    for _, line in parts(CLAIMS)[1]:
        cells = [cell.strip() for cell in line.strip("|").split("|")]
        inside = line.startswith("|") and (inside or cells[:2] == ["Function", "What it asks"])
        crate = ""
        for name in re.findall(r"`([^`]+)`", cells[0] if inside else ""):
            crate = name.split("::")[0] if "::" in name else crate
            yield f"{crate}::{name.split('::')[-1]}"


def listed_methods():
    """The first column of the table `Method or operator`, `What it asks`: a type with its crate, and methods of it; operators have no name."""
    inside = False
    for _, line in parts(CLAIMS)[1]:
        cells = [cell.strip() for cell in line.strip("|").split("|")]
        inside = line.startswith("|") and (inside or cells[:2] == ["Method or operator", "What it asks"])
        owner = ""
        for name in re.findall(r"`([^`]+)`", cells[0] if inside else ""):
            owner = name if "::" in name else owner
            if "::" not in name and name[0].islower():
                yield f"{owner}::{name}"


def check_asks():
    methods = {f"{crate}::{name}" for crate in edits.crates() for name in asking_methods(crate)}
    for name in sorted(methods | set(listed_methods())):
        crate, _, method = name.partition("::")
        check(name in set(listed_methods()), CLAIMS, f"{name} asks something of its caller, and the table does not say it")
        # What a trait's method asks stands in the trait.
        check(name in methods or method not in edits.public(crate), CLAIMS, f"{name} asks nothing of its caller")
    there = {f"{crate}::{name}" for crate in edits.crates() for name in asking(crate)}
    listed = set(listed_asking())
    for name in sorted(there | listed):
        check(name in listed, CLAIMS, f"{name} asks something of its caller, and the table does not say it")
        check(name in there, CLAIMS, f"{name} asks nothing of its caller")
    for entry in listed_entries():
        check(entry not in there, "README.md", f"the entry {entry} asks something of its caller")


# ---- crates

ARCHITECTURE = "docs/ARCHITECTURE.md"


def listed_crates():
    lines = [line.split("#")[0].strip() for line in read("crates.txt").split("\n")]
    return [line.split(":")[0].split()[0] for line in lines if line]


def grouped_crates():
    """The second column of the table that begins with `Group`."""
    inside = False
    for number, line in parts(ARCHITECTURE)[1]:
        cells = [cell.strip() for cell in line.strip("|").split("|")]
        inside = line.startswith("|") and (inside or cells[0] == "Group")
        if inside and len(cells) > 1:
            for name in re.findall(r"`([^`]+)`", cells[1]):
                yield number, name


def check_crates():
    listed = listed_crates()
    # Named in backticks, alone or before a slash or ::.
    words = re.findall(r"`([\w-]+)(?=`|/|::)", "\n".join(line for _, line in parts(ARCHITECTURE)[1]))
    for crate in listed:
        check(crate in words, ARCHITECTURE, f"the crate {crate} is not named")
    for number, name in grouped_crates():
        check(name in listed, f"{ARCHITECTURE}:{number}", f"no crate {name} in crates.txt")


# ---- the contracts of the entries, and those of an earlier commit

SAME = re.compile(r"the contracts of the entries are those of commit `([0-9a-f]{7,40})`".replace(" ", r"\s+"), re.I)


def git(*words):
    """What git prints, or None where it fails, as where a copy has no history."""
    run = subprocess.run(["git", *words], capture_output=True, encoding="utf-8", check=False)
    return run.stdout if run.returncode == 0 else None


def contract(function, texts):
    """A public function's signature and contract, of the texts of its crate's files."""
    return [head for text in texts for head in re.findall(rf"^pub (?:extern \"C\" )?fn {function}\b.*?\{{$", text, re.S | re.M)]


def check_same():
    said = SAME.search(read(NOTES[-1]))
    if not said:
        return
    files = git("ls-tree", "-r", "--name-only", said[1], "crates/")
    if files is None:
        print(f"{NOTES[-1]}: commit {said[1]} is not here, so the contracts of the entries are not compared with its")
        return
    for entry in listed_entries():
        crate, _, function = entry.partition("::")
        there = [git("show", f"{said[1]}:{file}") for file in re.findall(rf"^crates/{crate}/src/.*\.rt$", files, re.M)]
        here = [read(file) for file in glob.glob(f"crates/{crate}/src/**/*.rt", recursive=True)]
        same = contract(function, there) == contract(function, here) != []
        check(same, NOTES[-1], f"the contract of {entry} is not that of commit {said[1]}")


# ---- layers

# What is used of proofs/ all the same: file, name, reason.
EXCEPTIONS = [
    (
        "crates/bookreader/specs/Reading.antt",
        "booktext.proofs.BookForm.book_reading",
        "`read_of` answers by the reading of a text that this proof gives; every other reading gives the same (`any_reading`)",
    ),
    (
        "crates/tablereader/specs/Reading.antt",
        "tabletext.proofs.TableForm.table_reading",
        "`read_table_of` likewise, for the text of a sampling table",
    ),
]
# Rattle.x.proofs.Y.{a, b}, or Rattle.x.proofs.Y as a whole, of a crate of this repository: the library's words stand where it has them. An
# attribute `tactic` above a function names lemmas too, in another form: it tells the prover where to look, and nothing has to be believed of it.
OF_PROOFS = re.compile(r"Rattle\.(?!(?:std|core)\.)(?P<module>\w+\.proofs(?:\.[\w'-]+)*)(?:\.\{(?P<names>[^}]*)\})?")


def used_proofs():
    """What specs/ and the code name of proofs/, each with the file that does."""
    for file in sorted(glob.glob("crates/*/specs/**/*.antt", recursive=True) + glob.glob("crates/*/src/**/*.rt", recursive=True)):
        for used in OF_PROOFS.finditer(uncommented(file)):
            for name in (used["names"] or "").split(","):
                yield file, f"{used['module']}.{name.strip()}".rstrip(".")


def check_layers():
    used = list(used_proofs())
    excepted = [(file, name) for file, name, _ in EXCEPTIONS]
    for file, name in used:
        check((file, name) in excepted, file, f"{name} is of proofs/")
    for file, name in excepted:
        check((file, name) in used, file, f"does not use {name}, for which tests/docs/check.py has an exception")


# ---- what stands behind a name

# The crates whose proofs may open a definition: the P cases are worked out, so they open everything.
OPENED_IN = {"supply_of": ["supply", "workedcases"]}
# The crates whose code may name a part of a bid, test programs with them; every other takes segments and prices from `supply`.
NAMED_IN = {
    "carriage": ["money", "book", "bidrules", "bookrecord", "booklines", "bookwriter", "supply", "cases", "clearcases"],
    # who takes the printed sampling table: the entries that are passed none, and what writes it as text
    "sampling::printed": ["clearing", "tender", "tableanswers"],
}


def crates_with(files, form):
    """The crates that have a file of this kind in which the form is found."""
    found = (file for file in glob.glob(f"crates/*/{files}", recursive=True) if re.search(form, uncommented(file), re.M))
    return sorted({file.split("/")[1] for file in found})


def check_shut():
    for name, allowed in OPENED_IN.items():
        opened = crates_with("**/*.antt", rf"^ *unfolding\b(?:[^=:]*\s){name}\b") + crates_with("src/**/*.rt", rf"unfolding\([^)]*\b{name}\b")
        for crate in opened:
            check(crate in allowed, f"crates/{crate}", f"opens {name}")
    for name, allowed in NAMED_IN.items():
        for crate in crates_with("src/**/*.rt", rf"\b{name}\b"):
            check(crate in allowed, f"crates/{crate}", f"names {name}")


# ---- choices and their sums

MAKES_CHOICES = "choicerecord"
# The parts of a definition that say it of both sums.
CARRIED = ["starts_carried", "ends_carried"]


def carrying():
    """The definitions of the crate that makes choices which have these parts."""
    texts = [uncommented(file) for file in sorted(glob.glob(f"crates/{MAKES_CHOICES}/specs/*.antt"))]
    records = [found for text in texts for found in re.findall(r"^pub record (\w+)(.*(?:\n +.*)*)", text, re.M)]
    return [name for name, fields in records if all(re.search(rf"^ +pub {part} : ", fields, re.M) for part in CARRIED)]


def held_by(path, struct):
    """The definitions that the ghost fields of a struct name: its invariants."""
    found = re.search(rf"^pub struct {struct} \{{\n((?: .*\n)*)\}}", uncommented(path), re.M)
    return re.findall(r"^ +(?:pub )?ghost \w+: \{ (\w+) .*\},$", found[1], re.M) if found else []


def check_sums():
    record = f"crates/{MAKES_CHOICES}/src/lib.rt"
    carried = set(held_by(record, "Choice")) & set(carrying())
    check(carried != set(), record, "it is no invariant of a choice that it carries its sums")
    for file in sorted(glob.glob("crates/*/src/**/*.rt", recursive=True)):
        text = uncommented(file)
        if "Choice" in text and f"crates/{MAKES_CHOICES}/" not in file:
            made = re.findall(r"(?<!-> )\bChoice \{|\.(?:starts|ends) = |\.segments\[\w+\] = ", text)
            check(made == [], file, "makes or changes the record of a choice")


# ---- what a proof begins with


def check_proofs():
    files = [file for file in glob.glob("crates/*/proofs/**/*.antt", recursive=True) if len(file.split("/")) > 4]
    for file in sorted(files):
        if file.endswith("/Invariants.antt") and file.replace("/Invariants.", "/Answers.") in files:
            continue
        # A measure alone says by its name what it is for.
        if file.endswith("/Invariants.antt") and "invariant-" not in read(file):
            continue
        check(bool(re.match(r"-- \S", read(file))), file, "its first line does not say why the function meets its contract")


# ---- names of the library

LIBRARY = r"(?P<name>length|take|drop|map|get_or|set|replicate|nat_abs|min|max|reverse)\b(?!-)"
# What is declared, with a colon after it; what the left side of an equation binds; what (a b : A), λ a b. and let a or let (a, b) bind.
STATED = [
    r"^\s*(?:(?:pub|abbrev|unfoldable|record|data) )*NAME :",
    r"^\s*[\w-]+ (?:[^=:;.→≡λ{}\n]*[ (,])?NAME[^=:;.→≡λ{}\n]*=(?: |$)",
    r"[({](?:[^(){}:\n]* )?NAME[^(){}:\n]* :",
    r"λ (?:[^.(\n]* )?NAME[^.(\n]*\.",
    r"\blet (?:\((?:[^)\n]*[ (])?)?NAME[^=:\n]* [:=]",
]
# A parameter or field; what let binds; what the contract's λ binds.
CODED = [r"(?<![\w.])NAME: ", r"\blet (?:mut )?(?:[\w:]*\((?:[^)\n]*[ (])?)?NAME", STATED[3]]


def bound(file, forms):
    """Where a file binds a name of the library, as line and name."""
    text = uncommented(file)
    for form in forms:
        for found in re.finditer(form.replace("NAME", LIBRARY), text, re.M):
            yield text.count("\n", 0, found.start("name")) + 1, found["name"]


def check_library_names():
    for pattern, forms in (("specs/**/*.antt", STATED), ("proofs/**/*.antt", STATED), ("src/**/*.rt", CODED)):
        for file in sorted(glob.glob("crates/*/" + pattern, recursive=True)):
            found = ", ".join(f"{name} in line {line}" for line, name in sorted(set(bound(file, forms))))
            check(found == "", file, f"binds a name of the library: {found}")


def main():
    check_page()
    for page in PAGES:
        check_fences(page)
        check_paths(page, ())
        check_names(page)
    for page in NOTES:
        check_paths(page, ("docs/", "tests/"))
    check_edits()
    check_asks()
    check_crates()
    check_same()
    check_layers()
    check_shut()
    check_sums()
    check_proofs()
    check_library_names()
    for fault in faults:
        print(fault)
    print(f"{passed} passed, {len(faults)} failed")
    return 1 if faults else 0


sys.exit(main())
