"""Checks what the docs cite: definitions, functions, theorems, examples, vectors with their replies, lines of code, and must-fail edits; and that every
public function has its contract.

docs/TRACE.md says in its first table how a cell is written. A cell that cannot be read that way is an error, so nothing cited goes unasked."""
import functools
import os
import re
import sys

root = sys.argv[1]
crates = os.path.join(root, "crates")
wrong = []
seen = 0


@functools.lru_cache(maxsize=None)
def text(*parts):
    """A file, or every file of code and proofs in a folder, as one text; empty where there is none."""
    path = os.path.join(root, *parts)
    if os.path.isdir(path):
        out = []
        for folder, _, files in sorted(os.walk(path)):
            for name in sorted(files):
                if name.endswith((".rt", ".antt", ".rs")):
                    with open(os.path.join(folder, name), encoding="utf-8") as f:
                        out.append(f.read())
        return "\n".join(out)
    if os.path.isfile(path):
        with open(path, encoding="utf-8") as f:
            return f.read()
    return ""


def want(found, what):
    global seen
    seen += 1
    if not found:
        wrong.append(what)


def bare(cell):
    """A cell without its remarks, which stand in parentheses."""
    return re.sub(r"\s*\([^)]*\)", "", cell).strip()


def groups(cell):
    return [g.strip() for g in cell.split(";") if g.strip()]


def words(names):
    return [w.strip() for w in names.split(",")]


def declared(source, name, inside=""):
    """Whether a text of definitions or proofs declares a name: an equation, a field or a longer name is not enough. A law may stand inside a module."""
    return re.search(rf"(?m)^{inside}(?:(?:abbrev|unfoldable) )?(?:pub )?(?:record |data )?{re.escape(name)}(?![\w'-])[^=\n]*:", source)


def spec(place):
    """`File` of the rules, or `crate/File`."""
    crate, _, file = place.rpartition("/")
    return text("crates", crate or "rules", "specs", file + ".antt")


def definitions(cell, at):
    for group in groups(bare(cell)):
        m = re.fullmatch(r"([\w/]+): (.+)", group)
        want(m, f"{at}: no `File: names`: {group}")
        if m:
            source = spec(m[1])
            want(source, f"{at}: no file of definitions {m[1]}")
            for name in words(m[2]):
                want(declared(source, name), f"{at}: no definition {name} in {m[1]}")


def functions(source):
    """The public functions of a text of code, each with what stands before its body."""
    return {m[1]: m[0] for m in re.finditer(r'(?ms)^\s*pub (?:extern "C" )?fn (\w+)\b.*?{$', source)}


def contracts(cell, at):
    for group in groups(bare(cell)):
        m = re.fullmatch(r"(\w+)::(.+)", group)
        want(m, f"{at}: no `crate::functions`: {group}")
        if m:
            public = functions(text("crates", m[1], "src"))
            for name in words(m[2]):
                want(name in public, f"{at}: no public function {m[1]}::{name}")
                if m[1] == "grib1":
                    want(re.search(rf"\b{name}\(", text("include", "grib1.h")), f"{at}: include/grib1.h does not declare {name}")


def theorems(cell, at):
    for group in groups(cell):
        if re.fullmatch(r"\(.*\)", group):
            continue
        m = re.fullmatch(r"([\w', -]+) \(([\w/]+)\)", group)
        want(m, f"{at}: no `names (File)`: {group}")
        if not m:
            continue
        crate, _, file = m[2].rpartition("/")
        crate = crate or "theorems"
        for name in words(m[1]):
            # a statement has a name of its own, and something proved is of that type; a law is stated where it is proved
            if name[0].isupper():
                want(declared(text("crates", crate, "specs", file + ".antt"), name), f"{at}: no theorem {name} in {m[2]}")
                proofs = text("crates", crate, "proofs")
                want(re.search(rf"(?m)^\s*pub [\w'-]+ : {name}$", proofs), f"{at}: theorem {name} has no proof in {crate}")
            else:
                want(declared(text("crates", crate, "proofs", file + ".antt"), name, r"\s*"), f"{at}: no law {name} in {m[2]}")


def vectors():
    """The vectors of the tables in tests/vectors by table and name, with their replies."""
    out = {}
    pages = {"read": "READING.md", "write": "WRITING.md", "check": "CHECKING.md", "pack": "PACKING.md", "cursor": "CURSOR.md"}
    for table, page in pages.items():
        for name, reply in re.findall(r"(?m)^\| `([\w-]+)` \| (\d+) \|", text("tests", "vectors", page)):
            out[table, name] = reply
    return out


replies = vectors()
tests_in_rust = text("tests", "second_reading")


def tested(kind, name, at):
    if kind in ("read", "write", "check", "pack", "cursor"):
        m = re.fullmatch(r"([\w-]+) \((\d+)\)", name)
        want(m, f"{at}: no vector with its reply: {name}")
        if m:
            want((kind, m[1]) in replies, f"{at}: no vector {m[1]} of table {kind}")
            is_reply = replies.get((kind, m[1]), m[2])
            want(is_reply == m[2], f"{at}: vector {m[1]} of table {kind} has reply {is_reply}, not {m[2]}")
    elif kind == "list_cases":
        want(f"== {name}\n" in text("crates", "list_cases", "stdout"), f"{at}: no case {name} of list_cases")
    elif kind == "second_reading":
        want(re.search(rf"#\[test\]\s+fn {re.escape(name)}\(", tests_in_rust), f"{at}: no test {name} of the second reading")
    elif kind == "program":
        want(text("crates", name, "src", "main.rt") and text("crates", name, "stdout"), f"{at}: no program {name} with its output")
    elif kind == "tests":
        want(text("tests", name, "run"), f"{at}: no tests {name}")
    else:
        source = text("crates", "rules", "proofs", kind + ".antt")
        want(source, f"{at}: no examples {kind}")
        want(declared(source, name), f"{at}: no example {name} in {kind}")


def tests(cell, at):
    if not bare(cell):
        return
    for group in groups(cell):
        m = re.fullmatch(r"(\w+): (.+)", group)
        want(m, f"{at}: no `kind: names`: {group}")
        if m:
            for name in words(m[2]):
                tested(m[1], name, at)


def lines(body):
    """`crates/FILE:LINE` with a name beside it: that line holds the name, and not in a comment."""
    for m in re.finditer(r"`(crates/[\w./]+):(\d+)`(?: `([\w']+)`)?", body):
        path, line, name = m[1], int(m[2]), m[3]
        want(name, f"{path}:{line} has no name beside it")
        if name:
            code = text(path).splitlines()
            held = code[line - 1].split("//")[0] if 0 < line <= len(code) else ""
            want(re.search(rf"\b{re.escape(name)}\b", held), f"{path}:{line} does not hold {name}")


def quoted(body):
    """Each statement that is quoted stands in the theorems' statements, however it is broken into lines."""
    stated = " ".join(" ".join(text("crates", crate, "specs") for crate in ("theorems", "laws")).split())
    for block in re.findall(r"(?ms)^```text\n(.*?)^```", body):
        for statement in block.split("\n\n"):
            words = " ".join(statement.split())
            if words:
                want(words in stated, f"not in the theorems' statements: {words}")


asked = {"definition": definitions, "contract": contracts, "theorem": theorems, "test": tests}


def trace(body):
    header = None
    for number, line in enumerate(body.splitlines(), 1):
        if not line.startswith("|"):
            header = None
            continue
        cells = [c.strip() for c in line.strip().strip("|").split("|")]
        if header is None:
            header = cells
        elif not set("".join(cells)) <= {"-"}:
            at = f"TRACE.md:{number}"
            want(len(cells) == len(header), f"{at}: {len(cells)} cells under {len(header)} headings")
            if header[0] != "column":
                for heading, cell in zip(header, cells):
                    if heading in asked:
                        asked[heading](cell, at)
    lines(body)
    quoted(body)


# What programs read and write by: no contract can say what a call of the operating system read or wrote. docs/CONTRACTS.md names each.
SYSTEM = {("program_io", name) for name in ("open_read", "write_all", "write_decimal", "write_hex")}
SYSTEM |= {("vector_io", name) for name in ("print_name", "say", "hex", "reply")}


def contracted(body):
    """Every public function has a contract that asks nothing of its caller, and a place in docs/CONTRACTS.md."""
    named = set(re.findall(r"\w+", " ".join(re.findall(r"`[^`\n]+`", body))))
    for crate in sorted(os.listdir(crates)):
        for name, head in functions(text("crates", crate, "src")).items():
            want("ensures" in head or (crate, name) in SYSTEM, f"{crate}::{name} has no contract")
            want("requires" not in head, f"{crate}::{name} has a requires")
            want(name in named, f"CONTRACTS.md: no {crate}::{name}")


def must_fail(doc, body):
    """docs/CONTRACTS.md and docs/STANDINS.md: must-fail edits."""
    edits = {}
    for crate in os.listdir(crates):
        folder = os.path.join(crates, crate, "must-fail")
        if os.path.isdir(folder):
            for name in os.listdir(folder):
                # a file's own name, or those of the wrong answers that it holds
                held = re.findall(r"^answer: (\w+)$", text("crates", crate, "must-fail", name), re.M)
                for answer in held or [name[: -len(".edit")]]:
                    edits.setdefault(answer, set()).add(crate)
    if doc == "STANDINS.md":
        for crate, name in re.findall(r"`([a-z_]+)/([a-z_]+)`", body):
            if os.path.isdir(os.path.join(crates, crate)) and name not in ("src", "specs", "proofs"):
                want(crate in edits.get(name, ()), f"{doc}: no must-fail edit {crate}/{name}")
    else:
        for line in body.splitlines():
            cells = [c.strip() for c in line.strip().strip("|").split("|")]
            if len(cells) == 3 and cells[0].startswith("`") and "requires" not in cells[0]:
                for name in re.findall(r"\b[a-z0-9]+(?:_[a-z0-9]+)+\b", re.sub(r"`[^`]*`", "", cells[2])):
                    want(name in edits, f"{doc}: no must-fail edit {name}")


trace(text("docs", "TRACE.md"))
contracted(text("docs", "CONTRACTS.md"))
for doc in ("CONTRACTS.md", "STANDINS.md"):
    must_fail(doc, text("docs", doc))

for w in wrong:
    print("trace:", w)
if wrong:
    sys.exit(1)
print(f"trace: all {seen} that are cited hold")
