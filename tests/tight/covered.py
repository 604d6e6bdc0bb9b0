"""Checks that each public function of each library crate has a statement in crates/tight over its own contract. That the statements hold is the
prover's; this looks only for one that is missing, weaker than it is said to be, or over another function's contract. No crate can use a static
library, so of its functions it is checked that each has word for word the head and the clauses of a library's function, which it calls and does
nothing else."""
import os
import re
import sys

root = sys.argv[1]
crates = os.path.join(root, "crates")

# no statement: function, and why
SYSTEM = "no contract can say what a call of the operating system read or wrote"
PARTLY = "its contract says what stays and how much is read, and no contract can say which octets the operating system gives"
PROGRAMS = "it stands above this crate, for the programs alone"
EXCEPTIONS = {
    ("printer", "print_from"): SYSTEM,
    **{("program_io", name): SYSTEM for name in ("open_read", "write_all", "write_decimal", "write_hex")},
    **{("program_io", name): PARTLY for name in ("read_full", "load")},
    **{("vector_io", name): SYSTEM for name in ("next_size", "print_name", "say", "hex", "reply")},
    ("vector_io", "load_message"): PARTLY,
    **{("vector_io", name): PROGRAMS for name in ("size", "first", "fill", "kept", "added")},
}
# a weaker statement: function, what of its reply is fixed, and why not all
WEAKER = {
    ("handed_back", "section"): ("(λ κs. apparent)", "said of what a program can see of the reference handed back: where it points, and what lies there"),
    ("handed_back", "in_force"): ("(λ κs. apparent)", "as handed_back::section"),
}


def read(*parts):
    with open(os.path.join(*parts), encoding="utf-8") as f:
        return f.read()


def public(crate):
    """The public functions of a library, those of an impl with its type's name."""
    folder = os.path.join(crates, crate, "src")
    for file in sorted(os.listdir(folder)):
        of = None
        for line in read(folder, file).splitlines():
            if line.startswith("impl"):
                of = re.match(r"impl(?:<[^>]*>)?\s+(\w+)", line).group(1)
            elif line.startswith("}"):
                of = None
            found = re.match(r'\s*pub\s+(?:const\s+|unsafe\s+)*(?:extern\s+"C"\s+)?fn\s+(\w+)', line)
            if found:
                yield (of, found.group(1))


# of a generic function, of one type parameter bounded by Copy: over its contract at each type, with what the bound brings
GENERIC = "(T : RattleType) (C : Clone.Ghosts T.Denot) (d : Dict) → "
STATEMENT = re.compile(
    r"^pub «?(?P<name>[\w]+)»? : (?:(?:Tight|TightBy) contracts\.(?P<path>[\w.]+)\.ended(?P<seen> \(.*\))? λ M 𝓤 𝓛\. contracts\.(?P<again>[\w.]+)\.clauses 𝓛"
    + "|" + re.escape(GENERIC)
    + r"Tight \(contracts\.(?P<path_generic>[\w.]+)\.ended T C d\) λ M 𝓤 𝓛\. contracts\.(?P<again_generic>[\w.]+)\.clauses T C d 𝓛)$",
    re.M,
)


def stated():
    """(crate, path of the function) to what its statement sees of the reply, None where that is all."""
    folder = os.path.join(crates, "tight", "proofs")
    modules = re.findall(r"(?m)^pub mod (\w+)$", read(folder, "Lib.antt"))
    found = {}
    for module in modules:
        text = read(folder, module + ".antt")
        use = re.search(r"(?m)^use Rattle\.(\w+)\.specs\.contracts as contracts$", text)
        for s in STATEMENT.finditer(text):
            path, again = s["path"] or s["path_generic"], s["again"] or s["again_generic"]
            assert use and path == again and path.split(".")[-1] == s["name"], f"tight: {module}: {s['name']} is over another contract"
            assert ("TightBy" in s[0]) == bool(s["seen"]), f"tight: {module}: {s['name']} does not say what is seen"
            found[(use[1], path)] = s["seen"] and s["seen"].strip()
    return found


FUNCTION = re.compile(r'^(?:#\[unsafe\(no_mangle\)\]\n)?pub (?:extern "C" )?fn (?P<head>(?P<name>\w+)\((?P<given>[^)]*)\).*?)^\{\n(?P<body>.*?)^\}\n', re.M | re.S)


def functions(crate):
    """The functions of a library's root, by name."""
    return {f["name"]: f for f in FUNCTION.finditer(read(crates, crate, "src", "lib.rt"))}


def plain(text):
    """A text of code without its layout."""
    return re.sub(r",?\s*([()])\s*", r"\1", " ".join(text.split()))


def is_same(crate, below, name):
    """Whether a static library's function is one call of the function of that name in one of the crates below, with its head and clauses."""
    own = functions(crate).get(name)
    for lib in below:
        its = own and functions(lib).get(name)
        arguments = its and ", ".join(re.findall(r"(\w+):", its["given"]))
        if its and plain(own["head"]) == plain(its["head"]) and plain(own["body"]) == plain(f"{lib}::{name}({arguments})"):
            return True
    return False


static = dict(re.findall(r"(?m)^(\w+) staticlib: *(.*)$", read(root, "crates.txt")))
statements = stated()
thin = 0
wrong = []
covered = 0
with_functions = set()
libraries = [c for c in sorted(os.listdir(crates)) if os.path.exists(os.path.join(crates, c, "src", "lib.rt"))]
for crate in libraries:
    for of, name in public(crate):
        path = f"{of}.{name}" if of else name
        key = (crate, path)
        if key in EXCEPTIONS:
            continue
        if crate in static:
            thin += 1
            if of or not is_same(crate, static[crate].split(), name):
                wrong.append(f"{crate}::{path} is not one call of a library's function of that name with its clauses")
            continue
        if key not in statements:
            wrong.append(f"{crate}::{path} has no statement")
            continue
        seen = statements.pop(key)
        if seen != WEAKER.get(key, (None,))[0]:
            wrong.append(f"{crate}::{path}: its statement sees {seen or 'all'} of the reply, which is not what is listed")
        covered += 1
        with_functions.add(crate)
wrong += [f"{crate}::{path} has a statement and is no public function" for crate, path in statements]

if wrong:
    print("\n".join("tight: " + w for w in wrong))
    sys.exit(1)
print(f"tight: {covered} public functions of {len(with_functions)} libraries, each with a statement over its own contract")
print(f"tight: {thin} functions of {len(static)} static libraries, each one call of such a function with its contract")
for (crate, path), (_, why) in WEAKER.items():
    print(f"tight: {crate}::{path} is fixed: {why}")
for (crate, path), why in EXCEPTIONS.items():
    print(f"tight: {crate}::{path} has none: {why}")
