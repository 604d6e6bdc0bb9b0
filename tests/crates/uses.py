"""Every crate that crates.txt lets another use is used by it: in its code, its definitions or its proofs. And what one crate is to do alone
no other does."""
import os
import re
import sys

root = sys.argv[1]
# What code may name, and in which crates. The values of a data section, and the places of its bits, are the bit reader's (document 02, R-5);
# the loops below it are timed and tried by themselves too, and writing lays the section down. A signed field is made of a value by
# octets::plain and a refusal by reply::refusal_at: a literal of either stands in that crate alone (`struct Signed {` and `-> Signed {` are none).
ALONE = {
    r"\bruns::(?:\{[^}]*)?\b(?:fetch|unpack)\b": {"bitreader", "bare_loops", "bits_beside"},
    r"\bBDS_HEAD\b": {"rules", "bitreader", "framing"},
    r"(?<!struct )(?<!-> )\bSigned \{": {"octets"},
    r"(?<!struct )(?<!-> )\bRefusal \{": {"reply"},
}
idle = []
elsewhere = []
met = set()
named = 0
with open(os.path.join(root, "crates.txt"), encoding="utf-8") as f:
    rows = [line.split(":") for line in f if line.strip() and not line.startswith("#")]
# a static library has that word before its colon
rows = [(head.split()[0], uses) for head, uses in rows]
for crate, uses in rows:
    text = []
    for folder, _, files in os.walk(os.path.join(root, "crates", crate.strip())):
        for name in files:
            if name.endswith((".rt", ".antt")):
                with open(os.path.join(folder, name), encoding="utf-8") as f:
                    text.append(f.read())
    code = []
    for folder, _, files in os.walk(os.path.join(root, "crates", crate.strip(), "src")):
        for name in files:
            with open(os.path.join(folder, name), encoding="utf-8") as f:
                code.append(re.sub(r"//.*", "", f.read()))
    for named_so, crates in ALONE.items():
        found = re.search(named_so, "\n".join(code))
        if found and crate.strip() in crates:
            met.add((named_so, crate.strip()))
        elif found:
            elsewhere.append(f"{crate.strip()} names {found.group()}, which {', '.join(sorted(crates))} do alone")
    text = "\n".join(text)
    for used in uses.split():
        named += 1
        if not re.search(rf"Rattle\.{used}\.|\b{used}::", text):
            idle.append(f"{crate.strip()} names {used} and does not use it")
elsewhere += [f"{crate} does not name {named_so}" for named_so, crates in ALONE.items() for crate in sorted(crates) if (named_so, crate) not in met]
for line in idle + elsewhere:
    print("crates:", line)
if idle or elsewhere:
    sys.exit(1)
print(f"crates: all {named} uses that crates.txt names are made, and what one crate does alone no other does")
