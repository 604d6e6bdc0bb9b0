#!/usr/bin/env python3
"""Draws the crates and what each may use, from crates.txt: under its headings, and of each crate what it says of itself.

usage: picture.py ROOT    (writes the page to standard output)
"""
import os
import sys

root = sys.argv[1]
KIT = {"std", "check", "io", "bytes", "os", "libc"}

uses = {}
archives = set()  # static libraries, for C
headings = []  # (words, names)
for line in open(os.path.join(root, "crates.txt"), encoding="utf-8"):
    if line.startswith("# "):
        headings.append((line[2:].strip(), []))
    elif line.strip():
        head, rest = line.split(":")
        name, *kind = head.split()
        uses[name] = rest.split()
        if "staticlib" in kind:
            archives.add(name)
        headings[-1][1].append(name)
headings = [(words, names) for words, names in headings if names]

below = {}


def under(name):
    """All that a crate reaches."""
    if name not in below:
        direct = [u for u in uses.get(name, []) if u not in KIT]
        below[name] = set(direct).union(*(under(u) for u in direct)) if direct else set()
    return below[name]


def nearest(name):
    """What a crate uses, without what it would reach anyway."""
    direct = [u for u in uses[name] if u not in KIT]
    return [u for u in direct if not any(u in under(v) for v in direct)]


def says(name):
    """The first sentence of a crate's own comment, or of its definitions where it has no code."""
    for path in ("src/main.rt", "src/lib.rt", "specs/Lib.antt", "proofs/Lib.antt"):
        full = os.path.join(root, "crates", name, path)
        if os.path.exists(full):
            words = []
            for line in open(full, encoding="utf-8"):
                # the attributes of a root may stand above its comment
                if not words and (line.startswith("#![") or not line.strip()):
                    continue
                if not line.startswith(("// ", "-- ")):
                    break
                words.append(line[3:].strip())
            text = " ".join(words)
            if text:
                return text.split(". ")[0].rstrip(".").replace("|", "\\|")
    return ""


print("# The crates, and what each may use\n")
print("Drawn from `crates.txt` by `tests/crates/picture.py`; `tests/crates/run` fails where this page is another one. A")
print("crate uses crates of its own heading or of one above it. An arrow is left out where a longer way leads there too, and")
print("the last heading but one, which uses nearly all, is not drawn.\n")
print("```mermaid\nflowchart BT")
drawn = [h for h in headings if h is not headings[-2]]
for k, (words, names) in enumerate(drawn):
    print(f'    subgraph h{k} ["{words}"]')
    for name in names:
        print(f"        {name}")
    print("    end")
for _, names in drawn:
    for name in names:
        for u in nearest(name):
            print(f"    {name} --> {u}")
print("```\n")
for words, names in headings:
    print(f"## {words}\n\n| crate | uses, nearest first below it | what it is |\n|---|---|---|")
    for name in names:
        kit = [u for u in uses[name] if u in KIT]
        nearby = ", ".join(nearest(name)) + (("; the kit's " + ", ".join(kit)) if kit else "")
        what = "; ".join(filter(None, [says(name), "a static library" * (name in archives)]))
        print(f"| `{name}` | {nearby} | {what} |")
    print()
