"""Follows the links of the pages that lead a newcomer: links.py ROOT [PAGE..].

A link is [text](path), relative to its page, or [text](path#heading). The path is there. Each `name` in the text stands in the file: a file of
code or of proofs declares it, any other has it as a word of its own. Of `crate::name` the file lies in that crate."""
import os
import re
import sys

root = sys.argv[1]
pages = sys.argv[2:] or ["README.md", "docs/TOUR.md", "docs/WORKING.md", "docs/GLOSSARY.md", "docs/VECTORS.md"]
wrong = []
links = names = 0


def read(path):
    with open(path, encoding="utf-8") as f:
        return f.read()


def holds(path, text, word):
    """Whether a file declares a name, or, where it is neither code nor proof, has it."""
    alone = rf"(?<![\w'-]){re.escape(word)}(?![\w'-])"
    if path.endswith(".rt"):
        return re.search(rf"(?m)\b(?:fn|struct|enum|const|mod) {alone}", text)
    if path.endswith(".antt"):
        return re.search(rf"(?m)^\s*(?:(?:abbrev|unfoldable) )*(?:pub )?(?:record |data )?[«]?{alone}[»]?[^=\n]*:", text)
    return re.search(alone, text)


def headings(text):
    """The headings of a page as links name them."""
    titles = re.findall(r"(?m)^#+ (.+)$", text)
    return {re.sub(r"[^\w -]", "", t.lower()).strip().replace(" ", "-") for t in titles}


for page in pages:
    here = os.path.join(root, page)
    if not os.path.isfile(here):
        wrong.append(f"{page}: no such page")
        continue
    body = re.sub(r"(?ms)^```.*?^```$", "", read(here))
    found = re.findall(r"\[([^\]]+)\]\(([^)\s]+)\)", body)
    if not found:
        wrong.append(f"{page}: no link")
    for text, target in found:
        links += 1
        path, _, heading = target.partition("#")
        whole = os.path.normpath(os.path.join(os.path.dirname(here), path)) if path else here
        inside = os.path.relpath(whole, root)
        if inside.startswith("..") or not os.path.exists(whole):
            wrong.append(f"{page}: no file {target}")
            continue
        if heading and heading not in headings(read(whole)):
            wrong.append(f"{page}: no heading {target}")
        for name in re.findall(r"`([^`]+)`", text):
            if not os.path.isfile(whole) or "/" in name:
                continue
            names += 1
            crate, _, word = name.rpartition("::")
            if crate and not inside.startswith(f"crates/{crate}/"):
                wrong.append(f"{page}: {name} is not in {inside}")
            if not holds(inside, read(whole), word):
                wrong.append(f"{page}: {inside} does not hold {word}")

for w in wrong:
    print("tour:", w)
if wrong:
    sys.exit(1)
print(f"tour: {links} links lead to what is there, and {names} names stand where they say")
