"""What can be read stays so, and a count of the rest.

- A name that a `specs` defines is defined in no other `specs`.
- Every function of code has a comment over it.
- No line of code (.rt), of the definitions of the rules, and of prose is over 120 columns; tables and quoted code are free, and the
  attribute #[tactic(..)], which rt fmt keeps in one line. Of proofs (.antt) the longer lines are counted and printed.
"""

import collections
import glob
import os
import re
import sys

root = sys.argv[1]
WIDTH = 120
wrong = []


def lines(*pattern):
    for path in sorted(glob.glob(os.path.join(root, *pattern), recursive=True)):
        with open(path, encoding="utf-8") as f:
            yield os.path.relpath(path, root), f.read().split("\n")


defined = collections.defaultdict(set)
for path, text in lines("crates", "*", "specs", "**", "*.antt"):
    for line in text:
        m = re.match(r"(?:unfoldable |abbrev )?pub (?:record |data )?([^\s:({]+)", line)
        if m and m[1] != "mod":
            defined[m[1]].add(path)
for name, paths in sorted(defined.items()):
    if len(paths) > 1:
        wrong.append(f"{name} is defined in {' and '.join(sorted(paths))}")

functions = 0
for path, text in lines("crates", "*", "src", "**", "*.rt"):
    for i, line in enumerate(text):
        m = re.match(r"\s*(?:pub(?:\(crate\))? )?(?:extern \"C\" )?fn (\w+)", line)
        if m:
            functions += 1
            j = i - 1
            while text[j].lstrip().startswith("#["):
                j -= 1
            if not text[j].lstrip().startswith("//"):
                wrong.append(f"{path}:{i + 1}: {m[1]} has no comment")

for path, text in [*lines("crates", "*", "src", "**", "*.rt"), *lines("crates", "rules", "specs", "*.antt")]:
    wrong += [f"{path}:{i + 1}: {len(line)} columns" for i, line in enumerate(text) if len(line) > WIDTH and not line.startswith("#[tactic(")]

for path, text in [*lines("*.md"), *lines("docs", "**", "*.md")]:
    code = False
    for i, line in enumerate(text):
        if line.lstrip().startswith("```"):
            code = not code
        elif not code and not line.startswith("|") and len(line) > WIDTH:
            wrong.append(f"{path}:{i + 1}: {len(line)} columns")

long = collections.Counter()
for path, text in [*lines("crates", "*", "specs", "**", "*.antt"), *lines("crates", "*", "proofs", "**", "*.antt")]:
    long.update(n for n in (120, 140) for line in text if len(line) > n)

for w in wrong:
    print("style:", w)
if wrong or not functions or not defined:
    sys.exit(1)
print(f"style: {len(defined)} names of definitions, each in one place; {functions} functions, each with a comment; lines of proofs over 120 columns: {long[120]}, over 140: {long[140]}")
