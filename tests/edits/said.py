"""Judges must-fail edits by the line that rt ci prints of each, which has the first error that is about no name: said.py ROOT FILE.

Of each edit it is demanded that it was refused, not only by a limit of the prover and not only for a name; that this first error is about a
fact, as far as the line has it; and that it stands in the proof of a function that the edit changes. Of the other wrong answers of an edit this
says nothing: run without a file has the whole log of each.
"""

import os
import re
import sys

from answers import MISSHAPEN, WAITS, answers, edits, function_at, proof_of, read

root, file = sys.argv[1:]
crates = os.path.join(root, "crates")
wrong, seen, first = [], {}, 0
for crate, label, text in re.findall(r"(?m)^rt: must-fail (\w+)/([\w.-]+)\.edit: (.*)$", read(file)):
    seen.setdefault((crate, label), []).append(text)
for crate in sorted(os.listdir(crates)):
    for label in edits(crates, crate):
        edit = f"{crate}/{label}"
        said = seen.pop((crate, label), [])
        if len(said) != 1:
            wrong.append(f"{edit}: rt says {len(said)} things of it")
            continue
        m = re.fullmatch(r"refused, as it must be: (.*)", said[0])
        if not m:
            wrong.append(f"{edit}: {said[0]}")
            continue
        error = m[1]
        functions = {function_at(crates, crate, file, old) for answer in answers(crates, crate, label) for file, old, _ in answer.places}
        at = re.match(r"note: (src/[\w/]+\.rt):(\d+):\d+: it is not proved that", error)
        if at:
            # no proof file: the line in the code, of the edited text
            text = read(os.path.join(crates, crate, at[1])).split("\n")
            own = function_at(crates, crate, at[1], None, sum(len(line) + 1 for line in text[: int(at[2])]))
        else:
            own = proof_of(error)
        if None not in functions and own not in functions:
            wrong.append(f"{edit}: its first error is in no proof of a function that it changes: {error}")
        if MISSHAPEN.search(error) or WAITS.search(error) or "binders" in error:
            wrong.append(f"{edit}: its first error is not about a fact: {error}")
        first += 1
wrong += [f"{crate}/{label}: rt names an edit that is not there" for crate, label in seen]
for w in wrong:
    print("edits:", w)
if wrong or not first:
    sys.exit(1)
print(f"edits: {first} edits, each refused first by the proof of a function that it changes; their other wrong answers are not looked at")
