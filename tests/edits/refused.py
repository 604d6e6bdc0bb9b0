"""Reads each must-fail edit beside the prover's log of it: refused.py ROOT LOGS [CRATE..].

Of each wrong answer (answers.py) it is demanded
- that the function it changes is refused by its own proof: not proved, and not for want of a function that it calls;
- that a fact is what is lost: no error of that proof is about a name, a form or a missing proof. Where the edit takes away a name that Rattle
  made of the code, another error is about a fact;
- that the edit refuses no other function than those it changes and those that call them.
An answer that changes a contract is one of the function whose contract it is. An answer that changes a definition changes no function: of
it, that some proof lost a fact.
"""

import collections
import os
import re
import sys

from answers import MISSHAPEN, WAITS, answers, edits, function_at, is_renamed, proof_of, read

root, logs, only = sys.argv[1], sys.argv[2], sys.argv[3:]
crates = os.path.join(root, "crates")
wrong = []


def own_errors(crate, log, function):
    """The errors in a function's own proof that are not only about what another failure left, nor about a name that the edit changed."""
    errors = [line for line in log if proof_of(line) == function and ": error: " in line and not WAITS.search(line)]
    return [line for line in errors if not is_renamed(crate, function, line)]


def judge(crate, label):
    """Each answer of one edit, and how many they are."""
    edit = f"{crate}/{label}"
    path = os.path.join(logs, crate, label + ".log")
    found = answers(crates, crate, label)
    if not os.path.isfile(path):
        wrong.append(f"{edit}: no log")
        return len(found)
    log = read(path).split("\n")
    if not any(line.startswith("logic=not-proved") for line in log):
        wrong.append(f"{edit}: the prover gave no verdict, or it is proved")
    said = {}
    for line in log:
        m = re.match(rf"fn {crate}::([\w:]+): (.*)", line)
        if m:
            said[tuple(m.group(1).split("::"))] = m.group(2)
    changed = set()
    for answer in found:
        functions = {function_at(crates, crate, file, old) for file, old, _ in answer.places}
        if None in functions:
            if not any(": error: " in line and not WAITS.search(line) for line in log):
                wrong.append(f"{edit}: {answer.name}: no proof lost a fact")
            changed = None
            continue
        for function in functions:
            name = "::".join(function)
            reply = said.get(function, "not judged")
            errors = own_errors(crate, log, function)
            by_itself = reply.startswith("not proved") and errors or reply.startswith("no proof") and "did not prove" in reply
            if not by_itself:
                wrong.append(f"{edit}: {answer.name}: {name} is not refused by its own proof: {reply}")
            if errors and all("binders" in error for error in errors):
                wrong.append(f"{edit}: {answer.name}: refused for the shape of its proof alone")
            for error in errors:
                if MISSHAPEN.search(error):
                    wrong.append(f"{edit}: {answer.name}: not a fact: {error[:200]}")
        if changed is not None:
            changed |= functions
    if changed is not None:
        for function, reply in said.items():
            if reply != "proved" and function not in changed and "it calls" not in reply:
                wrong.append(f"{edit}: {'::'.join(function)} is refused too: {reply}")
    return len(found)


count = total = 0
for crate in only or sorted(os.listdir(crates)):
    names = collections.Counter()
    for label in edits(crates, crate):
        names.update(a.name for a in answers(crates, crate, label))
        count += 1
        total += judge(crate, label)
    wrong += [f"{crate}: two wrong answers are called {name}" for name, n in names.items() if n > 1]
for w in wrong:
    print("edits:", w)
if wrong or not total:
    sys.exit(1)
print(f"edits: {total} wrong answers in {count} edits, each refused by the proof of what it changes")
