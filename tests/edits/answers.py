"""The wrong answers of must-fail edits. An edit file holds one under the file's name, or several, each under a line `answer: NAME`."""

import collections
import os
import re

Answer = collections.namedtuple("Answer", "name places")  # places: (file, old text, new text)

# What the prover says of a proof that is no longer a proof, rather than of a fact that is no longer so.
MISSHAPEN = re.compile(
    r"not in scope|unknown (?:name|field|module)|no field|\bparse\b|syntax|cannot find|is not defined|too (?:many|few) arguments|that can be named from here|does not cover"
)
# What it says of what another failure left.
WAITS = re.compile(r"was not admitted|was rejected, w(?:as|ere) not checked|which (?:is|are) not proved")
# A name that Rattle makes of a function's code, for its proof to use, has words of that code in it, so that an edit can take it away.
RENAMED = r"(?:module|record) `Rattle\.{}\.proofs\.{}\.[^`]+` has no (?:field )?`[^`]+`"


def read(path):
    with open(path, encoding="utf-8", errors="replace") as f:
        return f.read()


def edits(crates, crate):
    """The names of a crate's edits, without `.edit`."""
    folder = os.path.join(crates, crate, "must-fail")
    return [name[: -len(".edit")] for name in sorted(os.listdir(folder)) if name.endswith(".edit")] if os.path.isdir(folder) else []


def answers(crates, crate, label):
    """The wrong answers of an edit file."""
    found, file, old = [], None, None
    for line in read(os.path.join(crates, crate, "must-fail", label + ".edit")).split("\n"):
        if line.startswith("answer: "):
            found.append(Answer(line[len("answer: ") :], []))
        elif line.startswith("file: "):
            file = line[len("file: ") :].strip()
        elif line.startswith("old: "):
            old = line[len("old: ") :]
        elif line.startswith("new:"):
            if not found:
                found.append(Answer(label, []))
            found[-1].places.append((file, old, line[len("new:") :].removeprefix(" ")))
    return found


def is_renamed(crate, function, error):
    """Whether an error is only about a name that Rattle made of the edited code."""
    return bool(re.search(RENAMED.format(crate, re.escape(".".join(function))), error))


def proof_of(place):
    """The function whose proof a place in a file stands in, by its path in the crate; None outside them."""
    m = re.match(r"(?:\./)?proofs/((?:\w+/)+)\w+\.antt:", place)
    return tuple(m[1].rstrip("/").split("/")) if m else None


def function_at(crates, crate, file, old, at=None):
    """The function whose code or contract holds a text, or a place, by its path in the crate; None outside all functions."""
    if not file.startswith("src/"):
        return None
    text = read(os.path.join(crates, crate, file))
    at = text.find(old) if at is None else at
    heads = [h for h in re.finditer(r"^([ ]*)(?:pub(?:\(crate\))? )?(?:extern \"C\" )?fn (\w+)", text, re.M) if h.start() <= at]
    if not heads:
        return None
    head = heads[-1]
    module = file[len("src/") : -len(".rt")]
    path = () if module in ("lib", "main") else tuple(module.split("/"))
    if head.group(1):  # a method, of the type before it
        # of an impl of a trait, its proofs are under the type's name and the trait's
        first, of = re.findall(r"^impl(?:<[^>]*>)? (\w+)(?: for (\w+))?", text[: head.start()], re.M)[-1]
        path += (of[:1].upper() + of[1:] + first,)
    return (*path, head.group(2))
