"""Tries must-fail edits and keeps what the prover says of each: logs.py ROOT LOGS [CRATE..].

In copies of the repository, one for each crate at work, so that nothing here changes and rt's locks keep none waiting: `rt check` proves the
crate as it stands, and then again with each edit in turn, over what that check kept. A log whose first line has the sum of what it was made
from is not made again.
"""

import concurrent.futures
import hashlib
import os
import queue
import re
import shutil
import subprocess
import sys
import tempfile

from answers import answers, edits, read

root, logs, only = sys.argv[1], sys.argv[2], sys.argv[3:]
crates = os.path.join(root, "crates")
PARTS = ("src", "specs", "proofs")


def below():
    """The crates below each, from crates.txt."""
    uses = {}
    for line in read(os.path.join(root, "crates.txt")).split("\n"):
        head, colon, rest = line.partition(":")
        if colon and not line.startswith("#"):
            uses[head.split()[0]] = rest.split()
    reached = {}

    def under(name):
        if name not in reached:
            reached[name] = {u for u in uses.get(name, []) if u in uses}.union(*(under(u) for u in uses.get(name, []) if u in uses))
        return reached[name]

    return {name: under(name) for name in uses}


def sum_of(crate):
    """A sum of the texts of a crate."""
    found = hashlib.sha256()
    for part in PARTS:
        for folder, folders, files in os.walk(os.path.join(crates, crate, part)):
            folders.sort()
            for name in sorted(files):
                path = os.path.join(folder, name)
                with open(path, "rb") as f:
                    found.update(repr((os.path.relpath(path, crates), f.read())).encode())
    return found.hexdigest()


def copy_of(place):
    """A copy of the repository's crates, with the libraries that are built."""
    os.makedirs(place)
    shutil.copytree(crates, f"{place}/crates", ignore=shutil.ignore_patterns("out", "data", "must-fail"))
    for name in ("crates.txt", "HANDLES"):
        shutil.copy(os.path.join(root, name), place)
    return place


def check(place, crate):
    how = {"cwd": f"{place}/crates/{crate}", "stdin": subprocess.DEVNULL, "stdout": subprocess.PIPE, "stderr": subprocess.STDOUT}
    ran = subprocess.run(["rt", "check", "--jobs", "1"], errors="replace", **how)
    return ran.returncode, ran.stdout


def wanted(crate):
    """The edits of a crate whose logs are not there, each with the sum that its log is to have."""
    names = [crate, *sorted(under[crate])]
    made_from = [kit, [(name, sums.setdefault(name, None) or sums.update({name: sum_of(name)}) or sums[name]) for name in names]]
    found = {}
    for label in edits(crates, crate):
        text = read(os.path.join(crates, crate, "must-fail", label + ".edit"))
        found[label] = hashlib.sha256(repr((made_from, text)).encode()).hexdigest()
    kept = lambda label: os.path.join(logs, crate, label + ".log")
    return {label: made for label, made in found.items() if not os.path.isfile(kept(label)) or read(kept(label)).split("\n")[0] != made}


def work(crate, labels):
    """Makes the logs of a crate's edits, and returns what went wrong."""
    place = places.get()
    try:
        status, said = check(place, crate)
        if status:
            return [f"{crate} is not proved as it stands: {said.rstrip().split(chr(10))[-1]}"]
        os.makedirs(os.path.join(logs, crate), exist_ok=True)
        lost = []
        for label, made in labels.items():
            was = {}
            for answer in answers(crates, crate, label):
                for file, old, new in answer.places:
                    path = f"{place}/crates/{crate}/{file}"
                    text = read(path)
                    was.setdefault(path, text)
                    if text.count(old) != 1:
                        lost.append(f"{crate}/{label}: {answer.name}: its old text stands {text.count(old)} times in {file}")
                    with open(path, "w", encoding="utf-8") as f:
                        f.write(text.replace(old, new))
            said = check(place, crate)[1]
            for path, text in was.items():
                with open(path, "w", encoding="utf-8") as f:
                    f.write(text)
            with open(os.path.join(logs, crate, label + ".log"), "w", encoding="utf-8") as f:
                f.write(f"{made}\n{said}")
        return lost
    finally:
        places.put(place)


under, sums = below(), {}
kit = subprocess.run(["rt", "version"], stdout=subprocess.PIPE, text=True).stdout
tasks = {crate: wanted(crate) for crate in only or sorted(os.listdir(crates)) if edits(crates, crate)}
tasks = {crate: labels for crate, labels in tasks.items() if labels}
with tempfile.TemporaryDirectory() as scratch:
    # no more at once than there are processors, nor than there is memory for
    with open("/proc/meminfo") as f:
        memory = int(re.search(r"MemAvailable:\s+(\d+)", f.read())[1]) // 3_000_000
    lanes = max(1, min(len(os.sched_getaffinity(0)), memory, len(tasks), int(os.environ.get("RT_JOBS") or 99)))
    places = queue.Queue()
    for lane in range(lanes if tasks else 0):
        places.put(copy_of(f"{scratch}/{lane}"))
    with concurrent.futures.ThreadPoolExecutor(lanes) as pool:
        # those with the most to try first
        order = sorted(tasks, key=lambda crate: -len(tasks[crate]))
        lost = [it for found in pool.map(work, order, [tasks[crate] for crate in order]) for it in found]
for it in lost:
    print("edits:", it)
sys.exit(bool(lost))
