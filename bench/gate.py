#!/usr/bin/env python3
"""Times a whole `rt ci`: processor minutes of each crate's proofs, tests and edits, beside its lines.

Usage: gate.py [SECONDS] [-- COMMAND ..]

Runs COMMAND (`rt ci --anew` where none is given) in the working directory, looks at its provers every SECONDS
(2 where none are given), and prints a table and the longest chain when it ends. A prover that lives for less than that
isn't counted, nor what one does after it was last looked at. A crate's lines are those of its code with its contracts,
of its specs, and of its proofs.
"""

import glob
import os
import re
import subprocess
import sys
import time

TICK = os.sysconf("SC_CLK_TCK")


def children(root):
    """The process ids below root, with root."""
    parents = {}
    for entry in os.listdir("/proc"):
        if entry.isdigit():
            try:
                with open(f"/proc/{entry}/stat") as stat:
                    parents[int(entry)] = int(stat.read().rsplit(")", 1)[1].split()[1])
            except OSError:
                pass
    below = {root}
    grew = True
    while grew:
        more = {child for child, parent in parents.items() if parent in below} - below
        below |= more
        grew = bool(more)
    return below


def work_of(process):
    """Which crate a prover works on and for what, its processor seconds with those of its ended children, and its parent;
    None for another process."""
    try:
        with open(f"/proc/{process}/cmdline") as line:
            words = line.read().split("\0")
        with open(f"/proc/{process}/stat") as stat:
            fields = stat.read().rsplit(")", 1)[1].split()
    except OSError:
        return None
    if "--crate-name" not in words:
        return None
    crate = words[words.index("--crate-name") + 1]
    if any("rt-edits-" in word for word in words):
        kind = "edits"
    elif "--test" in words:
        kind = "tests"
    else:
        kind = "proofs"
    return crate, kind, sum(int(field) for field in fields[11:15]) / TICK, int(fields[1])


def lines_of(crate, folder, ending):
    """How many lines these files of a crate have."""
    total = 0
    for name in glob.glob(f"crates/{crate}/{folder}/**/*{ending}", recursive=True):
        with open(name) as text:
            total += sum(1 for _ in text)
    return total


def longest_chain(spans):
    """The crates, each resting on the one before, whose proofs take the longest one behind another, and their minutes."""
    chains = {}
    with open("crates.txt") as text:
        for line in text:
            crate, _, below = line.strip().partition(":")
            if crate not in spans:
                continue
            under = max((chains[name] for name in below.split() if name in chains), default=(0.0, []))
            chains[crate] = (under[0] + spans[crate], under[1] + [crate])
    return max(chains.values(), default=(0.0, []))


def main():
    words = sys.argv[1:]
    command = ["rt", "ci", "--anew"]
    if "--" in words:
        at = words.index("--")
        command = words[at + 1 :]
        words = words[:at]
    pause = float(words[0]) if words else 2.0
    began = time.time()
    run = subprocess.Popen(command, stdout=subprocess.PIPE, stderr=subprocess.STDOUT)
    os.set_blocking(run.stdout.fileno(), False)
    spent = {}
    seen = {}
    output = b""
    while run.poll() is None:
        provers = {process: work for process in children(run.pid) if (work := work_of(process))}
        for process, (crate, kind, seconds, parent) in provers.items():
            if parent not in provers:
                spent[(process, crate, kind)] = max(seconds, spent.get((process, crate, kind), 0.0))
                first, _ = seen.get((crate, kind), (time.time(), 0.0))
                seen[(crate, kind)] = (first, time.time())
        output += run.stdout.read() or b""
        time.sleep(pause)
    output += run.stdout.read() or b""
    said = output.decode(errors="replace")
    minutes = {}
    for (_, crate, kind), seconds in spent.items():
        row = minutes.setdefault(crate, {"proofs": 0.0, "tests": 0.0, "edits": 0.0})
        row[kind] += seconds / 60
    print("| crate | code | specs | proofs | proving | tests | edits | all |")
    print("|---|---|---|---|---|---|---|---|")
    for crate in sorted(minutes):
        row = minutes[crate]
        lines = [lines_of(crate, "src", ".rt"), lines_of(crate, "specs", ".antt"), lines_of(crate, "proofs", ".antt")]
        times = [row["proofs"], row["tests"], row["edits"], sum(row.values())]
        cells = [f"{n:,}" for n in lines] + [f"{n:.1f}" for n in times]
        print(f"| `{crate}` | " + " | ".join(cells) + " |")
    spans = {crate: (last - first) / 60 for (crate, kind), (first, last) in seen.items() if kind == "proofs"}
    length, chain = longest_chain(spans)
    print(f"\nlongest chain: {length:.0f} minutes, " + ", ".join(f"`{crate}` {spans[crate]:.1f}" for crate in chain))
    total = sum(sum(row.values()) for row in minutes.values())
    print(f"\n{total:.0f} processor minutes in {(time.time() - began) / 60:.0f} minutes")
    found = re.findall(r"^\d+ passed, \d+ failed.*$", said, re.M)
    print(found[-1] if found else "no last line")
    for line in re.findall(r"^rt: FAILED.*$", said, re.M):
        print(line)
    sys.exit(run.returncode)


main()
