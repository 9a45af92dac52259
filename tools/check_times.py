#!/usr/bin/env python3
"""check_times.py [CRATE ..]: the table of docs/CHECK-TIMES.md: the seconds that each crate's proofs take, each by itself on one processor and from
nothing, and those of the must-fail edits together. It runs `rt ci --anew` one task at a time and notes when its lines come. With CRATE, only these
crates and what they need.

Then the longest chain of crates, each of which waits for the one before: no run of `rt ci` that proves all takes less, on however many processors.
"""
import os
import pathlib
import re
import subprocess
import sys
import time

ROOT = pathlib.Path(__file__).resolve().parent.parent


def listed():
    """The dependencies of each crate in the repository, in the order of crates.txt."""
    found = re.findall(r"^(\w+)(?: staticlib)?:(.*)$", (ROOT / "crates.txt").read_text(), re.M)
    names = {name for name, _ in found}
    return {name: [d for d in deps.split() if d in names] for name, deps in found}


def edits(name):
    return len(list((ROOT / "crates" / name / "must-fail").glob("*.edit")))


def measured(wanted):
    """The seconds of each crate, those of all edits and those of programs and tests, and the last line. Proofs come first, then edits, then runs."""
    seconds, tried, before = {}, 0.0, time.time()
    run = subprocess.Popen(["rt", "ci", "--anew", *wanted], cwd=ROOT, env={**os.environ, "RT_JOBS": "1"}, stdout=subprocess.PIPE, text=True)
    line = ""
    for line in run.stdout:
        proved = re.match(r"rt: (\w+)(?:: its tests are)? (?:proved|NOT PROVED)\b", line)
        if not proved and not line.startswith("rt: must-fail "):
            continue
        now = time.time()
        if proved:
            seconds[proved[1]] = seconds.get(proved[1], 0) + now - before
        else:
            tried += now - before
        before = now
    return seconds, tried, time.time() - before, line.strip()


def longest(deps, seconds):
    """The chain of crates that takes longest, lowest first."""
    best = {}

    def visit(name):
        if name not in best:
            below = max((visit(d) for d in deps[name]), default=(0, []))
            best[name] = (below[0] + seconds.get(name, 0), [*below[1], name])
        return best[name]

    return max(map(visit, deps))


def main():
    deps = listed()
    seconds, tried, ran, said = measured(sys.argv[1:])
    if not seconds:
        sys.exit(said or "rt ci said nothing")
    names = [n for n in deps if n in seconds]
    half = (len(names) + 1) // 2
    cells = [f"{n} | {seconds[n]:.0f} | {edits(n)}" for n in names] + [" | | "]
    print("| crate | s | edits | crate | s | edits |\n|---|---|---|---|---|---|")
    for k in range(half):
        print(f"| {cells[k]} | {cells[half + k]} |")
    print(f"\n{said}: {len(names)} crates, {sum(seconds.values()):.0f} s; {sum(map(edits, names))} edits, {tried:.0f} s; programs and tests {ran:.0f} s")
    most, chain = longest(deps, seconds)
    print(f"the longest chain, {most:.0f} s: " + ", ".join(f"{n} {seconds.get(n, 0):.0f}" for n in chain))


if __name__ == "__main__":
    main()
