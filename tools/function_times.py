#!/usr/bin/env python3
"""function_times.py CRATE: where the seconds of a check go, by function and by the kind of module that the prover makes of it.

Checks the crate from nothing, one module after another; a file is written for each, so the time between two files is the later one's. `Lts` and `Tie`
follow from the code; `Answers` and `Invariants` are proofs of ours, and so is a `Proof` by hand.
"""
import collections
import pathlib
import re
import subprocess
import sys
import tempfile

CRATES = pathlib.Path(__file__).resolve().parent.parent / "crates"
SHOWN = 25


def check_words(crate):
    """The kit's command that checks the crate, but for where it keeps its work."""
    kit = pathlib.Path(subprocess.run(["rt", "doc"], capture_output=True, text=True, check=True).stdout.strip()).parent
    sys.dont_write_bytecode = True
    sys.path.insert(0, str(kit / "bin"))
    import rtlib

    made = rtlib.Crate(str(CRATES / crate), str(CRATES.parent), {})
    return [rtlib.RATTLE, "check", *made.words(["--jobs", "1"], keeps=False)]


def modules(folder):
    """The crate's modules with the second in which each was written, in that order."""
    files = pathlib.Path(folder).rglob("*.oantt")
    return sorted((f.stat().st_mtime, f.name.removesuffix(".oantt").removesuffix(".decls")) for f in files)


def told(title, seconds):
    print(title)
    for name, s in seconds.most_common(SHOWN):
        if s >= 0.01:
            print(f"{s:7.2f} {name}")


def main():
    if len(sys.argv) != 2:
        sys.exit(__doc__)
    crate = sys.argv[1]
    # The libraries below are built first.
    if subprocess.run(["rt", "check"], cwd=CRATES / crate, capture_output=True).returncode:
        sys.exit(f"not proved: rt check in crates/{crate} says why")
    functions, kinds = collections.Counter(), collections.Counter()
    before = None
    with tempfile.TemporaryDirectory() as folder:
        subprocess.run([*check_words(crate), "--incremental", folder], cwd=CRATES / crate, capture_output=True, check=True)
        made = modules(folder)
    for time, name in made:
        if name.startswith(f"Rattle.{crate}."):
            continue  # such a file only passes another module on
        parts = re.sub(r"^Rattle-\w+-(proofs|specs)\.(contracts\.)?", "", name).split(".")
        function = ".".join(p for p in parts if not p[:1].isupper()) or parts[0]
        functions[function] += time - (before or time)
        kinds[parts[-1] if parts[-1][:1].isupper() else "contract"] += time - (before or time)
        before = time
    told("by function", functions)
    told("by kind of module", kinds)


if __name__ == "__main__":
    main()
