#!/usr/bin/env python3
"""tidy.py [CRATE ..]: cleans finished proofs: drops the comments that name a place of the source, which `rt check --start` writes into proof files,
and has `rt tidy` drop the imports that no file uses and lay the files out. With no CRATE, every crate.
"""
import pathlib
import re
import subprocess
import sys

CRATES = pathlib.Path(__file__).resolve().parent.parent / "crates"
PLACE = re.compile(r"^ *-- src/[\w/]+\.rt:\d+:\d+\n", re.M)


def main():
    failed = False
    for crate in sys.argv[1:] or sorted(f.name for f in CRATES.iterdir()):
        for path in sorted((CRATES / crate / "proofs").rglob("*.antt")):
            text = path.read_text(encoding="utf-8")
            clean = PLACE.sub("", text)
            if clean != text:
                path.write_text(clean, encoding="utf-8")
                print(path.relative_to(CRATES.parent))
        failed |= subprocess.run(["rt", "tidy"], cwd=CRATES / crate).returncode != 0
    return int(failed)


if __name__ == "__main__":
    sys.exit(main())
