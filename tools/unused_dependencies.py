#!/usr/bin/env python3
"""unused_dependencies.py [CRATE ..]: the dependencies in crates.txt that a crate does not name, and those that it names and does not list.

A crate names a dependency by `dep::` in its code or `Rattle.dep` in its code, definitions or proofs; comments do not count. Exit status 1 where a
line is printed.
"""
import pathlib
import re
import sys

ROOT = pathlib.Path(__file__).resolve().parent.parent


def listed():
    """The dependencies of each crate, as crates.txt lists them."""
    lines = (line.partition("#")[0] for line in (ROOT / "crates.txt").read_text().splitlines())
    return {name.split()[0]: deps.split() for name, _, deps in (line.partition(":") for line in lines if line.strip())}


def named(crate, libraries):
    """The libraries that a crate's files name; a module of its own hides one of the same name."""
    files = [f for part in ("src", "specs", "proofs") for f in (ROOT / "crates" / crate / part).rglob("*") if f.suffix in (".rt", ".antt")]
    text = re.sub(r"^ *(//|--).*", "", "\n".join(f.read_text() for f in files), flags=re.M)
    words = set(re.findall(r"\b(\w+)::|Rattle\.(\w+)", text))
    return {word for pair in words for word in pair} & libraries - {crate} - set(re.findall(r"\bmod (\w+);", text))


def main():
    crates = listed()
    libraries = set(crates).union(*crates.values())
    wrong = 0
    for crate in sys.argv[1:] or crates:
        uses = named(crate, libraries)
        for text, names in (("does not name", set(crates[crate]) - uses), ("does not list", uses - set(crates[crate]))):
            if names:
                print(f"{crate} {text}: {' '.join(sorted(names))}")
                wrong = 1
    return wrong


if __name__ == "__main__":
    sys.exit(main())
