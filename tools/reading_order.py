#!/usr/bin/env python3
"""reading_order.py [--write]: whether the line counts in docs/DEFINITIONS.md, "Reading order", are those of the files, and every file stands there once.

A row's first cell names files of specs/ (crate/File, File, ..), its second their lines; a bold row has the sum of the rows below it. Prints what differs;
--write puts the right numbers into the page. Exit status 1 where a line is printed.
"""
import pathlib
import re
import sys

ROOT = pathlib.Path(__file__).resolve().parent.parent
PAGE = ROOT / "docs" / "DEFINITIONS.md"
ROW = re.compile(r"^\| (\*\*.+?\*\*|\w+/[A-Z]\w*(?:, \w+)*) \| ([\d,]+) \|")


def files(cell):
    """The files that a row's first cell names."""
    crate, _, names = cell.partition("/")
    return [f"crates/{crate}/specs/{name}.antt" for name in names.split(", ")]


def main():
    head, title, rest = PAGE.read_text().partition("## Reading order\n")
    section, mark, tail = rest.partition("\n## ")
    lines, named, sums, part, said = section.split("\n"), [], {}, None, []
    rows = {i: ROW.match(line) for i, line in enumerate(lines) if ROW.match(line)}
    for i, row in rows.items():
        if row[1].startswith("**"):
            part, sums[i] = i, 0
            continue
        named += files(row[1])
        sums[i] = sum((ROOT / f).read_text().count("\n") for f in files(row[1]) if (ROOT / f).is_file())
        sums[part] += sums[i]
    for i, row in rows.items():
        if row[2] != f"{sums[i]:,}":
            said.append(f"{row[1]}: {row[2]}, not {sums[i]:,}")
            lines[i] = lines[i].replace(f"| {row[2]} |", f"| {sums[i]:,} |", 1)
    there = {str(f.relative_to(ROOT)) for f in ROOT.glob("crates/*/specs/*.antt") if f.name != "Lib.antt"}
    said += [f"{f}: no such file" for f in sorted(set(named) - there)] + [f"{f}: not in the page" for f in sorted(there - set(named))]
    said += [f"{f}: twice" for f in sorted(set(named)) if named.count(f) > 1]
    print("\n".join(said), end="\n" if said else "")
    if "--write" in sys.argv:
        PAGE.write_text(head + title + "\n".join(lines) + mark + tail)
    return 1 if said else 0


sys.exit(main())
