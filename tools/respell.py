#!/usr/bin/env python3
"""Spells this repository's own definitions and lemmas in snake case, once, over what the kit's port.py left.

usage: tools/respell.py [--check | --operators]     at the top of the repository

The names are those that the .antt files below crates/ declare. A name in camel case or with a dash gets underscores. Where a definition and a lemma
that one file cites would have one name then (`rootOf` and `root-of`), the lemma gets `_lem` after it. Rust names, words in strings, names that the kit makes (`loop-i-kept`)
and quoted text stay. In comments a name with a dash turns inside backquotes alone, since it may be plain words.
Files of crates/ turn: code, definitions, proofs, edits. --check prints the table and writes nothing; docs/PORT-NAMES.tsv has the names from before port.py on.
Then the conjunction `&&` of base/Tests becomes `and` and its `if` gives way to the library's, as a reader takes both for the library's; --operators does that alone.
"""

import os
import re
import sys

NAME = r"[^\s(){}\[\].;,@\"«»:]+"
DECLARED = re.compile(rf"^ *(?:\| )?(?:(?:unfoldable|abbrev|pub|private|opaque) )*({NAME})(?: \{{[^}}]*\}}| \([^)]*\))* :(?: |$)")
NAMED = re.compile(rf"^ *(?:pub )?(?:record|data|ruleset|abbrev|unfoldable) (?:pub )?({NAME})")
WORDS = "use let in module open infix infixl infixr where elim rw if then else pub unfoldable abbrev record data".split()
WORD = re.compile(r"[^\s(){}\[\].;,@\"«»:|`]+")


def snake(name):
    return re.sub(r"(?<=[a-z0-9])[A-Z]", lambda m: "_" + m.group(0).lower(), name).replace("-", "_")


def texts(endings):
    for folder, dirs, files in os.walk("crates"):
        dirs[:] = sorted(d for d in dirs if d not in ("out", "target"))
        for name in sorted(files):
            if name.endswith(endings):
                yield os.path.join(folder, name)


def read(path):
    with open(path, encoding="utf-8") as f:
        return f.read()


def declared():
    names = {}
    for path in texts((".antt",)):
        for line in read(path).split("\n"):
            m = DECLARED.match(line) or NAMED.match(line)
            if m and m.group(1) not in WORDS:
                names.setdefault(m.group(1), set()).add(path)
    return names


# A record's field that would have a definition's name.
HAND = {"is-root": "is_the_root"}

# Lemmas that were in snake case already, and whose name a definition gets that the same file cites.
LOCAL = {
    "crates/reasons_shape/proofs/Chain.antt": ["found_of"],
    "crates/reasons_shape/proofs/LinkRules.antt": ["found_of"],
    "crates/state_array/proofs/Filled.antt": ["in_order"],
    "crates/reasons_calls/proofs/Cases.antt": ["named_again", "no_place"],
    "crates/book/proofs/Trees.antt": ["new_line"],
    "crates/calls/proofs/explain/Explained.antt": ["no_way"],
    "crates/calls/proofs/explain/Calls.antt": ["no_way"],
    "crates/update_bodies/proofs/Same.antt": ["same_body"],
    "crates/calls/proofs/gone/Fates.antt": ["same_index"],
    "crates/calls/proofs/gone/Slots.antt": ["same_index"],
}

BARE = re.compile(r"(?<![.:\w'-])(?:[^\s(){}\[\].;,@\"«»:|`]+)")


def table(names):
    """Old name to new. Names that fall together keep one name where no file cites both; else what stands in specs/ has it, and the lemma gets `_lem`."""
    cited = [set(BARE.findall(re.sub(r"(--|//)[^\n]*", "", read(path)))) for path in texts((".antt", ".rt"))]
    groups = {}
    for name in names:
        if "◌" in name or not re.match(r"[A-Za-z]", name) or name in HAND:
            continue
        if not re.match(r"[a-z]", name) and name.upper() != name:
            continue
        groups.setdefault(name.replace("-", "_") if name.upper() == name else snake(name), []).append(name)
    turned = dict(HAND)
    for new, group in groups.items():
        defined = [name for name in group if any("/specs/" in path for path in names[name])]
        kept = []
        for name in sorted(group, key=lambda n: (n not in defined, "-" in n, n)):
            together = any(name in text and other in text for text in cited for other in kept)
            if not together:
                kept.append(name)
            if name != new:
                turned[name] = new + "_lem" if together else new
    return turned


def turn_words(text, turned, dashes=True):
    def one(m):
        word = m.group(0)
        if not dashes and "-" in word:
            return word
        return turned.get(word, word)

    return WORD.sub(one, text)


SPAN = re.compile(r"`[^`\n]*`")


def turn_prose(text, turned):
    out, at = [], 0
    for m in SPAN.finditer(text):
        out += [turn_words(text[at:m.start()], turned, False), turn_words(m.group(0), turned)]
        at = m.end()
    return "".join(out + [turn_words(text[at:], turned, False)])


def turn_antt(text, turned):
    lines = []
    for line in text.split("\n"):
        m = re.search(r"(^|\s)--( |$)", line)
        code, prose = (line[:m.start()], line[m.start():]) if m else (line, "")
        lines.append(turn_words(code, turned) + turn_prose(prose, turned))
    return "\n".join(lines)


def turn_rust(text, turned):
    """Clauses and ghost items; strings stay. A dash stands between spaces in code, so a dashed name is none of Rust's."""
    out, at = [], 0
    for m in re.finditer(r'(?<![\w\'])b?"(?:[^"\\]|\\.)*"|//[^\n]*', text, re.S):
        said = m.group(0)
        out += [turn_words(text[at:m.start()], turned), turn_prose(said, turned) if said.startswith("//") else said]
        at = m.end()
    return "".join(out + [turn_words(text[at:], turned)])


def turn_edit(text, turned):
    lines = []
    for line in text.split("\n"):
        head = re.match(r"(old:|new:)", line)
        lines.append(turn_rust(line, turned) if head else turn_prose(line, turned))
    return "\n".join(lines)


LIBRARY = re.compile(r"\buse ((?:Rattle\.(?:std|core)|mathlib|lib|native|borrow|Prim)\b[^\s{;]*)\.\{([^}]*)\}")


def lent(text, turned):
    """The table without the names that this file has from a library."""
    theirs = {w for m in LIBRARY.finditer(text) for w in re.split(r"[,\s]+", m.group(2)) if w in turned}
    return {a: b for a, b in turned.items() if a not in theirs} if theirs else turned


# ## Operators of the repository's own that are spelled as the library's

TESTS = re.compile(r"((?:ghost )?use) Rattle\.base\.specs\.Tests\.\{([^}]*)\}(;?)\n")
PRELUDE = re.compile(r"((?:ghost )?use Rattle\.std\.specs\.Prelude\.\{)([^}]*)\}")
IF = "if◌then◌else◌"


def with_own_and(text):
    """The conjunction that does not unfold by itself is `and`: `&&` is the library's, which does."""
    text = re.sub(r"(?<!\.)◌&&◌", "◌and◌", text)
    return re.sub(r"(?<![^\s(])&&(?![^\s)])", "and", text)


def with_std_if(text):
    """`if` is the library's, which is the same choice by a test."""
    m = TESTS.search(text)
    names = [w.strip() for w in m.group(2).split(",") if w.strip()]
    names.remove(IF)
    kept = f"{m.group(1)} Rattle.base.specs.Tests.{{{', '.join(names)}}}{m.group(3)}\n" if names else ""
    had = PRELUDE.search(text)
    if had:
        text = text[: m.start()] + kept + text[m.end() :]
        had = PRELUDE.search(text)
        return text[: had.start()] + f"{had.group(1)}{had.group(2)}, {IF}}}" + text[had.end() :]
    return text[: m.start()] + f"{m.group(1)} Rattle.std.specs.Prelude.{{{IF}}}{m.group(3)}\n" + kept + text[m.end() :]


# The worked cases' own sign, a fact and the others.
PAIRED = ["update/proofs/Cases", "questions/proofs/Computed", "questions/proofs/FilterCases", "questions/proofs/WalkCases"]


def turn_operators():
    own = set()
    for path in (f"crates/{name}.antt" for name in PAIRED):
        old = read(path)
        text = re.sub(r"(?m)^((?:(?! --).)*)", lambda m: re.sub(r"(?<![^\s◌])and(?![^\s◌])", "also", m.group(1)) if not m.group(1).startswith("--") else m.group(1), old)
        if "◌also◌" not in old:
            write(path, text)
    for path in texts((".antt", ".rt")):
        old = text = read(path)
        named = [w.strip() for m in TESTS.finditer(text) for w in m.group(2).split(",")]
        if path == "crates/base/specs/Tests.antt":
            named = ["◌&&◌"]
            text = re.sub(r"infix 5 if◌.*?= y\n\n", "", text, flags=re.S).replace("-- a choice by a test\n", "")
            if IF not in PRELUDE.search(text).group(2):
                text = PRELUDE.sub(lambda m: f"{m.group(1)}{m.group(2)}, {IF}}}", text, count=1)
        if IF in named:
            text = with_std_if(text)
        if "◌&&◌" in named:
            text = with_own_and(text)
            own.add(path)
        if text != old:
            write(path, text)
    for path in texts((".edit",)):
        old = text = read(path)
        file = re.search(r"(?m)^file: (\S+)", text)
        if file and os.path.normpath(os.path.join(os.path.dirname(path), "..", file.group(1))) in own:
            text = with_own_and(text)
        if text != old:
            write(path, text)


def write(path, text):
    with open(path, "w", encoding="utf-8") as f:
        f.write(text)


def main():
    if "--operators" in sys.argv:
        turn_operators()
        return
    check = "--check" in sys.argv
    turned = table(declared())
    if check:
        for name in sorted(turned):
            print(f"{name}\t{turned[name]}")
        return
    kinds = ((".antt", turn_antt), (".rt", turn_rust), (".edit", turn_edit))
    for ending, turn in kinds:
        for path in texts((ending,)):
            old = read(path)
            mine = {a: b for a, b in lent(old, turned).items()}
            mine.update({name: name + "_lem" for name in LOCAL.get(path, [])})
            new = turn(old, mine)
            if new != old:
                write(path, new)
    turn_operators()


if __name__ == "__main__":
    main()
