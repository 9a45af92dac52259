#!/usr/bin/env python3
"""round_trip.py [COUNT]: records at random, each decoded by batchcheck and read again; every byte must come back.

It runs crates/batchcheck/out/batchcheck, in a folder of its own, and says how many records came back. All are read in one run, with a file of bytes that
are no record before each, so that nothing of one call may stay in the next.
"""
import os
import random
import struct
import subprocess
import sys
import tempfile

PROGRAM = os.path.join(os.path.dirname(os.path.abspath(__file__)), "..", "crates", "batchcheck", "out", "batchcheck")
FLAGS = {"hidden": 1, "clips": 2, "active": 4, "graft": 8, "bounds": 16, "transform": 32}


def number(r):
    """A node number: small, or any."""
    return r.choice((r.randrange(100), r.getrandbits(64)))


def tree(r):
    return r.choice(((0, 0), (0, r.randrange(100)), (r.getrandbits(64), r.getrandbits(64))))


def bits(r):
    """The bits of a finite number: a short decimal, or any."""
    while True:
        word = r.choice((struct.unpack("<Q", struct.pack("<d", r.randrange(-9999, 9999) / r.choice((1, 10, 1000))))[0], r.getrandbits(64), 0, 1 << 63))
        if word >> 52 & 2047 != 2047:
            return word


def label(r):
    if r.randrange(2):
        return "".join(r.choice('Pay "\\#é€\U0001f4b3\x07\u0085') for _ in range(r.randrange(8))).encode()
    return bytes(r.randrange(256) for _ in range(r.randrange(33)))


def record(r):
    """A batch record (document 01), with every field at random."""
    nodes, children, labels = b"", [], b""
    count = r.choice((0, 1, 3, 64))
    for _ in range(count):
        flags = r.randrange(64)
        own = [number(r) for _ in range(r.choice((0, 0, 1, 4)))]
        text = label(r)
        if len(labels) + len(text) > 2048:
            text = b""
        graft = tree(r) if flags & FLAGS["graft"] else (0, 0)
        floats = [bits(r) if flags & FLAGS["bounds"] else 0 for _ in range(4)] + [bits(r) if flags & FLAGS["transform"] else 0 for _ in range(6)]
        nodes += struct.pack("<QQQQHHHHBBHI10Q", number(r), number(r) if flags & FLAGS["active"] else 0, *graft, len(children), len(own), len(labels), len(text), r.randrange(256), flags, 0, 0, *floats)
        children += own
        labels += text
    entries = b"".join(struct.pack("<Q", c) for c in children)
    given = r.randrange(2)
    at = 64 + len(nodes)
    head = struct.pack("<HHHHIIIIQQQQQ", count, len(children), len(labels), given, 64, at, at + len(entries), at + len(entries) + len(labels), *tree(r), number(r) if given else 0, number(r), 0)
    return head + nodes + entries + labels


def run(*arguments):
    return subprocess.run([PROGRAM, *arguments], capture_output=True, check=True).stdout


def main():
    r = random.Random(1)
    records = [record(r) for _ in range(int(sys.argv[1]) if len(sys.argv) > 1 else 200)]
    with tempfile.TemporaryDirectory() as folder:
        path = lambda name: os.path.join(folder, name)
        with open(path("none"), "wb") as f:
            f.write(b"\xff" * 20000)
        text = b""
        for first in records:
            with open(path("first"), "wb") as f:
                f.write(first)
            text += b"batch raw none\n" + run("--decode", path("first"))
        with open(path("text"), "wb") as f:
            f.write(text)
        run("--quiet", "--record", path("again-#"), path("text"))
        for i, first in enumerate(records):
            with open(path(f"again-{2 * i + 2}"), "rb") as f:
                if f.read() != first:
                    sys.exit(f"record {i} does not come back")
    print(len(records), "records came back")


main()
