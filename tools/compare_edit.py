#!/usr/bin/env python3
"""Runs random scripts by `cfbook edit` and by a program that answers the same calls with cfb's own sources, and compares.

    python3 tools/compare_edit.py PROGRAM ORACLE [--scripts 200] [--calls 300] [--seed 1]

PROGRAM is the built program, crates/cfbook/out/cfbook; ORACLE answers lines `open - MODE`, `len`, `read`, `readhex`, `write`,
`fill`, `pat`, `resize`, `minifat`, `entry` and `header` in the words of the program, on a fresh file that `new - v3 16` makes.

The streams are kept so short together that the drawer refuses nothing for want of room; the scripts have no wrong call, since
cfb panics where we refuse. The answers have to be the same, with two exceptions. A large stream's start is not compared, as
units of a drawer are no sectors of a file; nor that of the MiniFAT. The MiniFAT's count can be higher by cfb (docs/DIFFERENCES.md,
D1), and how often it is is told.
"""
import argparse
import random
import subprocess
import sys

from edit_model import CUTOFF, Book, Scripts

IDS = range(1, 16)
# The chains of so many bytes, one mini sector or unit more for each stream, and the tables fit into 64 units.
MOST = 13_000


def made(seed, calls):
    book, scripts = Book(), Scripts(random.Random(seed), IDS, MOST)
    lines = ["open - strict"]
    book.told(lines[0])
    for _ in range(calls):
        lines.append(scripts.call(book))
        book.told(lines[-1])
    for id in IDS:
        lines += ["len %d" % id, "readhex %d 0 9001" % id, "entry %d" % id]
    return lines + ["minifat", "header"]


def run(command, lines):
    done = subprocess.run(command, input="\n".join(lines) + "\n", stdout=subprocess.PIPE, text=True)
    return done.stdout.splitlines()


def alike(line, ours, theirs):
    """Whether two answers are those of the same state."""
    name = line.split()[0]
    if not (ours.startswith("ok") and theirs.startswith("ok")):
        return False
    if name == "header":
        return int(ours.split()[2]) <= int(theirs.split()[2])
    if name == "entry" and int(ours.split()[3]) >= CUTOFF:
        return ours.split()[3] == theirs.split()[3]
    return ours == theirs


def compare(args, seed):
    """How many answers are alike, and whether cfb has a higher count; or nothing where some differ."""
    lines = made(seed, args.calls)
    ours = run([args.program, "edit"], lines)
    made_file, *theirs = run([args.oracle], ["new - v3 16"] + lines)
    for number, (line, one, other) in enumerate(zip(lines, ours, theirs), 1):
        if not alike(line, one, other):
            print("seed %d, line %d, %s: ours %.100s, theirs %.100s" % (seed, number, line, one, other))
            return None
    if made_file != "ok" or not len(lines) == len(ours) == len(theirs):
        print("seed %d: %d lines, ours %d, theirs %d" % (seed, len(lines), len(ours), len(theirs)))
        return None
    return len(lines), ours[-1].split()[2] != theirs[-1].split()[2]


def main():
    parser = argparse.ArgumentParser(description=__doc__, formatter_class=argparse.RawDescriptionHelpFormatter)
    parser.add_argument("program")
    parser.add_argument("oracle")
    parser.add_argument("--scripts", type=int, default=200)
    parser.add_argument("--calls", type=int, default=300)
    parser.add_argument("--seed", type=int, default=1)
    args = parser.parse_args()
    found = [compare(args, seed) for seed in range(args.seed, args.seed + args.scripts)]
    agree = [one for one in found if one]
    print("%d of %d scripts agree, in %d answers; cfb's MiniFAT has more sectors at the end of %d"
          % (len(agree), len(found), sum(count for count, _ in agree), sum(more for _, more in agree)))
    return 0 if len(agree) == len(found) else 1


if __name__ == "__main__":
    sys.exit(main())
