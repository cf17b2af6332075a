#!/usr/bin/env python3
"""Runs a long random script by `cfbook edit`, and compares each line that it prints with the model in edit_model.py.

    python3 tools/long_edit.py PROGRAM [--calls 100000] [--seed 1]
    python3 tools/long_edit.py --script [--calls 100000] [--seed 1]      the script alone
    python3 tools/long_edit.py --answers FILE                            the model's answers to a script

PROGRAM is the built program, crates/cfbook/out/cfbook.
"""
import argparse
import collections
import random
import subprocess
import sys
import time

from edit_model import Book, Scripts


def made(seed, calls):
    """Lines, and what each is to be answered."""
    book, scripts = Book(), Scripts(random.Random(seed), range(1, 16))
    lines = ["open - strict"]
    answers = [book.told(lines[0])]
    while len(lines) < calls:
        lines.append(scripts.call(book))
        answers.append(book.told(lines[-1]))
    return lines, answers


def answers_to(text):
    """What the lines of a script are answered, wrong ones too."""
    book = Book()
    for number, line in enumerate(text.splitlines(), 1):
        words = line.split("#")[0].split()
        try:
            if words:
                yield book.told(" ".join(words))
        except (IndexError, KeyError, ValueError):
            yield "line %d: not a workbook call" % number


def compare(program, seed, calls):
    lines, wanted = made(seed, calls)
    began = time.time()
    done = subprocess.run([program, "edit"], input="\n".join(lines) + "\n", stdout=subprocess.PIPE, text=True)
    took = time.time() - began
    got = done.stdout.splitlines()
    for number, (line, one, other) in enumerate(zip(lines, wanted, got), 1):
        if one != other:
            print("line %d, %s: wanted %.100s, got %.100s" % (number, line, one, other))
            return 1
    if len(got) != len(wanted) or done.returncode:
        print("%d lines of %d, status %d" % (len(got), len(wanted), done.returncode))
        return 1
    count = collections.Counter("%s %s" % (line.split()[0], " ".join(one.split()[:2]) if one.startswith("refused") else "ok")
                                for line, one in zip(lines, wanted))
    print("seed %d: %d calls answered as wanted in %.1f seconds" % (seed, len(lines), took))
    print(", ".join("%s %d" % item for item in sorted(count.items())))
    return 0


def main():
    parser = argparse.ArgumentParser(description=__doc__, formatter_class=argparse.RawDescriptionHelpFormatter)
    parser.add_argument("program", nargs="?")
    parser.add_argument("--calls", type=int, default=100_000)
    parser.add_argument("--seed", type=int, default=1)
    parser.add_argument("--script", action="store_true")
    parser.add_argument("--answers")
    args = parser.parse_args()
    if args.script:
        print("\n".join(made(args.seed, args.calls)[0]))
    elif args.answers:
        with open(args.answers, encoding="utf-8") as text:
            print("\n".join(answers_to(text.read())))
    elif args.program:
        return compare(args.program, args.seed, args.calls)
    else:
        parser.error("name the program")
    return 0


if __name__ == "__main__":
    sys.exit(main())
