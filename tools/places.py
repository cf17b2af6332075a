#!/usr/bin/env python3
"""Lists the places of src/ and proofs/ that an older form of the language may explain, under eight heads.

    python3 tools/places.py          the count under each head and pattern
    python3 tools/places.py HEAD     the places themselves, with file and line

A line that is listed is a place to read, not yet one to change. docs/DESIGN-PASS.md says what each one turned out to be.
"""
import collections
import glob
import os
import re
import subprocess
import sys

ROOT = os.path.dirname(os.path.dirname(os.path.abspath(__file__)))


def sources():
    for path in sorted(glob.glob(f"{ROOT}/crates/*/src/*.rt")):
        if not path.endswith("/tests.rt"):
            with open(path, encoding="utf-8") as text:
                yield os.path.relpath(path, ROOT), text.read().split("\n")


def is_clause(line):
    return re.match(r"\s*(ghost|ensures|requires|//)", line) is not None


def lines(pattern):
    found = []
    for path, text in sources():
        for number, line in enumerate(text, 1):
            if not is_clause(line) and re.search(pattern, line):
                found.append(f"{path}:{number}: {line.strip()}")
    return found


def constants():
    by_name = collections.defaultdict(list)
    for place in lines(r"^(pub(\(crate\))? )?const [A-Z_0-9]+:"):
        by_name[re.search(r"const ([A-Z_0-9]+)", place).group(1)].append(place)
    return [place for places in by_name.values() if len(places) > 1 for place in places]


def repeated_lines():
    """Runs of four or more lines, without clauses and comments, that stand twice."""
    runs = collections.defaultdict(list)
    for path, text in sources():
        body = [(n, l.strip()) for n, l in enumerate(text, 1)
                if l.strip() not in ("", "}", "{", "};", ")", "(") and not is_clause(l) and not l.startswith("use ")]
        for i in range(len(body) - 3):
            runs["\n".join(l for _, l in body[i:i + 4])].append(f"{path}:{body[i][0]}: {body[i][1]}")
    return [place for places in runs.values() if len(places) > 1 for place in places]


def same_shape():
    """Functions whose bodies differ in names and numbers alone."""
    shapes = collections.defaultdict(list)
    for path, text in sources():
        n = 0
        while n < len(text):
            head = re.match(r"(\s*)(pub(\(crate\))? )?fn (\w+)", text[n])
            if head:
                end = n
                while end < len(text) and text[end] != head.group(1) + "}" and not text[end].endswith(";"):
                    end += 1
                opening = next((k for k in range(n, end) if text[k] == head.group(1) + "{" or (k == n and text[k].endswith("{"))), n)
                body = "\n".join(l.strip() for l in text[opening + 1:end])
                shape = re.sub(r"\b[a-z_]\w*\b|\b\d\w*\b", "x", body)
                if body.count("\n") >= 1:
                    shapes[shape].append(f"{path}:{n + 1}: {head.group(4)}")
                n = end
            n += 1
    return [place for places in shapes.values() if len(places) > 1 for place in places]


def clauses():
    """Clauses that stand in three or more functions of a crate, letter for letter."""
    by_text = collections.defaultdict(list)
    for path, text in sources():
        for number, line in enumerate(text, 1):
            clause = re.match(r"\s*(requires|ensures)( \w+)? \{ (.*) \}", line)
            if clause:
                by_text[(path.split("/")[1], clause.group(1), clause.group(3))].append(f"{path}:{number}")
    return [f"{crate}: {kind} {{ {text} }}  {len(at)} times, first {at[0]}"
            for (crate, kind, text), at in sorted(by_text.items()) if len(at) > 2]


def parameters():
    """Pairs of neighbouring parameters, name and type, that stand in three or more functions of a crate."""
    pairs = collections.defaultdict(list)
    for path, text in sources():
        whole = "\n".join(text)
        for head in re.finditer(r"fn (\w+)(?:<[^(]*>)?\(([^)]*)\)", whole):
            names = [p.strip() for p in head.group(2).split(",") if p.strip() and "self" not in p]
            for pair in zip(names, names[1:]):
                pairs[(path.split("/")[1],) + pair].append(head.group(1))
    return [f"{crate}: {a}, {b}  in {', '.join(at)}" for (crate, a, b), at in sorted(pairs.items()) if len(at) > 2]


def proofs(pattern):
    found = []
    for path in sorted(glob.glob(f"{ROOT}/crates/*/proofs/**/*.antt", recursive=True)):
        inner = os.path.relpath(path, ROOT)
        lemmas = inner.count("/") == 3
        with open(path, encoding="utf-8") as text:
            for number, line in enumerate(text, 1):
                if re.match(pattern, line) and lemmas == ("abbrev" in pattern):
                    found.append(f"{inner}:{number}: {line.strip()}")
    return found


HEADS = {
    "1": ("own Option or Result, flag with a value beside it, numbers for kinds or refusals", {
        "enum": lambda: lines(r"^(pub )?enum "),
        "field or parameter that is a flag": lambda: lines(r"\b\w+: bool\b(?! =)"),
        "function that answers a flag": lambda: lines(r"fn .*-> bool|^\s*\) -> bool"),
        "number for a kind, a layer, a refusal": lambda: lines(r"\b(kind|layer): u8|OBJ_TYPE_\w+: u8|fn number\(|-> u8"),
        "number that stands for nothing": lambda: lines(r"=> 16,|\breturn 0;|== FREE_SECTOR|heads: \[FREE"),
    }),
    "2": ("twins", {
        "four equal lines or more": repeated_lines,
        "bodies of one shape": same_shape,
        "constant of one name": constants,
    }),
    "3": ("loops that count by hand", {
        "while, loop": lambda: lines(r"^\s*(while|loop)\b"),
        "for": lambda: lines(r"^\s*for\b.* in "),
        "counter": lambda: lines(r"\b\w+ [+-]= 1;|= \w+\.saturating_add\(1\)"),
        "index by hand": lambda: lines(r"\[\w+ as usize\]|\[\w+ \+ \d\]"),
    }),
    "4": ("equality, copying, conversion, printing by hand", {
        "impl of a library trait": lambda: lines(r"^impl.*\b(PartialEq|Eq|Ord|PartialOrd|Clone|Copy|From|TryFrom|Display|Default)\b"),
        "arm that only converts": lambda: lines(r"^\s*(Ok|Err|Some|None|Refusal::\w+|LinkFault::\w+)(\(.*\))? => (return )?(Ok|Err|Some|None|Answer|Refusal|\d|\*?\w+,)"),
        "cast": lambda: lines(r"\bas (u8|u32|u64)\b"),
        "printing function": lambda: lines(r"fn show_?\w*"),
    }),
    "5": ("facts and parameters that travel together", {
        "clause in three functions or more": clauses,
        "pair of parameters in three functions or more": parameters,
    }),
    "6": ("buffers with a length, parallel arrays, searches by hand, arenas", {
        "array in a field": lambda: lines(r"^\s+(pub )?\w+: \[[^;\]]+; [\w *]+\],$"),
        "array in a body": lambda: lines(r"\[[^;\]]+; [\w ]+\](?!,$)"),
    }),
    "7": ("switches on a step, tables of functions", {
        "fn, dyn, Box": lambda: lines(r"\bfn\(|\bdyn\b|\bBox<"),
        "match on a name, a call or a kind": lambda: lines(r"match (name|call|line|self|kind|\(name.*) \{"),
    }),
    "8": ("proofs", {
        "answer": lambda: proofs(r"^pub [\w-]+ :"),
        "lemma or definition": lambda: proofs(r"^\s*(abbrev )?(pub )?(abbrev )?[\w'≤-]+ : "),
    }),
}


def main():
    commit = subprocess.run(["git", "-C", ROOT, "rev-parse", "--short", "HEAD"], capture_output=True, text=True).stdout.strip()
    if len(sys.argv) > 1:
        title, patterns = HEADS[sys.argv[1]]
        for name, places in patterns.items():
            found = places()
            print(f"-- {name}: {len(found)}")
            print("\n".join(found))
        return
    print(f"at {commit}")
    for head, (title, patterns) in HEADS.items():
        print(f"{head}. {title}: " + "; ".join(f"{name} {len(places())}" for name, places in patterns.items()))


main()
