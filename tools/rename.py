#!/usr/bin/env python3
"""Spells the repository's own definitions and lemmas in snake case.

Run at the top of a checkout, after the kit's own script: python3 tools/rename.py
Names that specs/ and proofs/ declare in camel case or with dashes become snake case, there and
wherever they are cited: in clauses of src/, in other proofs and in must-fail edits. Names that
Rattle makes (goals, steps), names of src/ and the library's names stay. A dash stays where it
joins the names of two definitions.
"""
import collections
import glob
import os
import re
import sys

TOKEN = re.compile(r"[^\s(){}\[\],;.`\"]+")
# goals and choices that Rattle names after the code
MADE = re.compile(
    r"^(returns|invariant|decreases|loop|overflow|bounds|prove|unreachable|runs-init|runs-preserved)(-|$)"
    r"|-(requires|preserved|init|smaller)(-|$)|^(in|if|else|then-not|in_ok|in_err)-"
)
# begins as a step of a proof does
PLAIN = {"in-flow"}
# two definitions joined
JOINED = {"then-then", "then-cond", "length-copies", "length-join", "tally-join", "tally-copies"}


# a lemma or a field beside a definition of its name
OTHER = {
    "arc-ok": "arc_ok_lem",
    "no-arc": "no_arc_lem",
    "next-limit": "next_limit_lem",
    "sum-arcs": "sum_arcs_lem",
    "book-of": "book_of_state",
    "nozzles-of": "nozzles_of_book",
    "is-out": "out_there",
    "twoBytes": "two_bytes_test",
}


def snake(name):
    if name in OTHER:
        return OTHER[name]
    name = re.sub(r"([a-z0-9])([A-Z])", lambda m: m.group(1) + "_" + m.group(2).lower(), name)
    return name.replace("-", "_")


def wanted(name):
    if name in PLAIN:
        return True
    if MADE.search(name) or name in JOINED or not re.match(r"^[a-z][A-Za-z0-9_\-']*$", name):
        return False
    return snake(name) != name


def declared(text):
    """Names that a file of specs/ or proofs/ declares: at the line's start, or as a field or constructor."""
    text = re.sub(r"--.*", "", text)
    for line in text.split("\n"):
        if re.match(r"^(use|open|mod|pub mod)\b", line):
            continue
        m = re.match(r"^(?:(?:abbrev|pub|unfoldable|data|record|ruleset) )*([^\s:(){}=]+)\s*[:({]", line)
        if not m:
            m = re.match(r"^\s+(?:pub )?([^\s:(){}=]+)\s*:\s", line)
        if m:
            yield m.group(1)


def imported(text):
    """Names that a file takes from the library."""
    for m in re.finditer(r"use (?:Rattle\.(?:std|core)|Prim|mathlib|borrow|native|lib|logic)[\w.\-']*\.\{([^}]*)\}", text):
        for item in m.group(1).split(","):
            yield item.split(" as ")[-1].strip()


def main():
    antt = [f for k in ("specs", "proofs") for f in glob.glob(f"crates/*/{k}/**/*.antt", recursive=True)]
    texts = {f: open(f, encoding="utf-8").read() for f in antt}
    names = collections.defaultdict(set)
    for f, text in texts.items():
        for name in declared(text):
            if wanted(name):
                names[name].add(f)
    others = glob.glob("crates/*/src/**/*.rt", recursive=True) + glob.glob("crates/*/must-fail/*.edit")
    texts.update({f: open(f, encoding="utf-8").read() for f in others})
    # a new name that already stands somewhere, or that two old names share
    stands = collections.defaultdict(set)
    for f, text in texts.items():
        for token in TOKEN.findall(text):
            stands[token].add(f)
    shared = collections.defaultdict(set)
    for name in names:
        shared[snake(name)].add(name)
    for new, olds in sorted(shared.items()):
        if len(olds) > 1:
            print("two names fall together:", new, sorted(olds))
        if new in stands:
            print("stands already:", new, sorted(olds), [os.path.relpath(f, "crates") for f in sorted(stands[new])][:4])
    if "--list" in sys.argv:
        return
    for f, text in texts.items():
        kept = set(imported(text))
        for name in sorted(kept & set(names)):
            print("of the library here:", name, f)

        def turned(m):
            token = m.group(0)
            return snake(token) if token in names and token not in kept else token

        new = TOKEN.sub(turned, text)
        if new != text:
            open(f, "w", encoding="utf-8").write(new)
    print(len(names), "names")


main()
