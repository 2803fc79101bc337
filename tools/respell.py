#!/usr/bin/env python3
"""Respells the repository's own definitions and lemmas: words in snake case. Run once, at the top, after the toolchain's port.py.

A name declared in crates/*/specs or in a module of crates/*/proofs (not in a function's own folder) is respelled everywhere below
crates/ that contracts, definitions, proofs and must-fail edits name it. Functions of src/, exported names, types and modules stay.
usage: python3 tools/respell.py [--dry]
"""
import collections
import os
import re
import sys

DECL = re.compile(r"^\s*(?:(?:pub|abbrev|unfoldable)\s+)*([^\s:(){}⌜]+)\s+:(?=\s)")
WORD = r"[\w'’₀-₉◌\-]"
# what a name becomes that would fall together with another one: a lemma with its function takes _lem (LEMMA below), a fake's field
# _fault; where two stand in different records or crates they may be one word (TOGETHER)
OTHER = {
    "heap-read": "heap_reads",
    "shared-read": "shared_reads",
    "logged-link": "logged_then",
    "escrowed-link": "escrowed_then",
}
OTHER |= {n: n.replace("-", "_") + "_fault" for n in (
    "fixed-reply", "invents-totals", "recovers-nothing-later", "refuses-each", "says-escrow-full", "says-log-full",
    "says-not-there", "serves-the-first", "touches-nothing", "turns-log-round")}
# binders that no declaration has, in camel case all the same
BINDERS = ("lookUp", "localOf", "refusedWith", "acceptedWith", "shownWith", "chainBytes", "protectsIn", "noneAsks", "bufTypes", "asMany",
           "afterAll", "logValues", "escrowValues", "logRows", "escrowRows", "logValues'", "escrowValues'")
WORDS = ("let", "in", "elim", "rw", "where", "use", "infixr")
TOGETHER = {"escrow-rows", "log-rows", "in-chain"}
# lemmas that port.py respelled, whose function's name is respelled here to the same word
TURNED = ("answer_at", "heap_of", "same_bytes", "tables_after", "taken_out", "with_first", "too_long")


def texts(*endings):
    for folder, dirs, files in os.walk("crates"):
        dirs[:] = sorted(d for d in dirs if d != "out")
        for f in sorted(files):
            if f.endswith(endings):
                yield os.path.join(folder, f)


def snake(word):
    if not word[:1].islower():
        return word
    return re.sub(r"(?<=[a-z0-9])([A-Z])", lambda m: "_" + m.group(1).lower(), word)


def respelled(name):
    return OTHER.get(name) or "_".join(snake(part) for part in name.split("-"))


def own_names():
    names = set()
    for path in texts(".antt"):
        if "/proofs/" in path and os.path.basename(os.path.dirname(path)) != "proofs":
            continue  # of a function
        with open(path, encoding="utf-8") as f:
            for line in f:
                m = DECL.match(line)
                if m and m.group(1) not in WORDS and re.fullmatch(r"[a-z][\w'₀-₉\-]*", m.group(1)):
                    names.add(m.group(1))
    return names


def function_steps():
    """The steps of old proofs that stand for a call: a function's name with dashes."""
    steps = set()
    for path in texts(".rt"):
        with open(path, encoding="utf-8") as f:
            steps |= {n.replace("_", "-") for n in re.findall(r"\bfn (\w+)", f.read())}
    return steps


def main():
    dry = "--dry" in sys.argv
    own = own_names()
    camel = {respelled(n) for n in own if "-" not in n and respelled(n) != n}
    stand = {n for n in own if respelled(n) == n} | camel
    turned = {n: respelled(n) for n in own if respelled(n) != n}
    for n in turned:
        if "-" in n and n not in OTHER and n not in TOGETHER and turned[n] in stand:
            turned[n] += "_lem"
    turned |= {n: n + "_lem" for n in TURNED}
    turned |= {n: respelled(n) for n in BINDERS}
    # what falls together
    by_new = collections.defaultdict(set)
    for old, new in turned.items():
        by_new[new].add(old)
    for new, olds in sorted(by_new.items()):
        if len(olds) > 1:
            print("look: fall together:", new, "<-", ", ".join(sorted(olds)))
    token = re.compile(r"(?<!" + WORD + r")(" + "|".join(re.escape(n) for n in sorted(turned, key=len, reverse=True)) + r")(?!" + WORD + r")")
    news = set(turned.values())
    new_token = re.compile(r"(?<!" + WORD + r")(" + "|".join(re.escape(n) for n in sorted(news, key=len, reverse=True)) + r")(?!" + WORD + r")")
    steps = function_steps()
    changed = 0
    seen = collections.defaultdict(list)
    for path in texts(".antt", ".rt", ".edit"):
        with open(path, encoding="utf-8") as f:
            text = f.read()
        olds = {m.group(1) for m in token.finditer(text)}
        already = {m.group(1) for m in new_token.finditer(text)} if olds else set()
        for o in olds:
            if turned[o] in already:
                seen[(o, turned[o])].append(path)

        def turn(m):
            word = m.group(1)
            if word in TURNED and (path.endswith(".rt") or re.match(r"\.[A-Z]", text[m.end():])):
                return word
            if path.endswith("Proof.antt") and text[m.start() - 1] == "." and word in steps:
                return word
            return turned[word]

        out = token.sub(turn, text)
        if out != text:
            changed += 1
            if not dry:
                with open(path, "w", encoding="utf-8") as f:
                    f.write(out)
    for (o, n), paths in sorted(seen.items()):
        print("look: both stood in a file:", o, n, *paths[:3], len(paths))
    print(f"respelled: {len(turned)} names in {changed} files")


main()
