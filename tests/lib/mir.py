#!/usr/bin/env python3
"""What the compiler reads of a proved library: its functions and all that they call, of whatever crate, the toolchain's too.

usage: python3 tests/lib/mir.py CRATE..      a line for each function: its name, then what it divides by (Div, Rem, FloatDiv, FloatRem)

rt leaves it in crates/CRATE/out/rlib/CRATE.rlib/toolchain/mir.json, from which programs and archives are linked. A call may go
through the impl of a trait: then every method of it is reached.
"""
import glob
import json
import os
import subprocess
import sys

DIVIDING = {"Div", "Rem", "FloatDiv", "FloatRem"}


def functions():
    """Returns every function's MIR by its name, of the repository's libraries that are built and of the toolchain's."""
    doc = subprocess.run(["rt", "doc"], stdout=subprocess.PIPE, check=True, universal_newlines=True).stdout.strip()
    kit = [f"{os.path.dirname(doc)}/rlibs/{it}.rlib" for it in ("core", "std", "std_alloc", "std_collections", "std_heap", "std_io", "io", "libc", "os")]
    found = {}
    for rlib in glob.glob("crates/*/out/rlib/*.rlib") + kit:
        if os.path.isfile(f"{rlib}/toolchain/mir.json"):
            with open(f"{rlib}/toolchain/mir.json", encoding="utf-8") as it:
                for name, body in json.load(it):
                    found.setdefault(name, body)
    return found


def look(node, words, impls, ops):
    """Adds the texts that stand in MIR, names among them, the impls that it names, and the operations on two numbers."""
    stack = [node]
    while stack:
        it = stack.pop()
        if isinstance(it, dict):
            for key, value in it.items():
                if key == "Op2":
                    ops.add(value[0] if isinstance(value[0], str) else next(iter(value[0])))
                elif key == "Impl":
                    impls.add(value[0])
                stack.append(value)
        elif isinstance(it, list):
            stack += it
        elif isinstance(it, str):
            words.add(it)


def main(crates):
    known, methods = functions(), {}
    for name in known:
        methods.setdefault(name.rpartition("::")[0], []).append(name)
    todo = [it for it in known if it.split("::")[0] in crates]
    begun, reached = bool(todo), set(todo)
    while todo:
        name = todo.pop()
        words, impls, ops = set(), set(), set()
        look(known[name], words, impls, ops)
        print(name, *sorted(ops & DIVIDING))
        found = {it for it in words if it in known}.union(*(methods.get(it, []) for it in impls)) - reached
        reached |= found
        todo += found
    return 0 if begun else 1


if __name__ == "__main__":
    sys.exit(main(sys.argv[1:]))
