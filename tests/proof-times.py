#!/usr/bin/env python3
"""Prints which function of a crate costs which seconds of its proof.

    tests/proof-times.py [CRATE..]      beside `rt ci` or `rt check --jobs 1`; ends when no check runs

A check keeps each module that it has admitted in a folder under /tmp until it ends, in the order of their times; the
seconds between two of them are those of the later one. Of a function's modules `Proof` and `Given` are searches for
goals, which an answer spares; `Answers` are answers, `Lts` and `Tie` grow with the body. With several jobs, or on a
full machine, the seconds are those of the clock alone."""
import os
import re
import sys
import time
from collections import Counter, defaultdict

FOLDER = re.compile(r"rattle-logic-built-locked-(\d+)-\d+$")
MODULE = re.compile(r"Rattle-\w+?-(?:proofs|specs)\.(?:contracts\.)?(.*)\.oantt$")
PARTS = ("Proof", "Given", "Answers", "Lts", "Tie", "Kinds", "Reads", "Statement", "Goals")
LEAST = 1.0


def crate_of(pid):
    """The crate that a process checks, with `+tests` where it checks its tests."""
    with open(f"/proc/{pid}/cmdline", "rb") as file:
        words = file.read().decode().split("\0")
    return words[words.index("--crate-name") + 1] + ("+tests" if "--test" in words else "")


def modules_of(folder):
    """The modules that a check has admitted, with their times, the earliest first."""
    with os.scandir(folder) as entries:
        return sorted((entry.stat().st_mtime, entry.name) for entry in entries)


def seen():
    """What each check that runs now has admitted, by its crate."""
    found = {}
    for name in os.listdir("/tmp"):
        match = FOLDER.match(name)
        try:
            if match:
                found[crate_of(match[1])] = modules_of(f"/tmp/{name}")
        except (OSError, ValueError):
            # it has just ended
            continue
    return found


def tell(crate, modules):
    """Prints the seconds of each function, the dearest first."""
    seconds = defaultdict(Counter)
    for (before, _), (at, name) in zip(modules, modules[1:]):
        match = MODULE.match(name)
        words = match[1].split(".") if match else [name]
        part = next((it for it in words if it.split("-")[0] in PARTS), "")
        end = words.index(part) if part else len(words)
        seconds[".".join(words[:end])][part.split("-")[0] or "law"] += at - before
    print(f"{crate}: {modules[-1][0] - modules[0][0]:.0f} s")
    for function, parts in sorted(seconds.items(), key=lambda it: -it[1].total()):
        if parts.total() >= LEAST:
            told = ", ".join(f"{part} {count:.1f}" for part, count in parts.most_common(4))
            print(f"{parts.total():7.1f}  {function}: {told}")


def main(wanted):
    last = {}
    while now := seen():
        last.update((crate, it) for crate, it in now.items() if it)
        time.sleep(2)
    for crate, modules in last.items():
        if not wanted or crate in wanted:
            tell(crate, modules)


main(sys.argv[1:])
