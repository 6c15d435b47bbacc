#!/usr/bin/env python3
"""Prints what the proof of each function costs, while `rt ci` or `rt check` runs beside it: seconds between the files that the prover writes
one behind another, by crate, the dearest first. `Lts` is the part on lifetimes and drops, `Proof` that on the clauses, `Tie` that on cycles
and generics. Start it first, then the check; it ends with Ctrl-C, or when the file given as its second word exists.

    bench/proofs.py [ROWS [END_FILE]]
"""
import collections
import os
import sys
import time

FOLDER = "/tmp"
PREFIX = "rattle-logic-built"
SUFFIX = ".oantt"
PAUSE = 5


def look(seen):
    """Notes when each file was written; the prover removes its folder at its end."""
    for folder in os.listdir(FOLDER):
        if not folder.startswith(PREFIX):
            continue
        try:
            with os.scandir(f"{FOLDER}/{folder}") as files:
                for file in files:
                    if file.name.endswith(SUFFIX):
                        seen[folder].setdefault(file.name, file.stat().st_mtime)
        except OSError:
            continue


def crate_of(names):
    """The crate that most of the files are about: `Rattle-CRATE-..`."""
    parts = collections.Counter(name.split("-")[1].split(".")[0] for name in names if "-" in name)
    return parts.most_common(1)[0][0] if parts else "?"


def report(seen, rows):
    for times in seen.values():
        written = sorted((when, name) for name, when in times.items())
        costs = [(b[0] - a[0], b[1]) for a, b in zip(written, written[1:])]
        print(crate_of(times), round(written[-1][0] - written[0][0]) if written else 0)
        for cost, name in sorted(costs, reverse=True)[:rows]:
            print(f"  {cost:6.1f} {name.removesuffix(SUFFIX)}")


def main():
    rows = int(sys.argv[1]) if len(sys.argv) > 1 else 12
    end = sys.argv[2] if len(sys.argv) > 2 else None
    seen = collections.defaultdict(dict)
    try:
        while end is None or not os.path.exists(end):
            look(seen)
            time.sleep(PAUSE)
    except KeyboardInterrupt:
        pass
    report(seen, rows)


if __name__ == "__main__":
    main()
