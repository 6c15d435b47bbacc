#!/usr/bin/env python3
"""Checks some functions of a crate while no crate below is proved: these are taken as sources. It gives no verdict, and takes 20 to 200
seconds where `rt check` would first prove all crates below. What it checked is kept in the crate's folder, so that the next run is shorter.

    cd crates/NAME && ../../bench/source_check.py FUNCTION.. [--start FUNCTION] [--allow-holes] [--tests]
    ../../bench/source_check.py --costs [ROWS]

A FUNCTION is named as `rattle check --only` takes it: the end of its path, a type or a module. `--costs` lists the seconds of the last run
by the files that it wrote, the dearest first: `Lts` is the part on lifetimes and drops, `Proof` that on the clauses.
"""
import os
import subprocess
import sys

KIT_BIN = "/opt/rattle/bin"
KEPT_FOLDER = "out/incremental"
LONGEST = 900

sys.path.insert(0, KIT_BIN)
import rtlib  # noqa: E402


def flags_of(words):
    """The flags of `rattle check` for these words, and whether the tests are meant."""
    flags, names = ["--jobs", "1"], iter(words)
    for word in names:
        if word == "--start":
            flags += [word, next(names)]
        elif word.startswith("--"):
            flags += [word] if word != "--tests" else []
        else:
            flags += ["--only", word]
    return flags, "--tests" in words


def check(words):
    folder = os.getcwd()
    crate = rtlib.Crate(folder, rtlib.root_above(folder), {})
    flags, tests = flags_of(words)
    os.makedirs("out", exist_ok=True)
    command = crate.words(flags, tests=tests, as_source=True)
    return subprocess.run([rtlib.RATTLE, "check", *command, *rtlib.KEPT], check=False).returncode


def costs(rows):
    written = []
    for folder, _, names in os.walk(KEPT_FOLDER):
        for name in names:
            if name.endswith(".oantt") and not name.endswith(".decls.oantt"):
                written.append((os.stat(f"{folder}/{name}").st_mtime, name.removesuffix(".oantt")))
    written.sort()
    found = [(b[0] - a[0], b[1]) for a, b in zip(written, written[1:]) if b[0] - a[0] < LONGEST]
    for cost, name in sorted(found, reverse=True)[:rows]:
        print(f"{cost:7.1f} {name}")


def main():
    words = sys.argv[1:]
    if words[:1] == ["--costs"]:
        costs(int(words[1]) if len(words) > 1 else 25)
        return 0
    return check(words)


if __name__ == "__main__":
    sys.exit(main())
