"""Tries the edits that stand outside the gate: all but one of each crate, and all of a crate of more than 22 functions.

Usage: python3 bench/edits.py [CRATE ...]     (at the top of the repository; without names all crates of bench/edits)

Each edit is put into its crate's must-fail/ for the time of `rt must-fail`, which has to say that all of them are refused.
"""
import os
import shutil
import subprocess
import sys

TOP = os.path.dirname(os.path.dirname(os.path.abspath(__file__)))


def is_refused(crate):
    """Whether every edit of a crate is refused."""
    kept, placed = f"{TOP}/bench/edits/{crate}", f"{TOP}/crates/{crate}/must-fail"
    own = os.path.isdir(placed)
    edits = sorted(os.listdir(kept))
    shutil.copytree(kept, placed, dirs_exist_ok=True)
    try:
        ran = subprocess.run(["rt", "must-fail", crate], cwd=TOP, capture_output=True, text=True)
    finally:
        for edit in edits:
            os.remove(f"{placed}/{edit}")
        if not own:
            os.rmdir(placed)
    print(ran.stdout + ran.stderr, end="")
    return ran.returncode == 0


def main():
    crates = sys.argv[1:] or sorted(os.listdir(f"{TOP}/bench/edits"))
    failed = [crate for crate in crates if not is_refused(crate)]
    print(f"{len(crates) - len(failed)} crates refuse all edits" + (f", not: {' '.join(failed)}" if failed else ""))
    return 1 if failed else 0


if __name__ == "__main__":
    sys.exit(main())
