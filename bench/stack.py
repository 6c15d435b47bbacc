#!/usr/bin/env python3
"""Finds the least native stack, in KiB, with which a program does what it does with 64 MiB of it.

    bench/stack.py PROGRAM [ARGUMENT..] < INPUT
    bench/stack.py crates/component_rows/out/component_rows < crates/component_rows/stdin     (statements and expressions of 200 levels)
"""
import resource
import subprocess
import sys

KIB = 1024
MOST = 64 * KIB
SECONDS = 120


def ran(command, given, kib):
    """What the program writes and its status with so much stack."""
    size = kib * KIB
    done = subprocess.run(
        command,
        input=given,
        capture_output=True,
        timeout=SECONDS,
        check=False,
        preexec_fn=lambda: resource.setrlimit(resource.RLIMIT_STACK, (size, size)),
    )
    return done.returncode, done.stdout


def least(command, given):
    """The least stack in KiB, in steps of 16, by halving."""
    wanted = ran(command, given, MOST)
    too_few, enough = 0, MOST
    while enough - too_few > 16:
        middle = (too_few + enough) // 2
        if ran(command, given, middle) == wanted:
            enough = middle
        else:
            too_few = middle
    return enough


def main():
    if len(sys.argv) < 2:
        print(__doc__)
        return 2
    print(f"{least(sys.argv[1:], sys.stdin.buffer.read())} KiB")
    return 0


if __name__ == "__main__":
    sys.exit(main())
