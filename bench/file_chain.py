#!/usr/bin/env python3
"""Times an application whose files are a chain, each a configuration that names the next one, and prints the time and the peak of memory
of each length, and what four times the length costs.

    bench/file_chain.py PROGRAM [RUNS]
    bench/file_chain.py crates/application_rows/out/application_rows     (as `rt run` leaves it)

The files stand in memory. All are read and parsed, the deepest below all others; the limit of instances comes behind reading. What is timed
is the whole run.
"""
import os
import subprocess
import sys
import time

LENGTHS = [5_000, 20_000, 80_000]
ANSWER = "chain %d: limit instances 501\n"
MOST = 5.0


def ran(program, length):
    """The seconds and the peak of memory, in MiB, of a chain of so many files."""
    begin = time.perf_counter()
    child = subprocess.Popen([program], stdin=subprocess.PIPE, stdout=subprocess.PIPE)
    child.stdin.write(b"! %d\n" % length)
    child.stdin.close()
    said = child.stdout.read().decode()
    _, status, usage = os.wait4(child.pid, 0)
    took = time.perf_counter() - begin
    if status != 0 or said != ANSWER % length:
        raise SystemExit("status %d: %s" % (status, said))
    return took, usage.ru_maxrss / 1024


def main():
    if len(sys.argv) < 2:
        print(__doc__)
        return 2
    program = os.path.abspath(sys.argv[1])
    runs = int(sys.argv[2]) if len(sys.argv) > 2 else 3
    print("%8s %10s %10s %8s" % ("files", "ms", "MiB", "ratio"))
    before, ratio = None, None
    for length in LENGTHS:
        took, memory = min(ran(program, length) for _ in range(runs))
        ratio = took / before if before else 0.0
        print("%8d %10.1f %10.1f %8.2f" % (length, took * 1000, memory, ratio))
        before = took
    return int(ratio > MOST)


if __name__ == "__main__":
    sys.exit(main())
