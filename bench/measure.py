#!/usr/bin/env python3
"""Times the preprocessor on generated sources beside `gcc -E`, in turn, and prints the best time of each and their ratio.

usage: measure.py PROGRAM FOLDER [RUNS]    PROGRAM is nescmote, FOLDER what generate.py wrote

The program reads NAME.nc through the preprocessor and then refuses it, since no source of these is an application: what is
timed is the whole run. `gcc -E` gets the flags with which it reads a `.nc` file as C.
"""
import os
import subprocess
import sys
import time


def best(words, folder, runs):
    least = None
    for _ in range(runs):
        begin = time.perf_counter()
        subprocess.run(words, cwd=folder, stdout=subprocess.DEVNULL, stderr=subprocess.DEVNULL, timeout=600)
        took = time.perf_counter() - begin
        least = took if least is None else min(least, took)
    return least


def main():
    program, folder = os.path.abspath(sys.argv[1]), sys.argv[2]
    runs = int(sys.argv[3]) if len(sys.argv) > 3 else 5
    print("%-14s %10s %10s %8s" % ("source", "ours (ms)", "gcc (ms)", "ratio"))
    sources = [file for file in os.listdir(folder) if file.endswith(".nc")]
    for file in sorted(sources, key=lambda f: (len(f), f)):
        name = file[: -len(".nc")]
        ours = best([program, "run", name, "none.txt", "--budget", "0"], folder, runs)
        theirs = best(["gcc", "-E", "-P", "-x", "c", "-o", os.devnull, file], folder, runs)
        print("%-14s %10.1f %10.1f %8.2f" % (name, ours * 1000, theirs * 1000, theirs / ours))


if __name__ == "__main__":
    main()
