#!/usr/bin/env python3
"""Times the parser on texts of growing length, and prints the best time of each and what four times the length costs.

usage: parsing.py PROGRAM [RUNS]    PROGRAM is parsed_rows, as `rt run parsed_rows` leaves it in out/

Each text is one line: a call with many arguments, one that ends in a form that is left out (which is read once more), a type with
many fields, and parentheses, casts, operators of one level and calls near the limit of depth in each argument. What is timed is the whole run: tokens, tree, and the tree as text.
"""
import os
import subprocess
import sys
import time

KILOBYTES = [16, 64, 256]
MOST = 5.0


def repeated(before, part, behind, size):
    return before + part * ((size - len(before) - len(behind)) // len(part)) + behind


def texts(size):
    deep = "(" * 190 + "a" + ")" * 190 + ", "
    return {
        "call": repeated("f(", "a[i] + (b * 3 - c) << 2, ", "a)", size),
        "left out": repeated("f(", "a[i] + (b * 3 - c) << 2, ", "a float)", size),
        "type": repeated("type struct s { ", "unsigned long *a, b[3 + 4]; ", "}", size),
        "deep": repeated("f(", deep, "a)", size),
        "casts": repeated("f(", "(t)" * 190 + "a, ", "a)", size),
        "operators": repeated("f(", "+".join(["a"] * 190) + ", ", "a)", size),
        "calls": repeated("f(", "call A.b[" * 190 + "c" + "]()" * 190 + ", ", "a)", size),
    }


def best(program, text, runs):
    least = None
    for _ in range(runs):
        begin = time.perf_counter()
        ended = subprocess.run([program], input=text + b"\n", stdout=subprocess.DEVNULL, timeout=600)
        took = time.perf_counter() - begin
        if ended.returncode != 0:
            raise SystemExit("status %d" % ended.returncode)
        least = took if least is None else min(least, took)
    return least


def main():
    program = os.path.abspath(sys.argv[1])
    runs = int(sys.argv[2]) if len(sys.argv) > 2 else 5
    print("%-10s %s %8s" % ("text", " ".join("%7d KB" % size for size in KILOBYTES), "ratio"))
    slow = 0
    for name in texts(1000):
        times = [best(program, texts(size * 1024)[name].encode(), runs) for size in KILOBYTES]
        ratio = times[-1] / times[-2]
        slow += ratio > MOST
        print("%-10s %s %8.2f" % (name, " ".join("%7.1f ms" % (1000 * took) for took in times), ratio))
    sys.exit(slow)


if __name__ == "__main__":
    main()
