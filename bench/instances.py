#!/usr/bin/env python3
"""Times the whole front end on applications of 125 and of 500 instances, and prints the best time of each and their ratio; then on a
program of 200,000 nodes and on one of one more, with what is said of them.

usage: instances.py PROGRAM [RUNS]    PROGRAM is whole_rows, as `rt run` leaves it in crates/whole_rows/out/

All instances but three are copies of one generic module, which MainC initialises: a variable, a function and a command each, and a
dispatch function that calls them all. What is timed is the whole run: files, instances, wires, the program, and how many bodies it has.
"""
import os
import subprocess
import sys
import time

COUNTS = [125, 500]
MOST = 5.0

MODULE = """generic module G(uint8_t n) { provides interface Init; }
implementation {
  uint16_t sums[8];
  uint16_t sum(uint8_t from) {
    uint8_t i; uint16_t all = 0;
    for (i = from; i < 8; i++) { if (sums[i] > 3 * n) continue; all += sums[i] * (i + 1); }
    return all;
  }
  command error_t Init.init() {
    uint8_t i;
    for (i = 0; i < 8; i++) sums[i] = n + i;
    return sum(n & 3) == 0 ? SUCCESS : FAIL;
  }
}"""
USER = """module UserC { uses interface Boot; }
implementation {
  event void Boot.booted() { %s }
}"""
FILLED = """generic module F() { }
implementation {
  void f() { %s }
}"""


def application(name, lines, files):
    text = "\n".join(["configuration %s { }" % name, "implementation {", "  components MainC, UserC;", *lines, "  UserC.Boot -> MainC;", "}"])
    return "\n".join(["~ " + name, "+ %s.nc" % name, text] + ["+ %s\n%s" % file for file in files]) + "\n"


def copies(count):
    """An application of so many instances."""
    lines = []
    for k in range(count - 3):
        lines.append("  components new G(%d) as G%d; MainC.SoftwareInit -> G%d;" % (k % 200, k, k))
    return application("Copies%dC" % count, lines, [("G.nc", MODULE), ("UserC.nc", USER % "")])


def nodes(empty):
    """A hundred bodies of 1,999 nodes, one with so many empty statements and one node, and 30 of MainC and the prelude."""
    lines = ["  components new F() as F%d;" % k for k in range(100)]
    return application("NodesC", lines, [("F.nc", FILLED % (";" * 1998)), ("UserC.nc", USER % (";" * empty))])


def best(program, text, runs):
    least = None
    for _ in range(runs):
        begin = time.perf_counter()
        ended = subprocess.run([program], input=text.encode(), stdout=subprocess.PIPE, timeout=600)
        took = time.perf_counter() - begin
        if ended.returncode != 0:
            raise SystemExit("status %d" % ended.returncode)
        least = took if least is None else min(least, took)
    return least, ended.stdout.decode().rstrip("\n")


def main():
    program = os.path.abspath(sys.argv[1])
    runs = int(sys.argv[2]) if len(sys.argv) > 2 else 5
    times = []
    for text in [copies(count) for count in COUNTS] + [nodes(69), nodes(70)]:
        took, answer = best(program, text, runs)
        times.append(took)
        print("%8.1f ms  %s" % (1000 * took, answer))
    ratio = times[1] / times[0]
    print("ratio %.2f" % ratio)
    sys.exit(ratio > MOST)


if __name__ == "__main__":
    main()
