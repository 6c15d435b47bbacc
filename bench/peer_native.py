#!/usr/bin/env python3
"""What peer_bodies.py and peer_wirings.py share: C for the MSP430 that runs on this machine, runs of the tool, and the table of what came out.

clang reads C for the MSP430, with its widths and promotions, and writes LLVM's code of it; that code says each width itself, so that it can be
compiled for this machine. Structs are packed, since their alignment differs. `apt-get install clang-14` brings clang.
"""
import collections
import os
import pathlib
import re
import subprocess

CLANG = "clang-14"
PORT = "0102"
BUDGET = "1000000"
MOST_ODD = 5
FAIR = ("same", "budget", "too large", "no peer", "both refuse", "both take", "refused here alone")

OUT = '#include <stdio.h>\nvoid out(int value) { printf("%u\\n", value & 0xffff); }\n'


def quiet(command, folder):
    return subprocess.run(command, cwd=folder, capture_output=True, text=True)


def native(folder, source):
    """What a C source prints through `out`, word for word, or None where it does not compile or ends by a signal."""
    folder = pathlib.Path(folder)
    (folder / "out.c").write_text(OUT)
    front = ["--target=msp430", "-O0", "-fwrapv", "-fsigned-char", "-w", "-S", "-emit-llvm", "-Xclang", "-disable-O0-optnone"]
    if quiet([CLANG, *front, source, "-o", "msp.ll"], folder).returncode:
        return None
    lines = (folder / "msp.ll").read_text().split("\n")
    lines = [re.sub(r"type \{ (.*) \}", r"type <{ \1 }>", it) if re.match(r"%struct\.\w+ = type \{ ", it) else it for it in lines]
    (folder / "native.ll").write_text("\n".join(it for it in lines if not it.startswith("target ")))
    if quiet([CLANG, "-w", "-O1", "-fwrapv", "native.ll", "out.c", "-o", "native"], folder).returncode:
        return None
    ran = quiet(["timeout", "10", "./native"], folder)
    return ran.stdout.split() if ran.returncode == 0 else None


class Run:
    """A run of an application by the tool: what it wrote to the port of the test, word for word, with its image and the slots that ran; `end` is empty
    where the mote sleeps at its end, and else tells a fault, the end of the budget, or the first two words of a refusal, which shows nothing."""

    def __init__(self, program, application, folder):
        self.shown, self.image, self.ran = None, "", 0
        (pathlib.Path(folder) / "none.txt").write_text("")
        ran = quiet([program, "run", application, "none.txt", "--budget", BUDGET], folder)
        if ran.returncode:
            self.end = " ".join(ran.stdout.split("\n")[0].split()[:2])
            return
        built, trace = ran.stdout.split("\ntrace\n")
        self.image = built[built.index("@"):] + "\n"
        lines = [it.split() for it in trace.split("\n") if it]
        self.shown = [it[3] for it in lines if it[1:3] == ["out", PORT]]
        self.ran = int(lines[-1][4])
        faults = ["fault " + it[2] for it in lines if it[1] == "fault"]
        self.end = faults[0] if faults else "" if lines[-1][-1] == "1" else "budget"


def given(words, kept):
    """The first seed, the number of cases and the folder for those that differ, as the words behind the program's name say."""
    seed, count, folder = [*words, *["1", "100", kept][len(words):]]
    return int(seed), int(count), folder


class Table:
    """Counts of what came out, and a folder for each case in which the two differ."""

    def __init__(self, kept):
        self.kept, self.counts, self.odd = kept, collections.Counter(), 0

    def note(self, seed, word, folder):
        self.counts[word] += 1
        if word in FAIR:
            return
        self.odd += 1
        to = os.path.join(self.kept, "seed%d" % seed)
        subprocess.run(["cp", "-r", str(folder), to], check=True)
        print("%d: %s, kept in %s" % (seed, word, to), flush=True)

    def is_full(self):
        return self.odd >= MOST_ODD

    def __str__(self):
        return ", ".join("%d %s" % (count, word) for word, count in self.counts.most_common())
