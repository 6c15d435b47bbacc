#!/usr/bin/env python3
"""Changes one token of random applications of wired components, and compares whether the tool takes them with whether nesc1 does.

usage: peer_refusals.py PROGRAM [SEED [COUNT [KEPT]]]    applications that nesc1 alone refuses are kept in the folder KEPT, /tmp/peer_refusals without it

A token of a file is left out, doubled, swapped with the next one, or another name or sign takes its place. Each application that one of the two alone
refuses is printed with the change and with what is said of it; what is left out of the language is refused here alone.
"""
import os
import random
import re
import sys
import tempfile

import peer
import peer_wirings
from peer_native import Table, given, quiet

TOKEN = re.compile(r"[A-Za-z_]\w*|\d\w*|->|<-|\s+|.")
WORDS = ["uint8_t", "uint32_t", "void", "state", "U0", "P0", "I0", "error_t", "async", "command", "event", "task"]
SIGNS = "( ) [ ] { } ; , . = + * - < > ! 0 1 &".split()
APPLICATIONS = 50


def changed(generator, files):
    """The files with one token changed, and what was changed."""
    name = generator.choice(sorted(files))
    tokens = TOKEN.findall(files[name])
    solid = [k for k, it in enumerate(tokens) if not it.isspace()]
    words = [k for k in solid if re.match("[A-Za-z_]", tokens[k])]
    at = generator.choice(solid)
    kind = generator.choice(["left out", "doubled", "swapped", "word", "word", "word", "sign"])
    if kind == "swapped":
        behind = solid[(solid.index(at) + 1) % len(solid)]
        tokens[at], tokens[behind] = tokens[behind], tokens[at]
        return {**files, name: "".join(tokens)}, "%s: %s and %s swapped" % (name, tokens[at], tokens[behind])
    if kind == "word":
        at = generator.choice(words)
    line = "".join(tokens[:at]).count("\n") + 1
    was = tokens[at]
    others = {"left out": [""], "doubled": [was + " " + was], "word": WORDS + [tokens[k] for k in words], "sign": SIGNS}
    tokens[at] = generator.choice(others[kind])
    return {**files, name: "".join(tokens)}, "%s:%d: %s by %s" % (name, line, was, tokens[at] or "nothing")


def compared(program, nesc1, files, here, there):
    """Which of the two takes the application, and what either says."""
    peer.write(here, files)
    checked = quiet([program, "check", "A"], here)
    by_peer = peer_wirings.by_nesc1(nesc1, files, there)
    if checked.returncode == 0 and by_peer.returncode:
        return "peer refuses", by_peer.stderr.split("\n")[0]
    if checked.returncode:
        return "both refuse" if by_peer.returncode else "refused here alone", checked.stdout.split("\n")[0]
    return "both take", ""


def main():
    program = os.path.abspath(sys.argv[1])
    seed, count, kept = given(sys.argv[2:], "/tmp/peer_refusals")
    os.makedirs(kept, exist_ok=True)
    table = Table(kept)
    with tempfile.TemporaryDirectory() as tools:
        nesc1 = peer.mended_nesc1(tools)
        for number in range(seed, seed + count):
            files, change = changed(random.Random(number), peer_wirings.Wirings(number % APPLICATIONS).application())
            with tempfile.TemporaryDirectory() as here, tempfile.TemporaryDirectory() as there:
                word, said = compared(program, nesc1, files, here, there)
                table.note(number, word, here)
            if word in ("peer refuses", "refused here alone"):
                print("%d: %s: %s: %s" % (number, word, change, said), flush=True)
            if table.is_full():
                break
    print(table)
    return 1 if table.odd else 0


if __name__ == "__main__":
    sys.exit(main())
