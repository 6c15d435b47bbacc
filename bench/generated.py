#!/usr/bin/env python3
"""Times `gen 20` and `gen 60` and prints their ratio; times `check` of the files of `gen 60` beside nesc1; tells the bytes of code of the timer
application of `examples/` and of both; and runs `gen N` for each N from 1 to 60.

usage: generated.py PROGRAM [RUNS]    PROGRAM is nescmote, as `rt run` leaves it in crates/nescmote/out/; peer.py says how to get nesc1
"""
import os
import shutil
import subprocess
import sys
import tempfile

import peer

MOST_MODULES = 60
TOP = os.path.dirname(os.path.dirname(os.path.abspath(__file__)))

MODULE = """module G%(k)dC { uses interface Boot; }
implementation {
  uint16_t n;
  task void t() { n += %(next)d; port_write(0x0120, n); if (n < 3 * %(next)d) post t(); }
  event void Boot.booted() { post t(); }
}
"""
INTERRUPT = """module GenIrqC { uses interface Boot; }
implementation {
  uint16_t c;
  task void r() { uint16_t v; atomic v = c; port_write(0x0130, v); }
  void rx() @atomic_hwevent() @vector(2) { c++; post r(); }
  event void Boot.booted() { port_write(0x0100, 4); }
}
"""
POSTS = "uint8_t TOS_post(void (*task)(void)) @spontaneous() { return 0; }\n"


def files_of(count):
    """The files that `gen` makes, which it does not write."""
    names = ["G%dC" % k for k in range(count)] + ["GenIrqC"]
    wires = ["  %s.Boot -> MainC;" % name for name in names]
    lines = ["configuration GenAppC { }", "implementation {", "  components MainC, %s;" % ", ".join(names), *wires, "}", ""]
    modules = {"G%dC.nc" % k: MODULE % {"k": k, "next": k + 1} for k in range(count)}
    return {"GenAppC.nc": "\n".join(lines), "GenIrqC.nc": INTERRUPT, **modules}


def code_bytes(text):
    """The bytes of the image in a text, without its vectors."""
    code, place = 0, 0
    for line in text[text.index("@"):].split("\n"):
        if line == "q":
            break
        if line.startswith("@"):
            place = int(line[1:], 16)
        elif place < 0xFFE0:
            code += len(line.split())
    return code


def nesc1_seconds(folder, runs):
    """The least seconds of nesc1 on the files of `gen 60`."""
    peer.write(folder, {**peer.PEER, "tos.h": peer.PEER["tos.h"] + POSTS})
    os.chmod(os.path.join(folder, "gcc"), 0o755)
    to_c = [peer.mended_nesc1(folder), "-U__BLOCKS__", "-fnesc-include=deputy_nodeputy", "-fnesc-gcc=" + os.path.join(folder, "gcc"), "-DNESC=135",
            "-I" + folder, "-I" + peer.HEADERS, "-fnesc-tmpcfile=" + os.path.join(folder, "tmp.c"), "-fnesc-include=nesc_nx", "-fnesc-include=tos",
            "-fnesc-target=msp430", "-fsyntax-only", "GenAppC.nc", "-o", "app.c"]
    return peer.best([to_c], folder, runs)[0]


def main():
    program = os.path.abspath(sys.argv[1])
    runs = int(sys.argv[2]) if len(sys.argv) > 2 else 20
    with tempfile.TemporaryDirectory() as folder:
        shutil.copytree(os.path.join(TOP, "examples"), folder, dirs_exist_ok=True)
        blink = subprocess.run([program, "build", "BlinkAppC"], cwd=folder, capture_output=True, text=True).stdout
        print("BlinkAppC: %d bytes of code" % code_bytes(blink))
        times = {}
        for count in (20, 60):
            times[count], text = peer.best([[program, "gen", str(count)]], folder, runs)
            print("gen %d: %.1f ms, %d bytes of code, %s" % (count, 1000 * times[count], code_bytes(text), text.rstrip().split("\n")[-1]))
        print("ratio %.2f" % (times[60] / times[20]))
        peer.write(folder, files_of(60))
        checked, _ = peer.best([[program, "check", "GenAppC"]], folder, runs)
        built, _ = peer.best([[program, "build", "GenAppC"]], folder, runs)
        print("the files of gen 60: check %.1f ms, build %.1f" % (1000 * checked, 1000 * built))
        for count in range(1, MOST_MODULES + 1):
            text = subprocess.run([program, "gen", str(count)], cwd=folder, capture_output=True, text=True).stdout
            line = "gen %d outs %d enters 10 last 10 off 1" % (count, 3 * count + 11)
            if text.rstrip().split("\n")[-1] != line:
                print("gen %d says otherwise: %s" % (count, text[-100:]))
        print("each N from 1 to %d was run" % MOST_MODULES)
        if os.path.exists(peer.NESC1):
            theirs = nesc1_seconds(folder, runs)
            print("nesc1 %.1f ms, ratio of check %.3f" % (1000 * theirs, checked / theirs))


if __name__ == "__main__":
    main()
