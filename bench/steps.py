#!/usr/bin/env python3
"""Slots a second of the mote beside the steps a second of mspdebug's simulator, and what a trace costs to a pipe.

    bench/steps.py PROGRAM       PROGRAM is a built nescmote, as crates/nescmote/out/nescmote

Each number is a million slots over the processor time of the process, least of fifteen, less the least of fifteen with one
slot. The two programs take turns. The images make no output: arithmetic is ADD, MOV to memory, ADD from memory, CMP
and JNE; calls is CALL, ADD, RET, PUSH, POP and JMP; bytes is moves of bytes by four modes.
"""
import os
import pathlib
import subprocess
import sys
import time

HERE = pathlib.Path(__file__).resolve().parent
EXAMPLES = HERE.parent / "examples"
SLOTS = 1_000_000
ROUNDS = 15


def processor_time(words):
    """Seconds of user and system time that a command takes."""
    child = subprocess.Popen(words, stdout=subprocess.DEVNULL, stderr=subprocess.DEVNULL)
    _, status, used = os.wait4(child.pid, 0)
    child.returncode = os.waitstatus_to_exitcode(status)
    if child.returncode:
        sys.exit(f"{words[0]}: status {child.returncode}")
    return used.ru_utime + used.ru_stime


def own(program, image, slots):
    return [program, "mote", str(image), str(EXAMPLES / "none.txt"), "--budget", str(slots)]


def peer(image, slots):
    return ["mspdebug", "-q", "sim", f"prog {image}", "reset", f"step {slots}"]


def rates(program, image):
    commands = {"own": lambda slots: own(program, image, slots), "peer": lambda slots: peer(image, slots)}
    least = {}
    for _ in range(ROUNDS):
        for name, command in commands.items():
            for slots in (1, SLOTS):
                took = processor_time(command(slots))
                least[name, slots] = min(took, least.get((name, slots), took))
    return [SLOTS / (least[name, SLOTS] - least[name, 1]) / 1e6 for name in commands]


def wall_time(words, to_pipe):
    """Seconds until a command has ended and all that it wrote was read."""
    start = time.perf_counter()
    if to_pipe:
        child = subprocess.Popen(words, stdout=subprocess.PIPE)
        while os.read(child.stdout.fileno(), 1 << 16):
            pass
        child.wait()
    else:
        subprocess.run(words, stdout=subprocess.DEVNULL, check=True)
    return time.perf_counter() - start


def main():
    if len(sys.argv) != 2:
        sys.exit(__doc__)
    program = sys.argv[1]
    for name in ("arithmetic", "calls", "bytes"):
        mine, theirs = rates(program, HERE / f"{name}.txt")
        print(f"{name:12} {mine:7.1f} million slots a second, mspdebug {theirs:7.1f}, ratio {mine / theirs:.2f}")
    words = own(program, EXAMPLES / "spin.txt", SLOTS)
    to_null = min(wall_time(words, False) for _ in range(ROUNDS))
    to_pipe = min(wall_time(words, True) for _ in range(ROUNDS))
    print(f"{'trace':12} {to_null:7.3f} s to /dev/null, {to_pipe:.3f} s to a pipe, ratio {to_pipe / to_null:.2f}")


if __name__ == "__main__":
    main()
