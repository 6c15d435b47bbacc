#!/usr/bin/env python3
"""Times the compilation of applications of 20 and of 60 modules without tasks beside the peer, nescc with `clang -Os` for the MSP430, and compares
the bytes of code.

usage: peer.py PROGRAM [RUNS]    PROGRAM is nescmote, as `rt run` leaves it in crates/nescmote/out/

`apt-get install nescc clang-14 binutils` brings the peer. nesc1 of nescc 1.3.5-1.1 faults on x86-64: it moves 16 bytes by instructions that ask
for an address that 16 divides, in regions that have addresses that 8 divides. The script runs a copy in which these moves are the ones for any
address. Both compilers read the same modules; the peer has `tos.h`, MainC, Boot and Init beside them, which are built in here.
"""
import os
import re
import subprocess
import sys
import tempfile
import time

NESC1 = "/usr/lib/x86_64-linux-gnu/ncc/nesc1"
HEADERS = "/usr/lib/x86_64-linux-gnu/ncc"
CLANG = "clang-14"
COUNTS = [20, 60]

FEED = "interface Feed { async command void take(uint16_t value); }\n"
MODULE = """module G%(k)dC { provides interface Feed; uses interface Feed as Next; uses interface Boot; }
implementation {
  enum { DEPTH = 8, STEP = %(step)d };
  uint16_t values[DEPTH];
  uint8_t next;
  uint16_t sum;

  uint16_t mean() { uint16_t result; atomic result = sum >> 3; return result; }

  void put(uint16_t value) {
    atomic {
      sum = sum - values[next] + value;
      values[next] = value;
      next = (next + 1) & (DEPTH - 1);
    }
  }

  async command void Feed.take(uint16_t value) {
    put(value);
    if ((value & 15) == (STEP & 15)) port_write(0x0120, mean());
    call Next.take(value + STEP);
  }

  event void Boot.booted() { atomic next = 0; }
}
"""
LAST = """module LastC { provides interface Feed; }
implementation {
  async command void Feed.take(uint16_t value) { port_write(0x0120, value); }
}
"""
LINE = """module LineC { uses interface Feed; uses interface Boot; }
implementation {
  void rx() @atomic_hwevent() @vector(2) { call Feed.take(port_read(0x0130)); }
  event void Boot.booted() { port_write(0x0100, 4); }
}
"""
PEER = {
    "tos.h": """typedef uint8_t bool; enum { FALSE = 0, TRUE = 1 };
typedef uint8_t error_t; enum { SUCCESS = 0, FAIL = 1 };
struct @vector { int number; };
#define port_write(a, v) (*(volatile uint16_t *)(a) = (v))
#define port_read(a) (*(volatile uint16_t *)(a))
typedef uint16_t __nesc_atomic_t;
__nesc_atomic_t __nesc_atomic_start(void) @spontaneous() @safe()
{ uint16_t r; asm volatile ("mov r2, %0" : "=r"(r)); asm volatile ("dint\\n nop"); return r; }
void __nesc_atomic_end(__nesc_atomic_t r) @spontaneous() @safe() { asm volatile ("mov %0, r2" : : "r"(r)); }
inline void __nesc_enable_interrupt(void) @safe() { asm volatile ("eint"); }
inline void __nesc_disable_interrupt(void) @safe() { asm volatile ("dint\\n nop"); }
""",
    "stdint.h": "typedef signed char int8_t; typedef unsigned char uint8_t; typedef int int16_t; typedef unsigned int uint16_t; typedef long int32_t; "
    "typedef unsigned long uint32_t; typedef long long int64_t; typedef unsigned long long uint64_t; typedef int intptr_t; typedef unsigned int uintptr_t;\n",
    "inttypes.h": "#include <stdint.h>\n",
    "stddef.h": "typedef unsigned int size_t; typedef int ptrdiff_t; typedef int wchar_t;\n#define NULL ((void *)0)\n",
    "string.h": "",
    "gcc": "#!/bin/sh\nexec gcc -nostdinc \"$@\"\n",
    "Boot.nc": "interface Boot { event void booted(); }\n",
    "Init.nc": "interface Init { command error_t init(); }\n",
    "MainC.nc": "configuration MainC { provides interface Boot; uses interface Init as SoftwareInit; }\n"
    "implementation { components RealMainP; Boot = RealMainP; SoftwareInit = RealMainP; }\n",
    "RealMainP.nc": """module RealMainP { provides interface Boot; uses interface Init as SoftwareInit; }
implementation {
  default command error_t SoftwareInit.init() { return SUCCESS; }
  int main() @C() @spontaneous() {
    atomic { call SoftwareInit.init(); }
    __nesc_enable_interrupt();
    signal Boot.booted();
    for (;;) asm volatile ("bis #16, r2");
  }
}
""",
}


def application(count):
    """The files of an application of so many modules in a chain, behind the handler of a line."""
    names = ["G%dC" % k for k in range(count)]
    wires = ["  LineC.Feed -> G0C;", "  LineC.Boot -> MainC;"]
    for k, name in enumerate(names):
        wires += ["  %s.Next -> %s.Feed;" % (name, names[k + 1] if k + 1 < count else "LastC"), "  %s.Boot -> MainC;" % name]
    lines = ["configuration ChainC { }", "implementation {", "  components MainC, LineC, LastC, %s;" % ", ".join(names), *wires, "}", ""]
    files = {name + ".nc": MODULE % {"k": k, "step": k + 1} for k, name in enumerate(names)}
    return {"ChainC.nc": "\n".join(lines), "Feed.nc": FEED, "LastC.nc": LAST, "LineC.nc": LINE, **files}


def write(folder, files):
    for name, text in files.items():
        with open(os.path.join(folder, name), "w") as it:
            it.write(text)


def mended_nesc1(folder):
    """A copy of nesc1 whose moves of 16 bytes take any address."""
    data = bytearray(open(NESC1, "rb").read())
    sections = subprocess.run(["readelf", "-SW", NESC1], capture_output=True, text=True, check=True).stdout
    address, offset = (int(it, 16) for it in re.search(r"\.text\s+PROGBITS\s+(\w+)\s+(\w+)", sections).groups())
    listed = subprocess.run(["objdump", "-d", "-j", ".text", NESC1], capture_output=True, text=True, check=True).stdout
    for line in listed.split("\n"):
        found = re.match(r"\s*([0-9a-f]+):\t([0-9a-f ]+)\t(movaps|movapd|movdqa)\s+(.*)", line)
        if not found or "(" not in found.group(4):
            continue
        at, code = int(found.group(1), 16) - address + offset, bytes.fromhex(found.group(2).replace(" ", ""))
        if found.group(3) == "movdqa":
            data[at] = 0xF3
        else:
            opcode = code.index(0x0F) + 1
            data[at + opcode] = {0x28: 0x10, 0x29: 0x11}[code[opcode]]
    path = os.path.join(folder, "nesc1")
    with open(path, "wb") as it:
        it.write(data)
    os.chmod(path, 0o755)
    return path


def best(commands, folder, runs):
    """The least time of a run of these commands, and what the last one wrote."""
    least = None
    for _ in range(runs):
        begin = time.perf_counter()
        for command in commands:
            ended = subprocess.run(command, cwd=folder, capture_output=True, text=True)
            if ended.returncode != 0:
                raise SystemExit("%s: status %d\n%s" % (command[0], ended.returncode, ended.stdout[:400] + ended.stderr[:2000]))
        took = time.perf_counter() - begin
        least = took if least is None else min(least, took)
    return least, ended.stdout


def peer(folder, runs):
    """Seconds of nesc1 alone, of both, and the bytes of code."""
    os.chmod(os.path.join(folder, "gcc"), 0o755)
    to_c = [mended_nesc1(folder), "-U__BLOCKS__", "-fnesc-include=deputy_nodeputy", "-fnesc-gcc=" + os.path.join(folder, "gcc"), "-DNESC=135",
            "-I" + folder, "-I" + HEADERS, "-fnesc-tmpcfile=" + os.path.join(folder, "tmp.c"), "-fnesc-include=nesc_nx", "-fnesc-include=tos",
            "-fnesc-target=msp430", "-fsyntax-only", "ChainC.nc", "-o", "app.c"]
    to_code = [CLANG, "--target=msp430", "-Os", "-w", "-c", "app.c", "-o", "app.o"]
    front, _ = best([to_c], folder, runs)
    whole, _ = best([to_c, to_code], folder, runs)
    sizes = subprocess.run(["size", "app.o"], cwd=folder, capture_output=True, text=True, check=True).stdout
    return front, whole, int(sizes.split("\n")[1].split()[0])


def ours(program, folder, runs):
    """Seconds of `check` and of `build`, and the bytes of the image without its vectors."""
    checked, _ = best([[program, "check", "ChainC"]], folder, runs)
    built, text = best([[program, "build", "ChainC"]], folder, runs)
    image, code, place = text[text.index("@"):].split("\n"), 0, 0
    for line in image:
        if line.startswith("@"):
            place = int(line[1:], 16)
        elif line and line != "q":
            code += len(line.split()) if place < 0xFFE0 else 0
    return checked, built, code


def main():
    program = os.path.abspath(sys.argv[1])
    runs = int(sys.argv[2]) if len(sys.argv) > 2 else 5
    print("%8s %10s %10s %8s %10s %10s %8s" % ("modules", "check ms", "nesc1 ms", "ratio", "build ms", "peer ms", "ratio"))
    for count in COUNTS:
        with tempfile.TemporaryDirectory() as here, tempfile.TemporaryDirectory() as there:
            write(here, application(count))
            write(there, {**application(count), **PEER})
            checked, built, code = ours(program, here, runs)
            front, whole, peer_code = peer(there, runs)
        print("%8d %10.1f %10.1f %8.3f %10.1f %10.1f %8.3f" % (count, 1000 * checked, 1000 * front, checked / front, 1000 * built, 1000 * whole, built / whole))
        print("         code %d bytes, peer %d, ratio %.2f" % (code, peer_code, code / peer_code))


if __name__ == "__main__":
    sys.exit(main())
