#!/usr/bin/env python3
"""Runs nescmote on the worst shapes of a source that are known, each at two sizes, and tells status, seconds, memory and the first line: much of one thing
(names, structs in structs, calls in a chain, cases, stars, scopes, tasks), and structs that are assigned.

usage: shapes.py PROGRAM [MODE]    PROGRAM is nescmote, as `rt run` leaves it in crates/nescmote/out/; MODE is check or build
"""
import os
import subprocess
import sys
import tempfile
import time

HEADER_BYTES = 250_000


def module(body, boot):
    return "module ShapeC { uses interface Boot; }\nimplementation {\n%s\n  event void Boot.booted() { %s }\n}\n" % (body, boot)


def in_headers(lines, last):
    """The files of a module behind headers that hold the lines, as many as they need."""
    files, part, size = {}, [], 0
    for line in lines:
        if size + len(line) + 1 > HEADER_BYTES:
            files["h%d.h" % len(files)] = "\n".join(part) + "\n"
            part, size = [], 0
        part.append(line)
        size += len(line) + 1
    files["h%d.h" % len(files)] = "\n".join(part) + "\n"
    files["ShapeC.nc"] = "".join('#include "%s"\n' % name for name in files) + last
    return files


def copied(n):
    body = "struct s { uint8_t a[%d]; }; struct s x; struct s y;" % n
    return {"ShapeC.nc": module(body, "x = y;")}


def copied_in_an_index(n):
    body = "struct s { uint8_t a[%d]; }; struct s x[2]; struct s y; struct s a; struct s b;" % n
    return {"ShapeC.nc": module(body, "x[1 + (a = b, 0)] = y;")}


def nested(n, boot="", more=""):
    lines = ["struct s0 { char a; };"] + ["struct s%d { struct s%d f; };" % (i, i - 1) for i in range(1, n)]
    return in_headers(lines, module("struct s%d x; %s" % (n - 1, more % (n - 1) if more else ""), boot))


def typedefs(n):
    return in_headers(["typedef char t0;"] + ["typedef t%d t%d;" % (i - 1, i) for i in range(1, n)], module("t%d x;" % (n - 1), ""))


def constants(n):
    uses = "\n".join("port_write(0x0120, c%d);" % (i * 7 % n) for i in range(5000))
    return in_headers(["enum { c%d = %d };" % (i, i % 100) for i in range(n)], module("", uses))


def calls(n):
    lines = ["uint8_t f0(uint8_t x) { return x; }"] + ["uint8_t f%d(uint8_t x) { return f%d(x); }" % (i, i - 1) for i in range(1, n)]
    return in_headers(lines, module("", "port_write(0x0120, f%d(1));" % (n - 1)))


def variables(n):
    stores = "\n".join("v%d = v%d;" % (i, i + 1) for i in range(n - 1))
    return {"ShapeC.nc": module("\n".join("uint8_t v%d;" % i for i in range(n)), stores)}


def macros(n):
    uses = "\n".join("port_write(0x0120, m%d);" % (i % n) for i in range(5000))
    return in_headers(["#define m%d %d" % (i, i) for i in range(n)], module("", uses))


def cases(n):
    return {"ShapeC.nc": module("", "uint16_t x; switch (x) { %s }" % " ".join("case %d: x = %d; break;" % (i, i) for i in range(n)))}


def initial(n):
    return {"ShapeC.nc": module("uint8_t a[%d] = { %s };" % (n, ", ".join("1" for _ in range(n))), "")}


def stars(n):
    return {"ShapeC.nc": module("uint8_t %sp;" % ("*" * n), "port_write(0x0120, %sp);" % ("*" * n))}


def dimensions(n):
    return {"ShapeC.nc": module("int a%s;" % ("[1]" * n), "")}


def scopes(n):
    return {"ShapeC.nc": module("", "".join("{ uint8_t a%d; " % i for i in range(n)) + "}" * n)}


def tasks(n):
    posts = "\n".join("task void t%d() { post t%d(); }" % (i, max(i - 1, 0)) for i in range(n))
    return {"ShapeC.nc": module(posts, "post t0();")}


SHAPES = [
    ("parts of a struct that is assigned", copied, [2400, 2600, 32000]),
    ("the same in an index of another one", copied_in_an_index, [1200, 2400, 10000]),
    ("structs in one another", nested, [2000, 4000]),
    ("the same, assigned", lambda n: nested(n, "x = y;", "struct s%d y;"), [2000, 4000]),
    ("typedefs of a header", typedefs, [2500, 5000]),
    ("constants of a header, 5000 uses", constants, [2500, 5000]),
    ("functions in a chain of calls", calls, [2500, 5000]),
    ("variables", variables, [2500, 5000]),
    ("macros, 5000 uses", macros, [10000, 20000]),
    ("cases of a switch", cases, [2000, 8000]),
    ("initial values", initial, [4000, 16000]),
    ("stars of a pointer", stars, [75, 150]),
    ("dimensions of an array", dimensions, [1000, 2000, 20000]),
    ("scopes in one another", scopes, [75, 150]),
    ("tasks", tasks, [127, 254]),
]


def run(program, mode, files):
    with tempfile.TemporaryDirectory() as folder:
        for name, text in files.items():
            with open(os.path.join(folder, name), "w", encoding="ascii") as it:
                it.write(text)
        began = time.monotonic()
        child = subprocess.Popen([program, mode, "ShapeC"], cwd=folder, stdout=subprocess.PIPE, stderr=subprocess.DEVNULL)
        first = child.stdout.readline().decode().strip()
        child.stdout.read()
        _, status, used = os.wait4(child.pid, 0)
        child.returncode = os.waitstatus_to_exitcode(status)
        return child.returncode, time.monotonic() - began, used.ru_maxrss // 1024, first


def main():
    program, mode = os.path.abspath(sys.argv[1]), (sys.argv[2:] or ["check"])[0]
    for what, files_of, sizes in SHAPES:
        for size in sizes:
            status, seconds, memory, first = run(program, mode, files_of(size))
            print("%6d %-36s %s: status %d, %.2f s, %d MiB, %s" % (size, what, mode, status, seconds, memory, first[:60]))


if __name__ == "__main__":
    main()
