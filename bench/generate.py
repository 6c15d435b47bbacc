#!/usr/bin/env python3
"""Writes the sources that the preprocessor's times are measured on, into a folder: NAME.nc each, of one shape,
a header of comments, and an empty schedule, none.txt."""
import os
import random
import sys

SIZE = 250_000


def plain():
    line = "int v%d = (a + b) * c[%d] - f(x, y) ; if ( v != 10 ) { g ( v ) ; }\n"
    return filled(lambda n: line % (n, n))


def comments(size=SIZE):
    return filled(lambda n: "/* a comment of some words, number %d, of which no token comes */\n// and another one %d\n" % (n, n), size) + "int x;\n"


def small_macros():
    defines = "".join("#define M%d (%d + x)\n" % (n, n) for n in range(100))
    return defines + "".join("M%d " % (n % 100) + ("\n" if n % 16 == 15 else "") for n in range(20_000)) + "\n"


def defines():
    return "".join("#define NAME%d %d\n#ifdef NAME%d\nint a%d;\n#endif\n" % (n, n, n, n) for n in range(3_800))


def chain(length):
    rows = ["#define F0(x) x\n"]
    rows += ["#define F%d(x) F%d(x)\n" % (n, n - 1) for n in range(1, length + 1)]
    return "".join(rows) + "int a = F%d(1);\n" % length


def chain_in_chain(length):
    rows = ["#define F0(x) x\n#define G0(x) x\n"]
    rows += ["#define G%d(x) G%d(x)\n#define F%d(x) F%d(x)\n" % (n, n - 1, n, n - 1) for n in range(1, length + 1)]
    return "".join(rows) + "int a = F%d(G%d(1));\n" % (length, length)


def shuffled(length):
    order = list(range(length))
    random.Random(1).shuffle(order)
    rows = {order[0]: "#define F%d(x) x\n" % order[0]}
    rows.update({n: "#define F%d(x) F%d(x)\n" % (n, before) for before, n in zip(order, order[1:])})
    return "".join(rows[n] for n in sorted(rows)) + "int a = F%d(1);\n" % order[-1]


def nested(depth):
    return "#define F(x) x\nint a = " + "F(" * depth + "1" + ")" * depth + ";\n"


def nested_pair(depth):
    return "#define F(x, y) y\nint a = " + "F(1, " * depth + "1" + ")" * depth + ";\n"


def inclusions(count):
    return '#include "comments.h"\n' * count


def filled(row, size=SIZE):
    out, have, n = [], 0, 0
    while have < size:
        out.append(row(n))
        have += len(out[-1])
        n += 1
    return "".join(out)


SHAPES = {"Plain": plain, "Comments": comments, "SmallMacros": small_macros, "Defines": defines}
SHAPES.update({"Chain%d" % n: (lambda n=n: chain(n)) for n in (1000, 2000, 4000, 8000)})
SHAPES.update({"ChainInChain%d" % n: (lambda n=n: chain_in_chain(n)) for n in (750, 1500, 3000)})
SHAPES.update({"Shuffled%d" % n: (lambda n=n: shuffled(n)) for n in (2000, 4000, 8000)})
SHAPES.update({"Nested%d" % n: (lambda n=n: nested(n)) for n in (1000, 2000, 4000, 8000)})
SHAPES.update({"NestedPair%d" % n: (lambda n=n: nested_pair(n)) for n in (2000, 4000, 8000)})
SHAPES.update({"Inclusions%d" % n: (lambda n=n: inclusions(n)) for n in (2750, 5500, 11000)})

if __name__ == "__main__":
    folder = sys.argv[1]
    os.makedirs(folder, exist_ok=True)
    for name, text in SHAPES.items():
        with open(os.path.join(folder, name + ".nc"), "w") as file:
            file.write(text())
    with open(os.path.join(folder, "comments.h"), "w") as file:
        file.write(comments(20_000))
    with open(os.path.join(folder, "none.txt"), "w"):
        pass
