#!/usr/bin/env python3
"""Runs random modules by the tool and its mote, their images by mspdebug's simulator too, and the same text as C by clang with the widths of the MSP430,
and compares all that they write.

usage: peer_bodies.py PROGRAM [SEED [COUNT [KEPT]]]    cases that differ are kept in the folder KEPT, /tmp/peer_bodies without it

Bodies have numbers of all widths, arrays, structs, pointers, all operators, loops, `switch` and calls. What C leaves undefined is kept out: shifts
by the width or more, zero divisors, indexes past an array, two effects in an expression. What a module shows it keeps in an array at the least address
of RAM, where it is read when mspdebug has made as many steps as the mote. `apt-get install clang-14 mspdebug` brings both.
"""
import os
import pathlib
import random
import re
import sys
import tempfile

from peer_native import Run, Table, given, native, quiet

TYPES = ["int8_t", "uint8_t", "int16_t", "uint16_t", "int32_t", "uint32_t"]
BORDERS = ["0", "1", "127", "128", "255", "32767", "32768", "65535", "0x7fffffff", "0x80000000", "0xffffffff", "2147483647", "'A'", "'\\n'", "'\\377'", "0177"]
FUNCTIONS, STRUCTS = 4, 4

C_HEAD = """typedef signed char int8_t; typedef unsigned char uint8_t; typedef short int16_t; typedef unsigned short uint16_t;
typedef long int32_t; typedef unsigned long uint32_t;
void out(uint16_t);
static void put(uint32_t v) { out(v); out(v >> 16); }
"""
NESC_HEAD = """module T { uses interface Boot; }
implementation {
uint16_t shown[512];
uint16_t count;
void put(uint32_t v) { shown[count] = v; shown[count + 1] = v >> 16; count += 2; }
"""
NESC_TAIL = """event void Boot.booted() {
uint16_t k;
run();
for (k = 0; k < count; k++) port_write(0x0102, shown[k]);
}
}
"""
RAM, STACK_TOP = 0x1100, 0x3900
C_MAIN = "int main() { run(); return 0; }\n"


class Scope:
    """The locals and pointers that a statement may name."""

    def __init__(self, variables=(), pointers=()):
        self.variables, self.pointers = list(variables), list(pointers)

    def inner(self):
        return Scope(self.variables, self.pointers)


class Bodies:
    """A random module, as the lines that nesC and C share."""

    def __init__(self, seed):
        self.random, self.functions, self.named = random.Random(seed), [], 0
        pick = self.random.choice
        self.globals = [("g%d" % k, pick(TYPES)) for k in range(8)]
        self.arrays = [("a%d" % k, pick(TYPES), pick([2, 4, 8])) for k in range(4)]
        self.fields = [("x%d" % k, pick(TYPES)) for k in range(4)]

    def name(self, letter):
        self.named += 1
        return "%s%d" % (letter, self.named)

    def literal(self):
        below = self.random.randrange
        return self.random.choice([
            str(below(10)), str(below(256)), str(below(1 << 16)), "0x%x" % below(1 << 32), "%dU" % below(1 << 16), "%dL" % below(1 << 31),
            "0x%xUL" % below(1 << 16), self.random.choice(BORDERS)])

    def index(self, scope, length):
        if self.random.random() < 0.5:
            return str(self.random.randrange(length))
        return "(%s) & %d" % (self.expression(scope, 1), length - 1)

    def plain_place(self, scope):
        if scope.variables and self.random.random() < 0.5:
            return self.random.choice(scope.variables)
        return self.random.choice(self.globals)[0]

    def place(self, scope):
        kind = self.random.randrange(5)
        if kind == 0:
            name, _, length = self.random.choice(self.arrays)
            return "%s[%s]" % (name, self.index(scope, length))
        if kind == 1:
            return "s0." + self.random.choice(self.fields)[0]
        if kind == 2:
            return "ss[%s].%s" % (self.index(scope, STRUCTS), self.random.choice(self.fields)[0])
        if kind == 3 and scope.pointers:
            return "(*%s)" % self.random.choice(scope.pointers)
        return self.plain_place(scope)

    def expression(self, scope, depth):
        pick = self.random.choice
        if depth <= 0 or self.random.random() < 0.1:
            return self.literal() if self.random.random() < 0.35 else self.plain_place(scope)
        x, y, z = (self.expression(scope, depth - 1) for _ in range(3))
        return pick([
            "(%s %s %s)" % (x, pick("+ - * & | ^".split()), y), "(%s %s %s)" % (x, pick(["+", "-", "*"]), y),
            "(%s %s %s)" % (x, pick("< > <= >= == !=".split()), y), "(%s %s %s)" % (x, pick(["&&", "||"]), y),
            "(%s %s (%s & 15))" % (x, pick(["<<", ">>"]), y), "(%s %s ((%s & 127) + 1))" % (x, pick(["/", "%"]), y),
            "(%s %s (%s | 1UL))" % (x, pick(["/", "%"]), y), "(%s%s)" % (pick(["-", "~", "!"]), x), "((%s)%s)" % (pick(TYPES), x),
            "(%s ? %s : %s)" % (x, y, z), self.place(scope)])

    def block(self, scope, depth):
        inner = scope.inner()
        return ["{", *(line for _ in range(self.random.randrange(1, 4)) for line in self.statement(inner, depth)), "}"]

    def assignment(self, scope):
        pick, place, x = self.random.choice, self.place(scope), self.expression(scope, 2)
        return [pick([
            "%s = %s;" % (place, self.expression(scope, 3)), "%s %s %s;" % (place, pick("= += -= *= &= |= ^=".split()), x),
            "%s %s (%s & 7);" % (place, pick(["<<=", ">>="]), x), "%s %s ((%s & 63) + 1);" % (place, pick(["/=", "%="]), x),
            pick(["++%s;", "--%s;", "%s++;", "%s--;"]) % place, "s0 = ss[%s];" % self.index(scope, STRUCTS), "ss[%s] = s0;" % self.index(scope, STRUCTS)])]

    def loop(self, scope, depth):
        pick, name, turns, body = self.random.choice, self.name("i"), self.random.randrange(1, 6), self.block(scope, depth - 1)
        leave = ["if (%s) %s;" % (self.expression(scope, 2), pick(["break", "continue"]))] if self.random.random() < 0.3 else []
        return pick([
            ["{ uint8_t %s;" % name, "for (%s = 0; %s < %d; %s++) {" % (name, name, turns, name), *leave, *body, "} }"],
            ["{ int16_t %s = %d;" % (name, turns), "while (%s-- > 0) {" % name, *leave, *body, "} }"],
            ["{ int8_t %s = %d;" % (name, turns), "do {", *leave, *body, "} while (--%s > 0); }" % name]])

    def switch(self, scope, depth):
        lines = ["switch ((%s) & 7) {" % self.expression(scope, 2)]
        for number in self.random.sample(range(8), self.random.randrange(1, 5)):
            lines += ["case %d:" % number, *self.block(scope, depth - 1), *(["break;"] if self.random.random() < 0.7 else [])]
        return lines + (["default:", *self.block(scope, depth - 1)] if self.random.random() < 0.6 else []) + ["}"]

    def declaration(self, scope):
        if self.random.random() < 0.6:
            name, value = self.name("v"), self.expression(scope, 2)
            scope.variables.append(name)
            return ["%s %s = %s;" % (self.random.choice(TYPES), name, value)]
        name, (target, its_type) = self.name("p"), self.random.choice(self.globals)
        if self.random.random() < 0.5:
            array, its_type, length = self.random.choice(self.arrays)
            target = "%s[%d]" % (array, self.random.randrange(length))
        scope.pointers.append(name)
        return ["%s *%s = &%s;" % (its_type, name, target)]

    def statement(self, scope, depth):
        kind = self.random.randrange(12)
        if kind < 5 or depth <= 0:
            return self.assignment(scope)
        if kind < 7:
            return self.declaration(scope)
        if kind == 7:
            return ["if (%s)" % self.expression(scope, 2), *self.block(scope, depth - 1), "else", *self.block(scope, depth - 1)]
        if kind == 8:
            return self.switch(scope, depth)
        if kind == 9 and self.functions:
            name, count = self.random.choice(self.functions)
            return ["%s = %s(%s);" % (self.plain_place(scope), name, ", ".join(self.expression(scope, 2) for _ in range(count)))]
        return self.loop(scope, depth)

    def function(self, number):
        pick, parameters = self.random.choice, ["q%d" % k for k in range(self.random.randrange(0, 4))]
        scope = Scope(parameters)
        lines = [line for _ in range(self.random.randrange(3, 9)) for line in self.statement(scope, 2)]
        head = "%s f%d(%s) {" % (pick(TYPES), number, ", ".join("%s %s" % (pick(TYPES), it) for it in parameters))
        lines = [head, *lines, "return %s;" % self.expression(scope, 2), "}"]
        self.functions.append(("f%d" % number, len(parameters)))
        return lines

    def texts(self):
        """The module, and the same in C."""
        form = "struct form { %s }%%s;" % " ".join("%s %s;" % (its_type, name) for name, its_type in self.fields)
        data = ["%s %s = %s;" % (its_type, name, self.literal()) for name, its_type in self.globals]
        data += ["%s %s[%d];" % (its_type, name, length) for name, its_type, length in self.arrays] + ["struct form s0;", "struct form ss[%d];" % STRUCTS]
        lines = [line for k in range(FUNCTIONS) for line in self.function(k)] + ["void run() {", "uint8_t i;"]
        lines += ["put(%s(%s));" % (name, ", ".join(self.literal() for _ in range(count))) for name, count in self.functions]
        lines += ["put(%s);" % name for name, _ in self.globals]
        lines += ["for (i = 0; i < %d; i++) put(%s[i]);" % (length, name) for name, _, length in self.arrays]
        lines += ["put(s0.%s); for (i = 0; i < %d; i++) put(ss[i].%s);" % (name, STRUCTS, name) for name, _ in self.fields] + ["}"]
        nesc = NESC_HEAD + form % "" + "\n" + "\n".join([*data, *lines]) + "\n" + NESC_TAIL
        return nesc, C_HEAD + form % " __attribute__((packed))" + "\n" + "\n".join([*data, *lines]) + "\n" + C_MAIN


def by_mspdebug(run, folder):
    """The words at the least addresses of RAM, as many as the run showed, once mspdebug's simulator has made the steps of the run."""
    pathlib.Path(folder, "image.txt").write_text(run.image)
    commands = ["fill 0 %d 0" % STACK_TOP, "prog image.txt", "reset", "step %d" % run.ran, "md %d %d" % (RAM, 2 * len(run.shown))]
    rows = re.findall(r"(?m)^ +0[0-9a-f]{4}: ((?:[0-9a-f]{2} )+) *\|", quiet(["mspdebug", "-q", "sim", *commands], folder).stdout)
    data = bytes.fromhex("".join(rows))
    return [str(int.from_bytes(data[k:k + 2], "little")) for k in range(0, len(data), 2)]


def compared(program, folder):
    """How the module in this folder ended: `same`, `off`, `image off` by mspdebug, `budget`, `no peer`, a fault or a refusal."""
    wanted, run = native(folder, "t.c"), Run(program, "T", folder)
    if wanted is None or run.end:
        return run.end or "no peer"
    if run.shown != wanted:
        return "off"
    return "same" if by_mspdebug(run, folder) == wanted else "image off"


def main():
    program = os.path.abspath(sys.argv[1])
    seed, count, kept = given(sys.argv[2:], "/tmp/peer_bodies")
    os.makedirs(kept, exist_ok=True)
    table = Table(kept)
    for number in range(seed, seed + count):
        with tempfile.TemporaryDirectory() as folder:
            nesc, c = Bodies(number).texts()
            pathlib.Path(folder, "T.nc").write_text(nesc)
            pathlib.Path(folder, "t.c").write_text(c)
            table.note(number, compared(program, folder), folder)
        if table.is_full():
            break
    print(table)
    return 1 if table.odd else 0


if __name__ == "__main__":
    sys.exit(main())
