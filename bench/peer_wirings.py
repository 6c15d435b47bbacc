#!/usr/bin/env python3
"""Runs random applications of wired components by the tool and its mote, and by nesc1 and clang, and compares all that they write, in order.

usage: peer_wirings.py PROGRAM [SEED [COUNT [KEPT]]]    cases that differ are kept in the folder KEPT, /tmp/peer_wirings without it

Applications have interfaces with commands and events, parameters in brackets at either end, fan-out with results that are combined, defaults,
generic modules with `unique`, configurations that pass elements on, and tasks. `peer.py` says what the peer needs; its scheduler starts tasks in the
order of their posts, as here.
"""
import os
import random
import sys
import tempfile

import peer
from peer_native import Run, Table, given, native, quiet

TYPES = ["uint8_t", "uint16_t", "int16_t"]
# Whether used and provided elements of an interface have a parameter, and whether wires name its value. Within one element nesC leaves open whether wires
# for all values or wires for one are called first, and nesc1 and this compiler differ, so each interface has one kind of wires.
KINDS = [(False, False, False), (True, True, False), (True, True, True), (False, True, True), (True, False, True)]
RESULTS = {"command": ["void", "uint16_t", "error_t", "error_t"], "event": ["void", "error_t", "uint8_t"]}
WORDS = {"command": "call", "event": "signal"}

PEER = {
    **peer.PEER,
    "tos.h": """typedef uint8_t bool; enum { FALSE = 0, TRUE = 1 };
typedef uint8_t error_t @combine("ecombine"); enum { SUCCESS = 0, FAIL = 1, EBUSY = 5 };
error_t ecombine(error_t r1, error_t r2) @safe() { return r1 == r2 ? r1 : FAIL; }
void out(int v) @C();
#define port_write(a, v) out(v)
typedef uint16_t __nesc_atomic_t;
__nesc_atomic_t __nesc_atomic_start(void) @spontaneous() @safe() { return 0; }
void __nesc_atomic_end(__nesc_atomic_t r) @spontaneous() @safe() { }
""",
    "MainC.nc": """configuration MainC { provides interface Boot; uses interface Init as SoftwareInit; }
implementation {
  components RealMainP, TinySchedulerC;
  Boot = RealMainP; SoftwareInit = RealMainP; RealMainP.Scheduler -> TinySchedulerC;
}
""",
    "RealMainP.nc": """module RealMainP { provides interface Boot; uses interface Init as SoftwareInit; uses interface Scheduler; }
implementation {
  default command error_t SoftwareInit.init() { return SUCCESS; }
  default event void Boot.booted() { }
  int main() @C() @spontaneous() {
    atomic { call SoftwareInit.init(); }
    signal Boot.booted();
    while (call Scheduler.runNextTask()) { }
    return 0;
  }
}
""",
    "Scheduler.nc": "interface Scheduler { command bool runNextTask(); }\n",
    "TaskBasic.nc": "interface TaskBasic { async command error_t postTask(); event void runTask(); }\n",
    "TinySchedulerC.nc": """module TinySchedulerC { provides interface Scheduler; provides interface TaskBasic[uint8_t id]; }
implementation {
  uint8_t pending[256]; uint8_t waits[256]; uint16_t head; uint16_t tail;
  command bool Scheduler.runNextTask() {
    uint8_t id;
    if (head == tail) return FALSE;
    id = pending[head & 255]; head++; waits[id] = 0;
    signal TaskBasic.runTask[id]();
    return TRUE;
  }
  async command error_t TaskBasic.postTask[uint8_t id]() {
    if (waits[id]) return EBUSY;
    waits[id] = 1; pending[tail & 255] = id; tail++;
    return SUCCESS;
  }
  default event void TaskBasic.runTask[uint8_t id]() { }
}
""",
}
SCHEDULER = "-fnesc-scheduler=TinySchedulerC,TinySchedulerC.TaskBasic,TaskBasic,TaskBasic,runTask,postTask"


class Item:
    """A command or an event of an interface."""

    def __init__(self, kind, result, name, parameters):
        self.kind, self.result, self.name, self.parameters = kind, result, name, parameters

    def named(self):
        return ["p%d" % k for k in range(len(self.parameters))]

    def declared(self):
        return ", ".join("%s %s" % it for it in zip(self.parameters, self.named()))


class Element:
    """An interface that a component provides or uses, with a parameter or without one."""

    def __init__(self, interface, name, has_parameter):
        self.interface, self.name, self.has_parameter = interface, name, has_parameter
        self.brackets = "[uint8_t id]" if has_parameter else ""

    def line(self, word):
        return "  %s interface %s as %s%s;\n" % (word, self.interface, self.name, self.brackets)


class Module:
    def __init__(self, name, is_generic, provides, uses, tasks):
        self.name, self.is_generic, self.provides, self.uses, self.tasks = name, is_generic, provides, uses, tasks

    def specification(self):
        return "".join(it.line("provides") for it in self.provides) + "".join(it.line("uses") for it in self.uses)


class Wirings:
    """A random application, as its files. Calls go from a layer to those below it, so that none is recursive; events do not call."""

    def __init__(self, seed):
        self.random, self.files, self.mark, self.interfaces, self.kinds = random.Random(seed), {}, 0, {}, {}

    def elements(self, letter, count):
        """So many elements; those named U are used, others provided."""
        found = [self.random.choice(list(self.interfaces)) for _ in range(count)]
        return [Element(it, "%s%d" % (letter, k), self.kinds[it][0 if letter == "U" else 1]) for k, it in enumerate(found)]

    def interface(self, name):
        pick, below = self.random.choice, self.random.randrange
        kinds = ["command"] * below(1, 3) + ["event"] * below(0, 2)
        items = [Item(it, pick(RESULTS[it]), "%s%d" % (it[0], k), [pick(TYPES) for _ in range(below(0, 3))]) for k, it in enumerate(kinds)]
        self.interfaces[name], self.kinds[name] = items, pick(KINDS)
        lines = ["  %s %s %s(%s);" % (it.kind, it.result, it.name, it.declared()) for it in items]
        self.files[name + ".nc"] = "\n".join(["interface %s {" % name, *lines, "}", ""])

    def marked(self):
        """A statement that shows where the run is."""
        self.mark += 1
        return "    port_write(0x0102, %d);\n" % self.mark

    def value(self, names):
        pick = self.random.choice
        values = [str(self.random.randrange(100)), "state", *names]
        return pick(values) if self.random.random() < 0.6 else "%s %s %s" % (pick(values), pick(["+", "*", "^"]), pick(values))

    def call(self, element, kind, names):
        """A statement that calls or signals an item of an element, if it has one of this kind."""
        items = [it for it in self.interfaces[element.interface] if it.kind == kind]
        if not items:
            return ""
        item = self.random.choice(items)
        brackets = "[%s]" % self.random.choice(["1", "2", "3", "state & 3"]) if element.has_parameter else ""
        call = "%s %s.%s%s(%s)" % (WORDS[kind], element.name, item.name, brackets, ", ".join(self.value(names) for _ in item.parameters))
        if item.result == "void":
            return "    %s;\n" % call
        return self.random.choice(["    state = state * 3 + %s;\n", "    port_write(0x0102, %s);\n"]) % call

    def default(self, element, item):
        result = "" if item.result == "void" else "    return %d;\n" % self.random.randrange(64)
        head = "  default %s %s %s.%s%s(%s) {\n" % (item.kind, item.result, element.name, item.name, element.brackets, item.declared())
        return head + self.marked() + result + "  }\n"

    def implementation(self, module, element, item):
        names = item.named() + ["id"] * element.has_parameter
        body = self.marked() + "    port_write(0x0102, %s);\n" % self.value(names)
        if item.kind == "command":
            body += "".join(self.call(it, "command", names) for it in module.uses if self.random.random() < 0.5)
            body += self.call(element, "event", names) if self.random.random() < 0.6 else ""
            body += "    state = state + post t%d();\n" % self.random.randrange(module.tasks) if module.tasks else ""
        body += "    state = state + 1;\n"
        if item.result != "void":
            body += "    return %s;\n" % ("state & 1" if item.result == "error_t" else self.value(names))
        head = "  %s %s %s.%s%s(%s) {\n" % (item.kind, item.result, element.name, item.name, element.brackets, item.declared())
        return head + body + "  }\n"

    def task(self, module, number):
        calls = "".join(self.call(it, "command", []) for it in module.uses if self.random.random() < 0.5)
        return "  task void t%d() {\n%s%s    state = state + %d;\n  }\n" % (number, self.marked(), calls, number + 1)

    def write_module(self, module, more_uses="", more_body=""):
        body = "  uint16_t state%s;\n" % (" = k" if module.is_generic else "")
        body += "".join(self.task(module, k) for k in range(module.tasks))
        for elements, own in [(module.provides, "command"), (module.uses, "event")]:
            for element in elements:
                for item in self.interfaces[element.interface]:
                    body += self.implementation(module, element, item) if item.kind == own else self.default(element, item)
        head = "generic module %s(uint16_t k)" % module.name if module.is_generic else "module %s" % module.name
        self.files[module.name + ".nc"] = "%s {\n%s%s}\nimplementation {\n%s%s}\n" % (head, module.specification(), more_uses, body, more_body)

    def instance(self, module, name):
        """How a configuration names an instance, and its component there: itself, or a configuration that passes its elements on."""
        argument = self.random.choice([str(self.random.randrange(50)), 'unique("k")'])
        made = "new %s(%s) as %s" % (module.name, argument, name) if module.is_generic else name
        if self.random.random() < 0.65:
            return name, made
        links = "".join("  %s = %s.%s;\n" % (it.name, name, it.name) for it in module.provides + module.uses)
        self.files["W%s.nc" % name] = "configuration W%s {\n%s}\nimplementation {\n  components %s;\n%s}\n" % (name, module.specification(), made, links)
        return "W" + name, "W" + name

    def wire(self, user, element, below):
        """Up to three wires from a used element to elements of layers below."""
        pick, has_numbers = self.random.choice, self.kinds[element.interface][2]
        found = [(component, it) for component, module in below for it in module.provides if it.interface == element.interface]
        lines = []
        for _ in range(self.random.randrange(0, 4) if found else 0):
            component, other = pick(found)
            ends = ["%s.%s" % (user, element.name), "%s.%s" % (component, other.name)]
            if has_numbers:
                ends = [end + ("[%d]" % self.random.randrange(4) if it.has_parameter else "") for end, it in zip(ends, [element, other])]
            lines.append("  %s -> %s;" % tuple(ends) if self.random.random() < 0.8 else "  %s <- %s;" % tuple(reversed(ends)))
        return lines

    def layer(self, number):
        """The modules of a layer with their components, and the words that make these."""
        rows = []
        for k in range(self.random.randrange(1, 3)):
            below = self.random.randrange
            module = Module("M%d%d" % (number, k), self.random.random() < 0.4, self.elements("P", below(1, 3)), self.elements("U", below(0, 3)), below(0, 3))
            self.write_module(module)
            names = ["%sx%d" % (module.name, n) for n in range(below(1, 3))] if module.is_generic else [module.name]
            rows += [(*self.instance(module, it), module) for it in names]
        return rows

    def application(self):
        for k in range(self.random.randrange(1, 4)):
            self.interface("I%d" % k)
        layers = [self.layer(k) for k in range(self.random.randrange(2, 5))]
        top = Module("TopC", False, [], self.elements("U", self.random.randrange(1, 4)), 1)
        calls = "".join(self.call(it, "command", []) for it in top.uses * 3)
        self.write_module(top, "  uses interface Boot;\n", "  event void Boot.booted() {\n    post t0();\n%s  }\n" % calls)
        parts = [[(component, module) for component, _, module in it] for it in layers]
        lines = ["  TopC.Boot -> MainC;"] + [line for it in top.uses for line in self.wire("TopC", it, sum(parts, []))]
        for number, row in enumerate(parts):
            lines += [line for component, module in row for it in module.uses for line in self.wire(component, it, sum(parts[number + 1:], []))]
        self.random.shuffle(lines)
        made = ["MainC", "TopC", *(words for row in layers for _, words, _ in row)]
        self.files["A.nc"] = "\n".join(["configuration A { }", "implementation {", "  components %s;" % ", ".join(made), *lines, "}", ""])
        return self.files


def by_nesc1(nesc1, files, folder):
    """nesc1's run on these files: it writes app.c, or refuses them."""
    peer.write(folder, {**files, **PEER})
    gcc = os.path.join(folder, "gcc")
    os.chmod(gcc, 0o755)
    options = ["-U__BLOCKS__", "-fnesc-include=deputy_nodeputy", "-fnesc-gcc=" + gcc, "-DNESC=135", "-I" + folder, "-I" + peer.HEADERS,
               "-fnesc-tmpcfile=" + os.path.join(folder, "tmp.c"), "-fnesc-include=nesc_nx", "-fnesc-include=tos", "-fnesc-target=msp430",
               "-fsyntax-only", SCHEDULER]
    return quiet([nesc1, *options, "A.nc", "-o", "app.c"], folder)


def compared(program, nesc1, files, here, there):
    """How the application ended by the tool, beside the peer: `same`, `off`, `budget`, a fault, a refusal, `no peer` or `both refuse`."""
    peer.write(here, files)
    run = Run(program, "A", here)
    if by_nesc1(nesc1, files, there).returncode:
        return "both refuse" if run.shown is None else "peer refuses"
    wanted = native(there, "app.c")
    return run.end or ("no peer" if wanted is None else "same" if run.shown == wanted else "off")


def main():
    program = os.path.abspath(sys.argv[1])
    seed, count, kept = given(sys.argv[2:], "/tmp/peer_wirings")
    os.makedirs(kept, exist_ok=True)
    table = Table(kept)
    with tempfile.TemporaryDirectory() as tools:
        nesc1 = peer.mended_nesc1(tools)
        for number in range(seed, seed + count):
            with tempfile.TemporaryDirectory() as here, tempfile.TemporaryDirectory() as there:
                table.note(number, compared(program, nesc1, Wirings(number).application(), here, there), here)
            if table.is_full():
                break
    print(table)
    return 1 if table.odd else 0


if __name__ == "__main__":
    sys.exit(main())
