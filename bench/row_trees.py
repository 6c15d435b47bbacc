#!/usr/bin/env python3
"""Writes the trees of the rows of program_meaning, with their places, from nesC texts: run it, then `rt check --fix-imports` and `rt fmt`
in the crate. What the rows expect of refused modules stands beside their texts, by hand; the programs that others are wired to stand in
specs/*Rows.antt."""
import pathlib, re

TOKEN = re.compile(r'//[^\n]*|/\*.*?\*/|\s+|([A-Za-z_]\w*|0[xX][0-9a-fA-F]+[uUlL]*|\d+[uUlL]*|\'(?:\\.|[^\'])\'|"[^"]*"|->|<-|\+\+|--|<<=|>>=|<<|>>|<=|>=|==|!=|&&|\|\||\+=|-=|\*=|/=|%=|&=|\|=|\^=|.)', re.S)

def tokens(text):
    out, line, col, i = [], 1, 1, 0
    while i < len(text):
        m = TOKEN.match(text, i)
        if m.group(1):
            out.append((m.group(1), line, col))
        for c in m.group(0):
            if c == "\n": line, col = line + 1, 1
            else: col += 1
        i = m.end()
    return out

def lst(xs):
    return " ∷ ".join(list(xs) + ["[]"])

def par(x):
    return x if re.fullmatch(r'[\w.\[\]-]+', x) else "(" + x + ")"

BASE = {"signed": 0, "unsigned": 0, "char": 0, "short": 0, "int": 0, "long": 0}
BIN = [["||"], ["&&"], ["|"], ["^"], ["&"], ["==", "!="], ["<", ">", "<=", ">="], ["<<", ">>"], ["+", "-"], ["*", "/", "%"]]
OPS = {"||": "OrOr", "&&": "AndAnd", "|": "Or", "^": "Xor", "&": "And", "==": "Eq", "!=": "Ne", "<": "Lt", ">": "Gt", "<=": "Le", ">=": "Ge", "<<": "Shl", ">>": "Shr", "+": "Add", "-": "Sub", "*": "Mul", "/": "Div", "%": "Rem"}
PRE = {"++": "Inc", "--": "Dec", "&": "Addr", "*": "Deref", "+": "Plus", "-": "Neg", "~": "Not", "!": "IsZero"}

class Reader:
    def __init__(self, text, types=()):
        self.ts = tokens(text); self.i = 0; self.types = set(types)
    def peek(self, k=0): return self.ts[self.i + k][0] if self.i + k < len(self.ts) else ""
    def pos(self, k=0): return f"(at {self.ts[self.i + k][1]} {self.ts[self.i + k][2]})"
    def next(self): self.i += 1; return self.ts[self.i - 1][0]
    def eat(self, x):
        assert self.peek() == x, (x, self.ts[self.i:self.i + 5]); self.i += 1
    def opt(self, x):
        if self.peek() == x: self.i += 1; return True
        return False
    def text(self, x): return f'(codes "{x}")' if '"' not in x else '(codes "' + x.replace('"', '\\"') + '")'

    # ---- types
    def is_type(self, k=0):
        x = self.peek(k)
        return x in BASE or x in ("void", "struct", "enum", "const", "volatile") or x in self.types
    def type(self):
        const = False; words = []
        while self.peek() in ("const", "volatile"): const |= self.next() == "const"
        if self.opt("void"): base = "s.void"
        elif self.peek() in BASE:
            while self.peek() in BASE: words.append(self.next())
            u = "unsigned" in words
            base = f"(s.int {('U8' if u else 'I8') if 'char' in words else ('U32' if u else 'I32') if 'long' in words else ('U16' if u else 'I16')})"
        elif self.peek() in ("struct", "enum"):
            word = self.next()
            tag = f"(Some {self.text(self.next())})" if re.match(r"\w", self.peek()) else "None"
            if self.opt("{"):
                if word == "struct":
                    gs = []
                    while not self.opt("}"):
                        t, c = self.type(); ds = [self.declarator()]
                        while self.opt(","): ds.append(self.declarator())
                        self.eat(";"); r = "s.no_declarators"
                        for d in reversed(ds): r = f"(s.more_declarators {d[0]} {d[1]} {d[2]} {r})"
                        gs.append((self.spec(t, 0, "s.no_exprs", c), r))
                    r = "s.no_groups"
                    for t, d in reversed(gs): r = f"(s.more_groups {t} {d} {r})"
                    base = f"(s.struct_of {tag} {r})"
                else:
                    items = []
                    while not self.opt("}"):
                        at = self.pos(); n = self.text(self.next())
                        v = f"(s.some_expr {par(self.cond())})" if self.opt("=") else "s.no_expr"
                        items.append((n, v, at)); self.opt(",")
                    r = "s.no_items"
                    for n, v, at in reversed(items): r = f"(s.more_items {n} {v} {at} {r})"
                    base = f"(s.enum_of {tag} {r})"
            else: base = f"(s.{word} {tag})"
        else: base = f"(s.named {self.text(self.next())})"
        while self.peek() in ("const", "volatile"): const |= self.next() == "const"
        return base, const
    def spec(self, base, stars, dims, const):
        return f"(plain {base})" if stars == 0 and dims == "s.no_exprs" and not const else f"(s.type_spec {base} {stars} {dims} {'true' if const else 'false'})"
    def stars(self):
        n = 0
        while self.opt("*"): n += 1
        return n
    def dims(self):
        es = []
        while self.opt("["): es.append(self.cond()); self.eat("]")
        return self.exprs(es)
    def exprs(self, es): return "s.no_exprs" if not es else f"(exprs ({lst(map(str, es))}))"
    def declarator(self):
        n = self.stars(); name = self.text(self.next()); return n, name, self.dims()
    def whole_type(self):
        b, c = self.type(); return self.spec(b, self.stars(), "s.no_exprs", c)

    # ---- expressions
    def expr(self):
        at = self.pos(); a = self.assign()
        while self.opt(","): a = f"(s.comma {a} {self.assign()} {at})"
        return a
    def assign(self):
        at = self.pos(); a = self.cond(); x = self.peek()
        if x == "=": self.next(); return f"(s.assign None {a} {self.assign()} {at})"
        if x in ("+=", "-=", "*=", "/=", "%=", "&=", "|=", "^=", "<<=", ">>="):
            self.next(); return f"(s.assign (Some op.{OPS[x[:-1]]}) {a} {self.assign()} {at})"
        return a
    def cond(self):
        at = self.pos(); a = self.binary(0)
        if self.opt("?"):
            b = self.expr(); self.eat(":"); c = self.cond(); return f"(s.choice {a} {b} {c} {at})"
        return a
    def binary(self, k):
        if k == len(BIN): return self.cast()
        at = self.pos(); a = self.binary(k + 1)
        while self.peek() in BIN[k]:
            o = self.next(); a = f"(s.binary op.{OPS[o]} {a} {self.binary(k + 1)} {at})"
        return a
    def cast(self):
        if self.peek() == "(" and self.is_type(1):
            at = self.pos(); self.next(); t = self.whole_type(); self.eat(")"); return f"(s.cast {t} {self.cast()} {at})"
        return self.unary()
    def unary(self):
        at = self.pos()
        if self.peek() in PRE:
            o = self.next(); return f"(s.unary pre.{PRE[o]} {self.cast()} {at})"
        if self.peek() == "sizeof":
            self.next()
            if self.peek() == "(" and self.is_type(1):
                self.next(); t = self.whole_type(); self.eat(")"); return f"(s.size_of_type {t} {at})"
            return f"(s.size_of_expr {self.unary()} {at})"
        return self.postfix()
    def args(self):
        self.eat("("); es = []
        while not self.opt(")"): es.append(self.assign()); self.opt(",")
        return self.exprs(es)
    def postfix(self):
        at = self.pos(); x = self.peek()
        if x == "(": self.next(); a = self.expr(); self.eat(")")
        elif x in ("call", "signal"):
            self.next(); el = self.text(self.next()); self.eat("."); it = self.text(self.next()); p = "s.no_expr"
            if self.opt("["): p = f"(s.some_expr {self.assign()})"; self.eat("]")
            a = f"(s.call_item {'true' if x == 'signal' else 'false'} {el} {it} {p} {self.args()} {at})"
        elif x == "post": self.next(); n = self.text(self.next()); self.eat("("); self.eat(")"); a = f"(s.post {n} {at})"
        elif x == "port_read": self.next(); self.eat("("); p = self.cond(); self.eat(")"); a = f"(s.port_read {p} {at})"
        elif x == "port_write":
            self.next(); self.eat("("); p = self.cond(); self.eat(","); e = self.assign(); self.eat(")"); a = f"(s.port_write {p} {e} {at})"
        elif x == "uniqueCount": self.next(); self.eat("("); t = self.text(self.next()); self.eat(")"); a = f"(s.unique_count {t} {at})"
        elif x == "unique": self.next(); self.eat("("); t = self.text(self.next()); self.eat(")"); a = f"(s.unique {t} {at})"
        elif x == "NULL": self.next(); a = f"(s.null {at})"
        elif x[0].isdigit(): self.next(); a = f"(n {self.text(x)} {at})"
        else: self.next(); a = f"(v {self.text(x)} {at})"
        while True:
            if self.opt("["): i = self.expr(); self.eat("]"); a = f"(s.index {a} {i} {at})"
            elif self.peek() == "(": a = f"(s.call_fn {a} {self.args()} {at})"
            elif self.opt("."): a = f"(s.member {a} {self.text(self.next())} {at})"
            elif self.opt("->"): a = f"(s.arrow {a} {self.text(self.next())} {at})"
            elif self.opt("++"): a = f"(s.postfix post.Inc {a} {at})"
            elif self.opt("--"): a = f"(s.postfix post.Dec {a} {at})"
            else: return a

    # ---- declarations and statements
    def attrs(self):
        out = []
        while self.opt("@"):
            n = self.text(self.next()); self.eat("("); xs = []
            while not self.opt(")"):
                xs.append(f"tree.text {self.text(self.next())}" if self.peek().startswith('"') else f"tree.value {self.cond()}"); self.opt(",")
            out.append(f"attr {n} ({lst(xs)})")
        return f"({lst(out)})" if out else "[]"
    def init(self):
        if self.opt("{"):
            xs = []
            while not self.opt("}"): xs.append(self.init()); self.opt(",")
            return f"(many (inits ({lst(xs)})))"
        return f"(one {self.assign()})"
    def variable(self):
        n = self.stars(); at = self.pos(); name = self.text(self.next()); dims = self.dims(); self.attrs()
        i = f"(Some {self.init()})" if self.opt("=") else "None"
        return f"var {n} {name} {dims} {i} {at}" if n or dims != "s.no_exprs" else f"simple {name} {i} {at}"
    def variables(self):
        norace = False
        while self.peek() in ("norace", "static"): norace |= self.next() == "norace"
        b, c = self.type(); vs = [self.variable()]
        while self.opt(","): vs.append(self.variable())
        self.eat(";")
        return self.spec(b, 0, "s.no_exprs", c), norace, f"({lst(vs)})"
    def params(self):
        self.eat("("); ps = []
        if self.peek() == "void" and self.peek(1) == ")": self.next()
        while not self.opt(")"):
            b, c = self.type(); n = self.stars()
            name = f"(Some {self.text(self.next())})" if re.match(r"[A-Za-z_]", self.peek()) else "None"
            ps.append(f"param {self.spec(b, n, self.dims(), c)} {name}"); self.opt(",")
        return f"({lst(ps)})" if ps else "[]"
    def decl(self):
        at0 = self.pos()
        if self.opt("typedef"):
            b, c = self.type(); n = self.stars(); at = self.pos(); name = self.next(); t = self.spec(b, n, self.dims(), c); a = self.attrs(); self.eat(";")
            self.types.add(name); return f"tree.typedef {self.text(name)} {t} {a} {at}"
        save = self.i; words = set()
        while self.peek() in ("async", "default", "static", "inline", "task", "command", "event", "norace"): words.add(self.next())
        if "norace" not in words:
            b, c = self.type()
            if self.opt(";"): return f"tree.type_only {self.spec(b, 0, 's.no_exprs', c)} {at0}"
            n = self.stars(); at = self.pos(); name = self.next()
            if self.peek() in (".", "(") or (self.peek() == "[" and self.is_type(1)):
                item = f"(Some {self.text(self.next())})" if self.opt(".") else "None"; br = "None"
                if self.opt("["):
                    bb, bc = self.type(); bn = self.next(); self.eat("]"); br = f"(Some (param {self.spec(bb, 0, 's.no_exprs', bc)} (Some {self.text(bn)})))"
                ps = self.params(); a = self.attrs()
                kind = "Task" if "task" in words else "Command" if "command" in words else "Event" if "event" in words else "Plain"
                body = "no_stmt" if self.opt(";") else f"(some_stmt {self.stmt()})"
                b2 = lambda x: "true" if x in words else "false"
                res = self.spec(b, n, "s.no_exprs", c)
                if kind == "Plain" and item == "None" and br == "None" and not words & {"async", "default"}:
                    return f"tree.function (plain_head {self.text(name)} {res} {ps} {a} {at}) {body}"
                return f"tree.function (head kind.{kind} {self.text(name)} {item} {br} {b2('async')} {b2('default')} {res} {ps} {a} {at}) {body}"
        self.i = save
        t, norace, vs = self.variables()
        return f"tree.variables {t} {'true' if norace else 'false'} {vs}"
    def decls(self, end=""):
        out = []
        while self.peek() != end: out.append(self.decl())
        return out
    def maybe(self, end):
        if self.opt(end): return "s.no_expr"
        e = self.expr(); self.eat(end); return f"(s.some_expr {e})"
    def stmt(self):
        at = self.pos(); x = self.peek()
        if self.opt("{"):
            xs = []
            while not self.opt("}"): xs.append(self.item())
            return f"(block ({lst(xs)}) {at})"
        if self.opt(";"): return f"(tree.empty {at})"
        if self.opt("atomic"): return f"(tree.atomic {self.stmt()} {at})"
        if self.opt("if"):
            self.eat("("); e = self.expr(); self.eat(")"); a = self.stmt()
            b = f"(some_stmt {self.stmt()})" if self.opt("else") else "no_stmt"
            return f"(tree.branch {e} {a} {b} {at})"
        if self.opt("while"): self.eat("("); e = self.expr(); self.eat(")"); return f"(tree.while {e} {self.stmt()} {at})"
        if self.opt("for"):
            self.eat("(")
            if self.peek() == ";": self.next(); st = "tree.nothing"
            else: e = self.expr(); self.eat(";"); st = f"(tree.first {e})"
            t = self.maybe(";"); s = self.maybe(")")
            return f"(tree.for {st} {t} {s} {self.stmt()} {at})"
        if self.opt("return"): return f"(tree.return {self.maybe(';')} {at})"
        if self.opt("break"): self.eat(";"); return f"(tree.break {at})"
        if self.opt("continue"): self.eat(";"); return f"(tree.continue {at})"
        e = self.expr(); self.eat(";"); return f"(tree.eval {e} {at})"
    def item(self):
        if self.is_type() or self.peek() == "typedef":
            at = self.pos(); return f"(tree.local ({self.decl()}) {at})"
        return self.stmt()

    # ---- components
    def sigs(self):
        out = []
        self.eat("{")
        while not self.opt("}"):
            a = self.opt("async"); ev = self.next() == "event"; b, c = self.type(); n = self.stars(); at = self.pos(); name = self.text(self.next())
            ps = self.params(); self.attrs(); self.eat(";")
            out.append(f"sig {name} {'true' if ev else 'false'} {'true' if a else 'false'} {self.spec(b, n, 's.no_exprs', c)} {ps} {at}")
        return f"({lst(out)})"

OUT = str(pathlib.Path(__file__).resolve().parent.parent / "crates/program_meaning/specs") + "/"
IMPORTS = '''use Rattle.std.specs.Prelude.{ℕ, true, false, List, [], ◌∷◌, codes, Some, None}
use Rattle.nm_base.specs.declared.int_type.IntType.TheVariants.{I8, U8, I16, U16, I32, U32}
use Rattle.nm_base.specs.declared.pos.Pos.{Pos}
use Rattle.nesc_tree.specs.Plain as s
use Rattle.nesc_tree.specs.declared.tree.InOp.TheVariants as op
use Rattle.nesc_tree.specs.declared.tree.PreOp.TheVariants as pre
use Rattle.nesc_tree.specs.declared.tree.PostOp.TheVariants as post
use Rattle.nesc_tree.specs.declared.declarations.FuncKind.TheVariants as kind
use Rattle.body_meaning.specs.Tree as tree
use Rattle.body_meaning.specs.Tree.{Decl, no_stmt, some_stmt, one, many}
use Rattle.program_meaning.specs.Parts.{Interface, Instance, Elem}
use Rattle.program_meaning.specs.RowForms.{place, plain, inits, var, simple, block, attr, param, head, plain_head, sig, interface}
use Rattle.program_meaning.specs.RowForms.{tree_exprs as exprs}
'''
PRELUDE = '''typedef char int8_t;            typedef unsigned char uint8_t;
typedef int int16_t;            typedef unsigned int uint16_t;
typedef long int32_t;           typedef unsigned long uint32_t;
typedef uint8_t bool;           enum { FALSE = 0, TRUE = 1 };
typedef uint8_t error_t @combine("ecombine");
enum { SUCCESS = 0, FAIL = 1, ESIZE = 2, ECANCEL = 3, EOFF = 4, EBUSY = 5, EINVAL = 6,
       ERETRY = 7, ERESERVE = 8, EALREADY = 9, ENOMEM = 10, ENOACK = 11 };
error_t ecombine(error_t r1, error_t r2) { return r1 == r2 ? r1 : FAIL; }
'''
TYPES = ["int8_t", "uint8_t", "int16_t", "uint16_t", "int32_t", "uint32_t", "bool", "error_t"]
MAINC = '''module MainC { provides interface Boot; uses interface Init as SoftwareInit; }
implementation {
  default command error_t SoftwareInit.init() { return SUCCESS; }
  default event void Boot.booted() { }
  void boot() @spontaneous() {
    atomic { call SoftwareInit.init(); }
    signal Boot.booted();
  }
}
'''
def helper(name, file):
    return f'''abbrev pub {name} : (line col : ℕ) → Pos
{name} line col = place {file} line col

abbrev pub n : List ℕ → Pos → s.Expr
n text at = s.number text at

abbrev pub v : List ℕ → Pos → s.Expr
v name at = s.name name at
'''
def comment(text):
    return "".join("--     " + l + "\n" for l in text.rstrip("\n").split("\n"))
def decl_list(xs):
    return "\n    ∷ ".join(list(xs) + ["[]"]).replace("[]", "[]")
def implementation(text, types=TYPES):
    r = Reader(text, types)
    while r.peek() != "implementation": r.next()
    r.next(); r.eat("{"); return r.decls("}")
def write(name, head, body):
    open(OUT + name + ".antt", "w").write(head + IMPORTS + "\n" + body)
def sigs(text, types=TYPES):
    r = Reader(text, types); r.eat("interface"); r.next(); return r.sigs()

class Named(Reader):
    """A reader whose places are of another file's."""
    def __init__(self, text, types, at): super().__init__(text, types); self.at = at
    def pos(self, k=0): return super().pos(k).replace("(at ", f"({self.at} ")

def impl(text, at="at", types=TYPES):
    r = Named(text, types, at)
    while r.peek() != "implementation": r.next()
    r.next(); r.eat("{"); return "\n    ".join(x + " ∷" for x in r.decls("}")) + " []"
def face(text, at, types=TYPES):
    r = Named(text, types, at); r.eat("interface"); r.next()
    if r.opt("<"):
        while not r.opt(">"): r.types.add(r.next())
    return r.sigs()
def headers(text, at):
    r = Named(text, [], at); return "\n    ".join(x + " ∷" for x in r.decls()) + " []"

def places(pairs):
    return "".join(f"abbrev pub {a} : (line col : ℕ) → Pos\n{a} line col = place {f} line col\n\n" for a, f in pairs)
SHORT = '''abbrev pub n : List ℕ → Pos → s.Expr
n text at = s.number text at

abbrev pub v : List ℕ → Pos → s.Expr
v name at = s.name name at

'''
def decls(name, text, at="at", types=TYPES):
    return f"{comment(text)}abbrev pub {name} : List Decl\n{name} =\n    {impl(text, at, types)}\n\n"

GET = "interface Get { command uint8_t get(); }\n"
NUM = '''module NumC { uses interface Boot; }
implementation {
  event void Boot.booted() {
    uint8_t a = 200; uint8_t b = 100;
    port_write(0x0130, a + b);
    port_write(0x0130, (uint8_t)(a + b));
    port_write(0x0130, 1 << 15);
    port_write(0x0130, 1 << 16);
    port_write(0x0130, -1 >> 20);
    port_write(0x0130, -1 < 1u);
    port_write(0x0130, 40000 + 30000);
    port_write(0x0130, -7 / 2);
    port_write(0x0130, -7 % 2);
  }
}
'''
TORN = '''module TornC { uses interface Boot; }
implementation {
  uint32_t t;
  void rx() @atomic_hwevent() @vector(2) { t = port_read(0x0130); }
  event void Boot.booted() {
    uint16_t h;
    port_write(0x0100, 4);
    h = t >> 16;
    port_write(0x0120, h);
  }
}
'''
NEST = '''module NestC { uses interface Boot; }
implementation {
  void put(uint16_t v) {
    atomic {
      port_write(0x0130, v);
      atomic { port_write(0x0130, v + 1); }
      port_write(0x0130, v + 2);
    }
  }
  void rx() @atomic_hwevent() @vector(2) { put(20); }
  event void Boot.booted() { port_write(0x0100, 4); put(10); }
}
'''
POST = '''module PostC { uses interface Boot; }
implementation {
  uint8_t again;
  task void t() {
    port_write(0x0130, 9);
    if (!again) { again = 1; port_write(0x0130, post t()); }
  }
  void rx() @atomic_hwevent() @vector(2) {
    port_write(0x0130, post t());
    port_write(0x0130, post t());
  }
  event void Boot.booted() {
    port_write(0x0100, 4);
    port_write(0x0130, post t());
    port_write(0x0130, post t());
  }
}
'''
POINTERS = '''module PtrC { uses interface Boot; }
implementation {
  uint8_t a[2]; uint8_t b[2]; uint8_t *p;
  event void Boot.booted() {
    p = b; p = a; p[2] = 5; port_write(0x0130, b[0]); p[4] = 1; port_write(0x0130, 6);
  }
}
'''
FAN = '''module FanC { uses interface Boot; uses interface Init; }
implementation {
  event void Boot.booted() {
    port_write(0x0130, call Init.init());
  }
}
'''
A = '''module AC { provides interface Init; }
implementation {
  command error_t Init.init() { port_write(0x0130, 1); return SUCCESS; }
}
'''
B = '''module BC { provides interface Init; }
implementation {
  command error_t Init.init() { port_write(0x0130, 2); return FAIL; }
}
'''
PAR = '''module ParC { uses interface Boot; uses interface Get as G[uint8_t id]; }
implementation {
  default command uint8_t G.get[uint8_t id]() { return id + 6; }
  event void Boot.booted() {
    port_write(0x0130, call G.get[3]());
    port_write(0x0130, call G.get[1]());
  }
}
'''
ONE = '''module OneG { provides interface Get; }
implementation {
  command uint8_t Get.get() { return 4; }
}
'''
built = "-- Trees of the texts that are built in: the prelude, Boot, Init and MainC.\n"
body = places([("in_prelude", 0), ("in_boot", 2), ("in_main", 3), ("in_init", 4)]) + SHORT
body += comment(PRELUDE) + "abbrev pub prelude : List Decl\nprelude =\n    " + headers(PRELUDE, "in_prelude") + "\n\n"
body += comment("interface Boot { event void booted(); }") + "abbrev pub boot : Interface\nboot = interface " + face("interface Boot { event void booted(); }\n", "in_boot") + "\n\n"
body += comment("interface Init { command error_t init(); }") + "abbrev pub init : Interface\ninit = interface " + face("interface Init { command error_t init(); }\n", "in_init") + "\n\n"
body += decls("main", MAINC, "in_main")
write("BuiltIn", built, body.rstrip("\n") + "\n")
body = places([("at", 1)]) + SHORT
for name, text in (("numbers", NUM), ("torn", TORN), ("nested", NEST), ("posts", POST), ("pointers", POINTERS)):
    body += decls(name, text)
write("PlainTrees", "-- Trees of modules that are applications.\n", body.rstrip("\n") + "\n")
body = places([("at", 5), ("in_a", 6), ("in_b", 7), ("in_get", 8)]) + SHORT
body += decls("fan", FAN) + decls("a", A, "in_a") + decls("b", B, "in_b") + decls("parameters", PAR) + decls("one_get", ONE, "in_a")
body += comment(GET) + "abbrev pub get : Interface\nget = interface " + face(GET, "in_get") + "\n\n"
write("WiredTrees", "-- Trees of modules that configurations wire.\n", body.rstrip("\n") + "\n")

# ---- refused modules
HEAD = ["module M { uses interface Boot; }", "implementation {"]
B = "  event void Boot.booted() { }"
def mod(*lines): return "\n".join(HEAD + list(lines) + ["}"]) + "\n"
def booted(line): return mod("  event void Boot.booted() {", "    " + line, "  }")
GROUPS = [
 ("statements", [
  (booted("5 = 1;"), "NotAssignable", 4, 5),
  (booted("uint8_t a; a.b = 1;"), "BadType", 4, 16),
  (booted("b = 1;"), "UnknownName", 4, 5),
  (booted("uint8_t a; uint8_t a;"), "DuplicateName", 4, 24),
  (booted("uint8_t a; uint8_t *p; p = &a;"), "AddressOfLocal", 4, 32),
  (booted("ecombine(1);"), "ArgumentMismatch", 4, 5),
  (booted("port_read(0x0121);"), "NotConstant", 4, 15),
 ]),
 ("handlers", [
  (mod("  void a() @atomic_hwevent() @vector(2) { }", "  void b() @atomic_hwevent() @vector(2) { }", B), "VectorTwice", 4, 8),
  (mod("  void a() @vector(2) { }", B), "BadType", 3, 8),
  (mod("  void a() @atomic_hwevent() { }", B), "BadType", 3, 8),
  (mod("  uint8_t a() @atomic_hwevent() @vector(2) { }", B), "BadType", 3, 11),
  (mod("  void a(int x) @atomic_hwevent() @vector(2) { }", B), "BadType", 3, 8),
  (mod("  task void t() @atomic_hwevent() @vector(2) { }", B), "BadType", 3, 13),
  (mod("  void a() @atomic_hwevent() @vector(8) { }", B), "NotConstant", 3, 38),
  (mod("  uint8_t n;", "  void a() @atomic_hwevent() @vector(n) { }", B), "NotConstant", 4, 38),
  (mod("  void a() @atomic_hwevent() @vector(2);", B), "UnknownName", 3, 8),
  (mod("  void a() @atomic_hwevent() @vector(2);", "  void a() { }", "  void b() @atomic_hwevent() @vector(2) { }", B), "VectorTwice", 5, 8),
 ]),
 ("prototypes", [
  (mod("  void f();", "  event void Boot.booted() { f(); }"), "UnknownName", 3, 8),
  (mod("  task void t();", "  event void Boot.booted() { post t(); }"), "UnknownName", 3, 13),
  (mod("  event void Boot.booted() { f(); }", "  void f() { }"), "UnknownName", 3, 30),
  (mod("  void f();", "  void f();", "  void f() { }", B), "DuplicateName", 4, 8),
  (mod("  void f() { }", "  void f() { }", B), "DuplicateName", 4, 8),
  (mod("  void f(uint8_t x);", "  void f(uint16_t x) { }", B), "ArgumentMismatch", 4, 8),
  (mod("  uint8_t f();", "  void f() { }", B), "ArgumentMismatch", 4, 8),
  (mod("  uint8_t f;", "  void f() { }", B), "DuplicateName", 4, 8),
  (mod("  void f() { }", "  uint8_t f;", B), "DuplicateName", 4, 11),
 ]),
 ("types", [
  (mod("  task uint8_t t() { }", B), "BadType", 3, 16),
  (mod("  task void t(uint8_t x) { }", B), "BadType", 3, 13),
  (mod("  struct S { int a; };", "  void f(struct S s) { }", B), "BadType", 4, 8),
  (mod("  struct S { int a; };", "  struct S f() { }", B), "BadType", 4, 12),
  (mod("  void f(void *p, uint8_t q) { }", B), "BadType", 3, 8),
  (mod("  void v;", B), "BadType", 3, 8),
  (mod("  uint8_t a[32768];", B), "BadType", 3, 11),
  (mod("  void f(uint8_t x, uint8_t x) { }", B), "DuplicateName", 3, 8),
  (mod("  void f(uint8_t x) { uint8_t x; }", B), "DuplicateName", 3, 31),
  (mod("  void f() { uint8_t a[9960]; a[0] = 1; }", B), "BadType", 3, 8),
  (mod("  void I.x() { }", B), "BadType", 3, 8),
  (mod("  void f[uint8_t i]() { }", B), "BadType", 3, 8),
  (mod("  uint8_t x = y;", "  uint8_t y;", B), "UnknownName", 3, 15),
 ]),
 ("items", [
  (mod("  event void Boot.gone() { }", B), "UnknownName", 3, 14),
  (mod("  event void Boat.booted() { }", B), "UnknownName", 3, 14),
  (mod("  event void booted() { }", B), "UnknownName", 3, 14),
  (mod("  event uint8_t Boot.booted() { return 0; }"), "ArgumentMismatch", 3, 17),
  (mod("  event void Boot.booted(uint8_t x) { }"), "ArgumentMismatch", 3, 14),
  (mod("  async event void Boot.booted() { }"), "ArgumentMismatch", 3, 20),
  (mod("  default event void Boot.booted() { }"), "ArgumentMismatch", 3, 22),
  (mod("  command void Boot.booted() { }"), "ArgumentMismatch", 3, 16),
  (mod("  event void Boot.booted[uint8_t i]() { }"), "ArgumentMismatch", 3, 14),
  (mod(B, B), "DuplicateName", 4, 14),
  (booted("call Boot.booted();"), "BadType", 4, 5),
  (booted("signal Boot.booted();"), "BadType", 4, 5),
  (booted("call Boot.gone();"), "UnknownName", 4, 5),
  (booted("post f();"), "UnknownName", 4, 5),
  (mod("  void f() { }", "  event void Boot.booted() { post f(); }"), "BadType", 4, 30),
  (mod("  task void t() { }", "  event void Boot.booted() { t(); }"), "BadType", 4, 30),
 ]),
]
def refused_rows():
    body = places([("at", 1)]) + SHORT
    body += '''pub record Stopped : Type 0 where
  pub decls : List Decl
  pub refusal : Refusal

abbrev pub refused : List Decl → Refusal → Stopped
refused decls r = record { decls = decls; refusal = r }

abbrev pub AreRefused : List Stopped → Type 0
AreRefused rows = map (λ (r : Stopped). wired (application (codes "M") r.decls)) rows ≡ map (λ (r : Stopped). refuse r.refusal) rows

pub record RefusedRows : Type 0 where
'''
    for name, rows in GROUPS:
        notes = "".join("  --   " + "   ".join(l.strip() for l in t.rstrip("\n").split("\n")[2:-1]) + "\n" for t, *_ in rows)
        items = "\n      ∷ ".join(f"refused ({impl(t).replace(chr(10) + '    ', ' ')}) ({e} (at {l} {c}))" for t, e, l, c in rows)
        body += notes + f"  pub {name} : AreRefused (\n      {items}\n      ∷ [])\n"
    head = "-- Worked rows: modules that are refused, with the place, worked out by hand; a module's text begins at its third line, behind\n-- `module M { uses interface Boot; }` and `implementation {`.\n"
    global IMPORTS
    keep = IMPORTS
    IMPORTS = IMPORTS.replace("Prelude.{ℕ, true,", "Prelude.{◌≡◌, ℕ, map, true,") + '''use Rattle.nm_base.specs.declared.refusal.Refusal.{Refusal}
use Rattle.nm_base.specs.declared.refusal.Refusal.TheVariants.{BadType, NotConstant, UnknownName, DuplicateName, AddressOfLocal, ArgumentMismatch, VectorTwice, NotAssignable}
use Rattle.nesc_types.specs.Rule.{refuse}
use Rattle.program_meaning.specs.PlainRows.{application}
use Rattle.program_meaning.specs.Program.{wired}
'''
    write("RefusedRows", head, body)
    IMPORTS = keep
refused_rows()

# ---- initial values, generic instances, values of parameters
INIT = '''module InitC { uses interface Boot; }
implementation {
  uint8_t same(uint8_t n);
  uint16_t x = 5 > 3, y[2] = { 7, 1 };
  norace uint8_t z = same(2);
  uint8_t same(uint8_t n) { return n; }
  event void Boot.booted() { }
}
'''
GEN = '''generic module GenC(typedef t, uint8_t n) { provides interface Init; }
implementation {
  enum { ID = unique("s") };
  t kept[n];
  command error_t Init.init() { kept[ID] = n; return SUCCESS; }
}
'''
USER = '''module UserC { uses interface Boot; uses interface Init as A; uses interface Init as B; }
implementation {
  event void Boot.booted() { call A.init(); call B.init(); }
}
'''
GIVEN = '''module GivC {
  uses interface Boot; uses interface Get as G; uses interface Get as H;
  uses interface Get as R[uint8_t id];
}
implementation {
  event void Boot.booted() {
    call G.get();
    call H.get();
    call R.get[7]();
  }
}
'''
PARAMETER = '''module ParP { provides interface Get as P[uint8_t id]; }
implementation {
  command uint8_t P.get[uint8_t id]() { return id; }
}
'''
body = places([("at", 5), ("in_a", 6)]) + SHORT
body += decls("initial", INIT) + decls("generic", GEN, "in_a", TYPES + ["t"]) + decls("user", USER) + decls("given", GIVEN) + decls("passed", PARAMETER, "in_a")
write("InstanceTrees", "-- Trees of modules with initial values, with parameters, and of a generic one.\n", body.rstrip("\n") + "\n")

# ---- functions that combine results
def header(name, text): return f"{comment(text)}abbrev pub {name} : List Decl\n{name} =\n    " + "\n    ".join(x + " ∷" for x in Named(text, TYPES, "in_header").decls()) + " []\n\n"
RES = "interface Res { command r_t get(); }\n"
CALLER = '''module CallC { uses interface Boot; uses interface Res; }
implementation {
  event void Boot.booted() { call Res.get(); }
}
'''
GIVER = '''module ResC { provides interface Res; }
implementation {
  command r_t Res.get() { return 1; }
}
'''
body = places([("at", 5), ("in_a", 6), ("in_header", 7), ("in_res", 8)]) + SHORT
body += header("missing", 'typedef uint8_t r_t @combine("least");\n')
body += header("of_one", 'typedef uint8_t r_t @combine("least");\nr_t least(r_t a) { return a; }\n')
body += header("of_int", 'typedef uint8_t r_t @combine("least");\nint least(r_t a, r_t b) { return a; }\n')
body += header("without_body", 'typedef uint8_t r_t @combine("least");\nr_t least(r_t a, r_t b);\n')
body += header("behind", 'typedef uint8_t r_t @combine("least");\nr_t least(r_t a, r_t b) { return a < b ? a : b; }\n')
body += header("of_another", 'typedef error_t r_t;\n')
body += decls("caller", CALLER, "at", TYPES + ["r_t"]) + decls("giver", GIVER, "in_a", TYPES + ["r_t"])
body += comment(RES) + "abbrev pub res : Interface\nres = interface " + face(RES, "in_res", TYPES + ["r_t"]) + "\n\n"
write("CombineTrees", "-- Trees of headers whose types name functions that combine results, and of modules with such results.\n", body.rstrip("\n") + "\n")

# ---- three timers that blink lamps
T2 = TYPES + ["TMilli"]
TIMER_H = "typedef struct { int notUsed; } TMilli;\n"
TIMER = "interface Timer<tag> { command void startPeriodic(uint32_t dt); event void fired(); }\n"
LEDS = '''interface Leds {
  async command void led0Toggle();
  async command void led1Toggle();
  async command void led2Toggle();
}
'''
BLINK = '''#include "Timer.h"
module BlinkC @safe() {
  uses interface Timer<TMilli> as Timer0;
  uses interface Timer<TMilli> as Timer1;
  uses interface Timer<TMilli> as Timer2;
  uses interface Leds;
  uses interface Boot;
}
implementation {
  event void Boot.booted() {
    call Timer0.startPeriodic(250);
    call Timer1.startPeriodic(500);
    call Timer2.startPeriodic(1000);
  }
  event void Timer0.fired() { call Leds.led0Toggle(); }
  event void Timer1.fired() { call Leds.led1Toggle(); }
  event void Timer2.fired() { call Leds.led2Toggle(); }
}
'''
LEDS_C = '''module LedsC { provides interface Leds; }
implementation {
  uint16_t on;
  async command void Leds.led0Toggle() { atomic { on = on ^ 1; port_write(0x0120, on); } }
  async command void Leds.led1Toggle() { atomic { on = on ^ 2; port_write(0x0120, on); } }
  async command void Leds.led2Toggle() { atomic { on = on ^ 4; port_write(0x0120, on); } }
}
'''
TIMER_P = '''#include "Timer.h"
module TimerP {
  provides interface Init;
  provides interface Timer<TMilli> as Timer[uint8_t id];
}
implementation {
  enum { N = uniqueCount("TimerMilliC") };
  uint32_t period[N];
  uint32_t left[N];
  command error_t Init.init() {
    port_write(0x012A, 250);
    port_write(0x0128, 1);
    port_write(0x0100, 2);
    return SUCCESS;
  }
  task void tick() {
    uint8_t i;
    for (i = 0; i < N; i++) {
      if (period[i] == 0) continue;
      left[i] -= 250;
      if (left[i] == 0) { left[i] = period[i]; signal Timer.fired[i](); }
    }
  }
  void line() @atomic_hwevent() @C() @spontaneous() @vector(1) { post tick(); }
  command void Timer.startPeriodic[uint8_t id](uint32_t dt) { period[id] = dt; left[id] = dt; }
  default event void Timer.fired[uint8_t id]() { }
}
'''
body = places([("in_header", 5), ("at", 6), ("in_leds_c", 7), ("in_timer_p", 8), ("in_leds", 9), ("in_timer", 10)]) + SHORT
body += header("timer_header", TIMER_H) + decls("blink", BLINK, "at", T2) + decls("lamps", LEDS_C, "in_leds_c", T2) + decls("timers", TIMER_P, "in_timer_p", T2)
body += comment(TIMER) + f'abbrev pub timer : Interface\ntimer = record {{ params = codes "tag" ∷ []; items = {face(TIMER, "in_timer", T2)} }}\n\n'
body += comment(LEDS) + "abbrev pub leds : Interface\nleds = interface " + face(LEDS, "in_leds", T2) + "\n\n"
write("BlinkTrees", "-- Trees of the modules of Blink: a header, two interfaces and three modules.\n", body.rstrip("\n") + "\n")
