#!/usr/bin/env python3
"""Writes the rows of operators on constants, and of literals, from what a C compiler with an int of 16 bits computes.

    bench/constants.py [FOLDER]     FOLDER is crates/nesc_types/specs where none is given

The compiler is clang for the MSP430, whose long has 32 bits as here. This program chooses the operands alone: of a few numbers of
each type those on which the conversions tell most. Types and results come from clang, with -fwrapv so that sums wrap. Zero divisors,
counts below 0 or from the width on, and the least number divided by -1 are left out, since C leaves them open.
"""
import itertools
import pathlib
import re
import subprocess
import sys

HERE = pathlib.Path(__file__).resolve().parent
TYPES = {
    "I8": ("signed char", True, 8, [-128, -7, -1, 5, 127]),
    "U8": ("unsigned char", False, 8, [3, 7, 200, 255]),
    "I16": ("int", True, 16, [-32768, -300, -1, 9, 32767]),
    "U16": ("unsigned int", False, 16, [3, 13, 40000, 65535]),
    "I32": ("long", True, 32, [-2147483648, -70000, -1, 11, 2147483647]),
    "U32": ("unsigned long", False, 32, [3, 70000, 3000000000, 4294967295]),
}
PROMOTED = ["I16", "U16", "I32", "U32"]
FILES = {
    "SumRows": ("sums, differences and products", {"products": ("Mul", "*"), "sums": ("Add", "+"), "differences": ("Sub", "-")}),
    "QuotientRows": ("quotients, remainders and shifts", {
        "quotients": ("Div", "/"), "remainders": ("Rem", "%"), "left_shifts": ("Shl", "<<"), "right_shifts": ("Shr", ">>")}),
    "BitRows": ("operators on bits, and tests of both operands", {
        "ands": ("And", "&"), "exclusive_ors": ("Xor", "^"), "ors": ("Or", "|"),
        "conjunctions": ("AndAnd", "&&"), "disjunctions": ("OrOr", "||")}),
    "ComparisonRows": ("comparisons", {
        "less": ("Lt", "<"), "greater": ("Gt", ">"), "at_most": ("Le", "<="), "at_least": ("Ge", ">="),
        "equal": ("Eq", "=="), "unequal": ("Ne", "!=")}),
}
UNARY = {"promotions": ("Plus", "+"), "negations": ("Neg", "-"), "complements": ("Not", "~"), "tests": ("IsZero", "!")}
BORDERS = [32767, 32768, 65535, 65536, 2147483647, 2147483648, 4294967295, 4294967296]
RADICES = {"decimals": str, "hexadecimals": lambda n: "0x%x" % n, "octals": lambda n: "0%o" % n}
SUFFIXES = ["", "u", "U", "l", "L", "ul", "LU"]


def wrapped(kind, n):
    _, signed, width, _ = TYPES[kind]
    n %= 1 << width
    return n - (1 << width) if signed and n >> (width - 1) else n


def truncated(a, b):
    return abs(a) // abs(b) * (1 if (a < 0) == (b < 0) else -1)


MEANINGS = {
    "*": lambda a, b: a * b, "+": lambda a, b: a + b, "-": lambda a, b: a - b, "/": truncated,
    "%": lambda a, b: a - b * truncated(a, b), "&": lambda a, b: a & b, "^": lambda a, b: a ^ b, "|": lambda a, b: a | b,
    "<": lambda a, b: a < b, ">": lambda a, b: a > b, "<=": lambda a, b: a <= b, ">=": lambda a, b: a >= b,
    "==": lambda a, b: a == b, "!=": lambda a, b: a != b,
    "<<": lambda a, b: a << b, ">>": lambda a, b: a >> b,
}


def told(sign, x, y):
    """How many of the four types that operands are converted to give results that differ."""
    results = set()
    for kind in PROMOTED:
        a, b = (wrapped(kind, x), y) if sign in ("<<", ">>") else (wrapped(kind, x), wrapped(kind, y))
        if sign in ("/", "%") and b == 0:
            return 0
        results.add(wrapped(kind, int(MEANINGS[sign](a, b))))
    return len(results)


def operands(sign, left, right, turn):
    if sign in ("&&", "||"):
        x, y = TYPES[left][3][turn % 4], TYPES[right][3][turn % 3]
        return [(0, 0), (0, y), (x, 0), (x, y)][turn % 4]
    width = max(16, TYPES[left][2])
    seconds = [n for n in (1, 3, 7, 12, 15, 20) if n < width] if sign in ("<<", ">>") else TYPES[right][3]
    pairs = list(itertools.product(TYPES[left][3], seconds))
    pairs = pairs[turn % len(pairs):] + pairs[:turn % len(pairs)]
    if sign in ("/", "%"):
        pairs = [p for p in pairs if p[1] != -1]
    return max(pairs, key=lambda p: told(sign, *p))


def written(kind, n):
    if n == -2147483648:
        return "((%s)(-2147483647L - 1))" % TYPES[kind][0]
    return "((%s)%s)" % (TYPES[kind][0], "(%dL)" % n if n < 2147483648 else "%dUL" % n)


def compiled(expressions):
    """The number and the type of each expression, None where it has none of the types up to 32 bits."""
    text = []
    chosen = ", ".join("%s: %d" % (words[0], place) for place, words in enumerate(TYPES.values(), 1))
    for k, e in enumerate(expressions):
        text.append("long long v%d(void) { return %s; }" % (k, e))
        text.append("int t%d(void) { return _Generic(%s, %s, default: 0); }" % (k, e, chosen))
    done = subprocess.run(["clang", "--target=msp430", "-std=c99", "-S", "-emit-llvm", "-O1", "-fwrapv", "-w", "-x", "c", "-o", "-", "-"],
                          input="\n".join(text), capture_output=True, text=True, check=True)
    found = dict(re.findall(r"@(\w+)\(\)[^{]*\{\s*ret i\d+ (-?\d+)", done.stdout))
    kinds = [int(found["t%d" % k]) for k in range(len(expressions))]
    return [(int(found["v%d" % k]), list(TYPES)[kind - 1]) if kind else None for k, kind in enumerate(kinds)]


def number(n):
    return "(minus %d)" % -n if n < 0 else "(pos %d)" % n


def listed(rows):
    return "\n".join("      %s%s" % ("∷ " if k else "", row) for k, row in enumerate(rows)) + "\n      ∷ [])"


def operator_rows(sign, turn):
    chosen = [(left, right, *operands(sign, left, right, turn + k)) for k, (left, right) in enumerate(itertools.product(TYPES, TYPES))]
    results = compiled(["%s %s %s" % (written(left, x), sign, written(right, y)) for left, right, x, y in chosen])
    return ["row %s %s %s %s %s %s" % (left, number(x), right, number(y), kind, number(n))
            for (left, right, x, y), (n, kind) in zip(chosen, results)]


def unary_rows(sign):
    chosen = [(kind, x) for kind in TYPES for x in [0] + TYPES[kind][3]]
    results = compiled(["%s%s" % (sign, written(kind, x)) for kind, x in chosen])
    return ["unary_row %s %s %s %s" % (kind, number(x), of, number(n)) for (kind, x), (n, of) in zip(chosen, results)]


def cast_rows():
    chosen = [(left, x, right) for left, right in itertools.product(TYPES, TYPES) for x in TYPES[left][3]]
    results = compiled(["(%s)%s" % (TYPES[right][0], written(left, x)) for left, x, right in chosen])
    return ["unary_row %s %s %s %s" % (left, number(x), of, number(n)) for (left, x, _), (n, of) in zip(chosen, results)]


def literal_rows():
    literals = [(field, write(n) + suffix) for field, write in RADICES.items() for n in BORDERS for suffix in SUFFIXES]
    results = compiled([literal for _, literal in literals])
    rows = {field: [] for field in RADICES}
    for (field, literal), result in zip(literals, results):
        value = "too_large (codes \"%s\")" % literal if result is None else "held (codes \"%s\") %s %s" % (literal, result[1], number(result[0]))
        rows[field].append(value)
    return rows


def specification(folder, name, title, imports, forms, fields):
    """Writes specs/NAME.antt, a record with a field for each list of rows; a form is what is said of the list."""
    body = " ".join(row for _, rows in fields.values() for row in rows)
    kinds = ", ".join(kind for kind in TYPES if " %s " % kind in body)
    text = ["-- %s, as a C compiler with an int of 16 bits computes them (by bench/constants.py)." % title,
            "use Rattle.std.specs.Prelude.{pos, [], ◌∷◌%s}" % (", codes" if "held" in forms else ""),
            "use Rattle.nm_base.specs.declared.int_type.IntType.TheVariants.{%s}" % kinds]
    text += imports + ["use Rattle.nesc_types.specs.RowForms.{%s}" % forms, "", "pub record %s : Type 0 where" % name]
    text += ["  pub %s : %s (\n%s" % (field, form, listed(rows)) for field, (form, rows) in fields.items()]
    (folder / (name + ".antt")).write_text("\n".join(text) + "\n")


def variants(kind, fields):
    names = ", ".join(variant for variant, _ in fields.values())
    return ["use Rattle.nesc_tree.specs.declared.tree.%s.TheVariants.{%s}" % (kind, names)]


def main():
    folder = pathlib.Path(sys.argv[1]) if len(sys.argv) > 1 else HERE.parent / "crates" / "nesc_types" / "specs"
    turn = 0
    for name, (title, fields) in FILES.items():
        rows = {}
        for field, (variant, sign) in fields.items():
            turn += 5
            rows[field] = ("Gives %s" % variant, operator_rows(sign, turn))
        specification(folder, name, "Constants of each two types: " + title, variants("InOp", fields), "Gives, minus, row", rows)
    rows = {field: ("GivesBefore %s" % variant, unary_rows(sign)) for field, (variant, sign) in UNARY.items()}
    rows["casts"] = ("AreCast", cast_rows())
    specification(folder, "UnaryRows", "Operators before one constant, and casts", variants("PreOp", UNARY),
                  "AreCast, GivesBefore, minus, unary_row", rows)
    rows = {field: ("AreRead", rows) for field, rows in literal_rows().items()}
    specification(folder, "LiteralRows", "Literals at the borders of the types", [], "AreRead, held, too_large", rows)


if __name__ == "__main__":
    main()
