#!/usr/bin/env python3
"""Prints how deep `act` goes before the stack ends, and how long a test takes, its start and its builder with it: nested
operators in one expression, and calls in a chain of bodies. It adds tests of growing depth to a copy of the repository, and
runs them by `rt try --test`. A program is not dropped, since the destructor of a tree goes down its levels. Its argument is the
stack in KB, 8192 if there is none."""
import os
import re
import resource
import subprocess
import sys
import time

from copies import repository_copy

LEVELS = {"nested": [500, 2000, 10000], "chain": [1000, 10000, 60000]}
KILOBYTES = int(sys.argv[1]) if len(sys.argv) > 1 else 8192

BUILDERS = """//! Deep trees and long chains of calls.

use crate::act;
use nesc_core::{BinOp, Body, CoreExpr, CoreStmt, CoreType, Program, Structs};
use nm_base::{IntType, List, Name, NoMemory, Pos};
use std::alloc::Global;
use std::test::Fail;

const AT: Pos = Pos {
    file: 1,
    line: 1,
    col: 1,
};

fn body(alloc: Global, code: CoreExpr) -> Result<Body, NoMemory> {
    Ok(Body {
        name: Name::new(alloc, b"f")?,
        params: 0,
        locals: List::new(Vec::new(alloc)),
        result: CoreType::Int(IntType::I16),
        code: CoreStmt::Return(Some(code)),
        is_async: false,
        is_item: false,
    })
}

fn program(alloc: Global, bodies: Vec<Body>) -> Program {
    Program {
        structs: Structs {
            structs: List::new(Vec::new(alloc)),
        },
        objects: List::new(Vec::new(alloc)),
        bodies: List::new(bodies),
        tasks: List::new(Vec::new(alloc)),
        handlers: List::new(Vec::new(alloc)),
        boot: 0,
        warnings: List::new(Vec::new(alloc)),
    }
}

fn performed(alloc: Global, bodies: Vec<Body>) -> Result<usize, NoMemory> {
    let p = program(alloc, bodies);
    let actions = act(alloc, &p, 0, &[1], 0)?.len();
    std::mem::forget(p);
    Ok(actions)
}

fn nested(alloc: Global, levels: u32) -> Result<usize, NoMemory> {
    let mut e = CoreExpr::In(0x0132);
    for _ in 0..levels {
        let one = Box::new(alloc, CoreExpr::Const(IntType::I16, 1))?;
        e = CoreExpr::Bin(BinOp::Add, IntType::I16, Box::new(alloc, e)?, one);
    }
    let mut bodies = Vec::new(alloc);
    bodies.push(body(alloc, e)?)?;
    performed(alloc, bodies)
}

fn chain(alloc: Global, calls: u32) -> Result<usize, NoMemory> {
    let mut bodies = Vec::new(alloc);
    for f in 0..calls {
        let next = CoreExpr::Call(f + 1, List::new(Vec::new(alloc)), AT);
        bodies.push(body(alloc, next)?)?;
    }
    bodies.push(body(alloc, CoreExpr::In(0x0132))?)?;
    performed(alloc, bodies)
}
"""


def test(shape, depth, wanted):
    return f"""
#[test]
fn {shape}_{depth:06}(rt: HostRuntime) -> Result<(), Fail> {{
    assert_eq!(rt; {shape}(rt.alloc(), {depth})?, {wanted});
    Ok(())
}}
"""


def write_tests(source):
    with open(os.path.join(source, "depths.rt"), "w") as f:
        f.write(BUILDERS)
        for shape, depths in LEVELS.items():
            for depth in depths:
                f.write(test(shape, depth, 1 if shape == "nested" else 2 * depth + 1))
    with open(os.path.join(source, "lib.rt"), "a") as f:
        f.write("#[cfg(test)]\nmod depths;\n")


def run_tests(folder):
    """Runs the tests one after the other, and prints how each ended and after how many seconds."""
    run = subprocess.Popen(["rt", "try", "--test"], cwd=folder, stdout=subprocess.PIPE, stderr=subprocess.STDOUT, text=True)
    begun = time.monotonic()
    found = False
    for line in run.stdout:
        ended = time.monotonic()
        row = re.match(r"test depths::(nested|chain)_(\d+) \.\.\. (\w+)", line)
        if row:
            found = True
            print(f"{row[1]} {int(row[2])}: {row[3]} after {ended - begun:.1f} s")
        begun = ended
    if not found:
        sys.exit("no test ran: see `rt try --test`")


def main():
    with repository_copy() as copy:
        source = os.path.join(copy, "crates", "core_act", "src")
        write_tests(source)
        limit = (KILOBYTES * 1024, resource.getrlimit(resource.RLIMIT_STACK)[1])
        resource.setrlimit(resource.RLIMIT_STACK, limit)
        run_tests(os.path.dirname(source))


main()
