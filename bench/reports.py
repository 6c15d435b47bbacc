#!/usr/bin/env python3
"""Prints how long `report` takes on programs of growing size, their builder with it: for each shape the time at a quarter of the size
and at the whole one, and their ratio, which is about 4 where time is linear and 16 where it is quadratic, as with many variables.
The shapes are a chain of calls on each side, ladders with two bodies on each step, eight handlers that each reach a ladder, a
body with many accesses, many bodies with one access each, many variables with one access each, and shapes where what is looked at
outnumbers the rows: many accesses of one variable beside many that no handler touches, or beside a row for each; more rows than
the limit; and many objects whose address is taken, where a handler, the boot body or both follow many pointers, of one type or
of many. It adds tests to a copy of the repository, and runs them by `rt try --test`."""
import os
import re
import subprocess
import sys
import time

from copies import repository_copy

SIZES = {
    "chain": 4000,
    "ladder": 4000,
    "handlers": 4000,
    "accesses": 10000,
    "bodies": 10000,
    "variables": 8000,
    "untouched": 100000,
    "norace": 100000,
    "refused": 100000,
    "followed": 100000,
    "pointed": 100000,
    "others": 100000,
    "structs": 2000,
}
# `report` gives no rows where it refuses a program, and the shape counts none
ROWS = {
    "chain": lambda n: 1,
    "ladder": lambda n: 1,
    "handlers": lambda n: 1,
    "accesses": lambda n: n,
    "bodies": lambda n: n,
    "variables": lambda n: n,
    "untouched": lambda n: 0,
    "norace": lambda n: n // 12,
    "refused": lambda n: 0,
    "followed": lambda n: n // 12,
    "pointed": lambda n: n // 12,
    "others": lambda n: n // 12,
    "structs": lambda n: n,
}

BUILDERS = """//! Programs of growing size.

use crate::report;
use call_graph::graph;
use nesc_core::{Body, CoreExpr, CoreStmt, CoreType, Field, Object, Place, Program, Structs};
use nm_base::{IntType, List, Name, NoMemory, Pos};
use std::alloc::Global;
use std::test::Fail;

const AT: Pos = Pos {
    file: 0,
    line: 1,
    col: 1,
};

fn call(alloc: Global, f: u32) -> CoreStmt {
    CoreStmt::Eval(CoreExpr::Call(f, List::new(Vec::new(alloc)), AT))
}

fn read(x: u32) -> CoreStmt {
    CoreStmt::Eval(CoreExpr::Read(Place::Object(x), AT))
}

// A read through a pointer to values of this type.
fn follow(alloc: Global, ty: CoreType) -> Result<CoreStmt, NoMemory> {
    let pointer = Box::new(alloc, CoreExpr::Null)?;
    Ok(CoreStmt::Eval(CoreExpr::Read(Place::Deref(pointer, ty), AT)))
}

fn follow_bytes(alloc: Global, code: &mut Vec<CoreStmt>, times: u32) -> Result<(), NoMemory> {
    for _ in 0..times {
        code.push(follow(alloc, CoreType::Int(IntType::U8))?)?;
    }
    Ok(())
}

fn follow_words(alloc: Global, code: &mut Vec<CoreStmt>, times: u32) -> Result<(), NoMemory> {
    for _ in 0..times {
        code.push(follow(alloc, CoreType::Int(IntType::U16))?)?;
    }
    Ok(())
}

// Each of the variables from `first` on, once.
fn read_each(code: &mut Vec<CoreStmt>, first: u32, count: u32) -> Result<(), NoMemory> {
    for x in 0..count {
        code.push(read(first + x))?;
    }
    Ok(())
}

fn read_often(code: &mut Vec<CoreStmt>, x: u32, times: u32) -> Result<(), NoMemory> {
    for _ in 0..times {
        code.push(read(x))?;
    }
    Ok(())
}

fn push_object(alloc: Global, objects: &mut Vec<Object>, ty: CoreType, norace: bool, taken: bool) -> Result<(), NoMemory> {
    objects.push(Object {
        name: Name::new(alloc, b"x")?,
        ty,
        addr: 0x1100,
        norace,
        taken,
    })?;
    Ok(())
}

fn bytes(alloc: Global, count: u32, taken: bool) -> Result<Vec<Object>, NoMemory> {
    let mut objects = Vec::new(alloc);
    for _ in 0..count {
        push_object(alloc, &mut objects, CoreType::Int(IntType::U8), false, taken)?;
    }
    Ok(objects)
}

fn body(alloc: Global, code: Vec<CoreStmt>) -> Result<Body, NoMemory> {
    Ok(Body {
        name: Name::new(alloc, b"f")?,
        params: 0,
        locals: List::new(Vec::new(alloc)),
        result: CoreType::Void,
        code: CoreStmt::Block(List::new(code)),
        is_async: true,
        is_item: true,
    })
}

// A body that calls some bodies and reads the first variables.
fn push_body(alloc: Global, bodies: &mut Vec<Body>, calls: &[u32], variables: u32, times: u32) -> Result<(), NoMemory> {
    let mut code = Vec::new(alloc);
    for f in calls {
        code.push(call(alloc, *f))?;
    }
    for x in 0..variables {
        for _ in 0..times {
            code.push(read(x))?;
        }
    }
    bodies.push(body(alloc, code)?)?;
    Ok(())
}

fn rows(alloc: Global, bodies: Vec<Body>, variables: u32, handlers: &[u32]) -> Result<usize, Fail> {
    let objects = bytes(alloc, variables, false)?;
    rows_of(alloc, Vec::new(alloc), objects, bodies, handlers)
}

// With a body for boot and one for a handler.
fn two_bodies(alloc: Global, objects: Vec<Object>, boot: Vec<CoreStmt>, handler: Vec<CoreStmt>) -> Result<usize, Fail> {
    let mut bodies = Vec::new(alloc);
    bodies.push(body(alloc, boot)?)?;
    bodies.push(body(alloc, handler)?)?;
    rows_of(alloc, Vec::new(alloc), objects, bodies, &[1])
}

fn rows_of(alloc: Global, structs: Vec<List<Field>>, objects: Vec<Object>, bodies: Vec<Body>, handlers: &[u32]) -> Result<usize, Fail> {
    let mut lines = Vec::new(alloc);
    for f in handlers {
        lines.push((1, *f))?;
    }
    let p = Program {
        structs: Structs {
            structs: List::new(structs),
        },
        objects: List::new(objects),
        bodies: List::new(bodies),
        tasks: List::new(Vec::new(alloc)),
        handlers: List::new(lines),
        boot: 0,
        warnings: List::new(Vec::new(alloc)),
    };
    let Ok(g) = graph(alloc, &p) else {
        return Ok(0);
    };
    match report(alloc, &p, &g) {
        Ok(rows) => Ok(rows.len()),
        Err(_) => Ok(0),
    }
}

// From the first body on a chain of n calls to one that reads, and the same from a handler.
fn chain(alloc: Global, n: u32) -> Result<usize, Fail> {
    let mut bodies = Vec::new(alloc);
    for side in 0..2 {
        for f in 0..n {
            push_body(alloc, &mut bodies, &[side * (n + 1) + f + 1], 0, 0)?;
        }
        push_body(alloc, &mut bodies, &[], 1, 1)?;
    }
    rows(alloc, bodies, 1, &[n + 1])
}

// A ladder of n bodies from `first` on, two on each step, each of which calls both of the next one; the last ones read.
fn push_ladder(alloc: Global, bodies: &mut Vec<Body>, first: u32, n: u32, last: u32) -> Result<(), NoMemory> {
    for f in 0..n {
        let next = first + (f / 2 + 1) * 2;
        if f / 2 + 1 < n / 2 {
            push_body(alloc, bodies, &[next + 1, next], 0, 0)?;
        } else {
            push_body(alloc, bodies, &[last], 0, 0)?;
        }
    }
    Ok(())
}

fn ladder(alloc: Global, n: u32) -> Result<usize, Fail> {
    let mut bodies = Vec::new(alloc);
    push_ladder(alloc, &mut bodies, 0, n, 2 * n)?;
    push_ladder(alloc, &mut bodies, n, n, 2 * n + 1)?;
    push_body(alloc, &mut bodies, &[], 1, 1)?;
    push_body(alloc, &mut bodies, &[], 1, 1)?;
    rows(alloc, bodies, 1, &[n])
}

// Eight handlers, each at the top of a ladder of n / 8 bodies.
fn handlers(alloc: Global, n: u32) -> Result<usize, Fail> {
    let mut bodies = Vec::new(alloc);
    push_body(alloc, &mut bodies, &[], 1, 1)?;
    let size = n / 8;
    let mut roots = Vec::new(alloc);
    for k in 0..8_u32 {
        let first = 1 + k * size;
        roots.push(first)?;
        push_ladder(alloc, &mut bodies, first, size, 1 + 8 * size)?;
    }
    push_body(alloc, &mut bodies, &[], 1, 1)?;
    rows(alloc, bodies, 1, roots.as_slice())
}

fn accesses(alloc: Global, n: u32) -> Result<usize, Fail> {
    let mut bodies = Vec::new(alloc);
    push_body(alloc, &mut bodies, &[], 10, n / 10)?;
    push_body(alloc, &mut bodies, &[], 10, 1)?;
    rows(alloc, bodies, 10, &[1])
}

fn bodies(alloc: Global, n: u32) -> Result<usize, Fail> {
    let mut calls = Vec::new(alloc);
    for f in 0..n {
        calls.push(f + 2)?;
    }
    let mut list = Vec::new(alloc);
    push_body(alloc, &mut list, calls.as_slice(), 0, 0)?;
    push_body(alloc, &mut list, &[], 1, 1)?;
    for _ in 0..n {
        push_body(alloc, &mut list, &[], 1, 1)?;
    }
    rows(alloc, list, 1, &[1])
}

fn variables(alloc: Global, n: u32) -> Result<usize, Fail> {
    let mut bodies = Vec::new(alloc);
    push_body(alloc, &mut bodies, &[], n, 1)?;
    push_body(alloc, &mut bodies, &[], n, 1)?;
    rows(alloc, bodies, n, &[1])
}

// Many accesses of one variable, and many variables, none of which a handler touches.
fn untouched(alloc: Global, n: u32) -> Result<usize, Fail> {
    let mut boot = Vec::new(alloc);
    read_often(&mut boot, 0, n)?;
    two_bodies(alloc, bytes(alloc, n / 10 * 3, false)?, boot, Vec::new(alloc))
}

// A row for each of n / 12 variables, beside n accesses of one that has `norace`.
fn norace(alloc: Global, n: u32) -> Result<usize, Fail> {
    let count = n / 12;
    let mut objects = bytes(alloc, count, false)?;
    push_object(alloc, &mut objects, CoreType::Int(IntType::U8), true, false)?;
    let mut boot = Vec::new(alloc);
    let mut handler = Vec::new(alloc);
    read_often(&mut boot, count, n)?;
    read_each(&mut boot, 0, count)?;
    read_often(&mut handler, count, n)?;
    read_each(&mut handler, 0, count)?;
    two_bodies(alloc, objects, boot, handler)
}

// Half as many variables, each of which a handler touches and boot reads.
fn refused(alloc: Global, n: u32) -> Result<usize, Fail> {
    let mut boot = Vec::new(alloc);
    let mut handler = Vec::new(alloc);
    read_each(&mut boot, 0, n / 2)?;
    read_each(&mut handler, 0, n / 2)?;
    two_bodies(alloc, bytes(alloc, n / 2, false)?, boot, handler)
}

// A handler follows n pointers, each of which may point at any of n / 12 objects, and boot one.
fn followed(alloc: Global, n: u32) -> Result<usize, Fail> {
    let mut boot = Vec::new(alloc);
    let mut handler = Vec::new(alloc);
    follow_bytes(alloc, &mut boot, 1)?;
    follow_bytes(alloc, &mut handler, n)?;
    two_bodies(alloc, bytes(alloc, n / 12, true)?, boot, handler)
}

// Boot reads each of n / 12 objects, and follows n pointers that may point at any of as many others, all with `norace`.
fn pointed(alloc: Global, n: u32) -> Result<usize, Fail> {
    let count = n / 12;
    let mut objects = bytes(alloc, count, false)?;
    for _ in 0..count {
        push_object(alloc, &mut objects, CoreType::Int(IntType::U8), true, true)?;
    }
    let mut boot = Vec::new(alloc);
    let mut handler = Vec::new(alloc);
    read_each(&mut boot, 0, count)?;
    follow_bytes(alloc, &mut boot, n)?;
    read_each(&mut handler, 0, count)?;
    follow_bytes(alloc, &mut handler, n)?;
    two_bodies(alloc, objects, boot, handler)
}

// Boot follows one pointer that may point at any of n / 12 objects, and n that may point at none of them.
fn others(alloc: Global, n: u32) -> Result<usize, Fail> {
    let mut boot = Vec::new(alloc);
    let mut handler = Vec::new(alloc);
    follow_bytes(alloc, &mut boot, 1)?;
    follow_words(alloc, &mut boot, n)?;
    follow_bytes(alloc, &mut handler, 1)?;
    follow_words(alloc, &mut handler, n)?;
    two_bodies(alloc, bytes(alloc, n / 12, true)?, boot, handler)
}

// A struct for each object, and a pointer to each that is followed: n types, each of which is tried for n objects.
fn structs(alloc: Global, n: u32) -> Result<usize, Fail> {
    let mut types = Vec::new(alloc);
    let mut objects = Vec::new(alloc);
    let mut boot = Vec::new(alloc);
    let mut handler = Vec::new(alloc);
    for k in 0..n {
        let mut fields = Vec::new(alloc);
        fields.push(Field {
            name: Name::new(alloc, b"x")?,
            ty: CoreType::Int(IntType::U8),
        })?;
        types.push(List::new(fields))?;
        push_object(alloc, &mut objects, CoreType::Struct(k), false, true)?;
        boot.push(follow(alloc, CoreType::Struct(k))?)?;
        handler.push(follow(alloc, CoreType::Struct(k))?)?;
    }
    let mut bodies = Vec::new(alloc);
    bodies.push(body(alloc, boot)?)?;
    bodies.push(body(alloc, handler)?)?;
    rows_of(alloc, types, objects, bodies, &[1])
}
"""


def test(shape, size):
    return f"""
#[test]
fn {shape}_{size:06}(rt: HostRuntime) -> Result<(), Fail> {{
    assert_eq!(rt; {shape}(rt.alloc(), {size})?, {ROWS[shape](size)});
    Ok(())
}}
"""


def write_tests(source):
    with open(os.path.join(source, "growing.rt"), "w") as f:
        f.write(BUILDERS)
        for shape, size in SIZES.items():
            f.write(test(shape, size // 4))
            f.write(test(shape, size))
    with open(os.path.join(source, "lib.rt"), "a") as f:
        f.write("#[cfg(test)]\nmod growing;\n")


def run_tests(folder):
    """Runs the tests one after the other, and prints how long those of each shape took."""
    run = subprocess.Popen(["rt", "try", "--test"], cwd=folder, stdout=subprocess.PIPE, stderr=subprocess.STDOUT, text=True)
    begun = time.monotonic()
    took, seen = {}, []
    for line in run.stdout:
        ended = time.monotonic()
        seen.append(line)
        row = re.match(r"test growing::(\w+)_(\d+) \.\.\. (\w+)", line)
        if row:
            shape, size = row[1], int(row[2])
            took[shape, size] = ended - begun
            whole, quarter = SIZES[shape], SIZES[shape] // 4
            if row[3] != "ok":
                print(f"{shape} {size}: {row[3]}")
            if (shape, whole) in took and (shape, quarter) in took:
                print(f"{shape} {whole}: {took[shape, whole]:.2f} s, {took[shape, whole] / took[shape, quarter]:.1f} times that of {quarter}", flush=True)
        begun = ended
    if not took:
        sys.exit("no test ran: " + "".join(seen[-5:]))


def main():
    with repository_copy() as copy:
        source = os.path.join(copy, "crates", "race_report", "src")
        write_tests(source)
        run_tests(os.path.dirname(source))


main()
