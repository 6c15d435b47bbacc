#!/usr/bin/env python3
"""Compares what bodies do in the source, by `act`, with what their lowered code does, by `lower` and `open_step`: 300 bodies that are
generated from fixed seeds, with statements of every form, in one another, calls with none to five arguments of all widths and results of
all widths, and inlined calls; and a chain of 200 bodies. It adds the generator and a test to a copy of the repository and runs them by
`rt try --test`. Its arguments are the first seed and how many, 1 and 300 if there are none."""
import os
import re
import subprocess
import sys

from copies import repository_copy

FIRST = int(sys.argv[1]) if len(sys.argv) > 1 else 1
COUNT = int(sys.argv[2]) if len(sys.argv) > 2 else 300

GENERATOR = """//! Generated bodies, in the source and lowered.

use core_act::act;
use mid_code::{Action, MidCode, open_start, open_step};
use nesc_core::{
    BinOp, Body, CoreExpr, CoreStmt, CoreType, Field, Object, Place, Program, Structs, UnOp,
};
use nm_base::{IntType, List, Name, NoMemory, Pos, wrap};
use std::alloc::Global;
use std::test::Fail;
use stmt_emitter::lower;

const AT: Pos = Pos {
    file: 1,
    line: 1,
    col: 1,
};

const TYPES: [IntType; 6] = [
    IntType::I8,
    IntType::U8,
    IntType::I16,
    IntType::U16,
    IntType::I32,
    IntType::U32,
];

const PROMOTED: [IntType; 4] = [IntType::I16, IntType::U16, IntType::I32, IntType::U32];

const OPERATORS: [BinOp; 10] = [
    BinOp::Add,
    BinOp::Sub,
    BinOp::Mul,
    BinOp::Div,
    BinOp::Rem,
    BinOp::And,
    BinOp::Or,
    BinOp::Xor,
    BinOp::Shl,
    BinOp::Shr,
];

const COMPARISONS: [BinOp; 4] = [BinOp::Eq, BinOp::Ne, BinOp::Lt, BinOp::Le];

// What the generator draws from, and the locals that it has added to the body for inlined calls.
#[derive(Drop)]
struct Draw {
    alloc: Global,
    state: u64,
    locals: Vec<CoreType>,
}

impl Draw {
    // A number below n.
    fn below(&mut self, n: u64) -> u64 {
        self.state = (self.state * 1_103_515_245 + 12_345) % 2_147_483_648;
        (self.state / 64) % n
    }

    fn number_type(&mut self) -> IntType {
        TYPES[self.below(6) as usize]
    }

    fn promoted(&mut self) -> IntType {
        PROMOTED[self.below(4) as usize]
    }
}

// Which locals an expression may name: numbers by their types, and, in the body itself, its pointer, array and struct; and below which
// number the bodies that it may call are.
#[derive(Clone, Copy)]
struct Names<'a> {
    numbers: &'a [(u32, IntType)],
    whole: bool,
    callable: u32,
}

fn boxed(alloc: Global, e: CoreExpr) -> Result<Box<CoreExpr>, NoMemory> {
    Ok(Box::new(alloc, e)?)
}

fn joined(
    alloc: Global,
    op: BinOp,
    t: IntType,
    a: CoreExpr,
    n: i64,
) -> Result<CoreExpr, NoMemory> {
    let second = boxed(alloc, CoreExpr::Const(t, n))?;
    Ok(CoreExpr::Bin(op, t, boxed(alloc, a)?, second))
}

fn is_promoted(t: IntType) -> bool {
    !matches!(t, IntType::I8 | IntType::U8)
}

// The types of body f's parameters: f - 1 of them.
fn parameter_type(f: u32, k: u32) -> IntType {
    TYPES[((f * 5 + k * 3) % 6) as usize]
}

fn result_type(f: u32) -> IntType {
    TYPES[(f % 6) as usize]
}

fn constant(draw: &mut Draw, t: IntType) -> CoreExpr {
    let small = draw.below(9) as i64 - 4;
    let large = draw.below(2_000_000_000) as i64;
    let x = if draw.below(3) == 0 { large } else { small };
    CoreExpr::Const(t, wrap(t, x))
}

fn object_of(t: IntType) -> u32 {
    match t {
        IntType::U16 => 0,
        IntType::U8 => 4,
        IntType::U32 => 5,
        IntType::I16 => 6,
        IntType::I8 => 7,
        IntType::I32 => 8,
    }
}

#[cycle(generate)]
fn pointer(draw: &mut Draw, names: Names, depth: u32) -> Result<CoreExpr, NoMemory> {
    let alloc = draw.alloc;
    match draw.below(if depth == 0 { 3 } else { 6 }) {
        0 => Ok(CoreExpr::Addr(Place::Object(4))),
        1 => Ok(CoreExpr::Read(Place::Object(2), AT)),
        2 if names.whole => Ok(CoreExpr::Read(Place::Local(6), AT)),
        3 => {
            let a = pointer(draw, names, depth - 1)?;
            let b = number(draw, names, IntType::I16, depth - 1)?;
            Ok(CoreExpr::Offset(boxed(alloc, a)?, boxed(alloc, b)?, 1))
        }
        4 => {
            let a = pointer(draw, names, depth - 1)?;
            Ok(CoreExpr::Assign(Place::Object(2), boxed(alloc, a)?, AT))
        }
        _ => {
            let k = CoreExpr::Const(IntType::I16, draw.below(2) as i64);
            Ok(CoreExpr::Addr(Place::Index(
                Box::new(alloc, Place::Object(1))?,
                boxed(alloc, k)?,
            )))
        }
    }
}

#[cycle(generate)]
fn byte_place(draw: &mut Draw, names: Names, depth: u32) -> Result<Place, NoMemory> {
    let alloc = draw.alloc;
    match draw.below(5) {
        0 if draw.below(8) == 0 => {
            let p = pointer(draw, names, depth - 1)?;
            Ok(Place::Deref(boxed(alloc, p)?, CoreType::Int(IntType::U8)))
        }
        0 => {
            let p = CoreExpr::Addr(Place::Object(4));
            Ok(Place::Deref(boxed(alloc, p)?, CoreType::Int(IntType::U8)))
        }
        1 if names.whole => {
            let e = index(draw, names, depth - 1)?;
            Ok(Place::Index(
                Box::new(alloc, Place::Local(7))?,
                boxed(alloc, e)?,
            ))
        }
        2 if names.whole => Ok(Place::Field(Box::new(alloc, Place::Local(8))?, 0)),
        3 => Ok(Place::Field(Box::new(alloc, Place::Object(3))?, 0)),
        _ => {
            let e = index(draw, names, depth - 1)?;
            Ok(Place::Index(
                Box::new(alloc, Place::Object(1))?,
                boxed(alloc, e)?,
            ))
        }
    }
}

// An index, which is mostly 0 or 1.
#[cycle(generate)]
fn index(draw: &mut Draw, names: Names, depth: u32) -> Result<CoreExpr, NoMemory> {
    if draw.below(12) == 0 {
        let t = draw.number_type();
        return number(draw, names, t, depth);
    }
    let t = draw.promoted();
    let e = number(draw, names, t, depth)?;
    joined(draw.alloc, BinOp::And, t, e, 1)
}

// A place that holds a number of the type.
#[cycle(generate)]
fn place(draw: &mut Draw, names: Names, t: IntType, depth: u32) -> Result<Place, NoMemory> {
    let alloc = draw.alloc;
    if depth > 0 && t == IntType::U8 && draw.below(2) == 0 {
        return byte_place(draw, names, depth);
    }
    if t == IntType::U16 && draw.below(3) == 0 {
        return Ok(Place::Field(Box::new(alloc, Place::Object(3))?, 1));
    }
    if t == IntType::U16 && names.whole && draw.below(3) == 0 {
        return Ok(Place::Field(Box::new(alloc, Place::Local(8))?, 1));
    }
    for (x, of) in names.numbers.iter() {
        if *of == t && draw.below(2) == 0 {
            return Ok(Place::Local(*x));
        }
    }
    Ok(Place::Object(object_of(t)))
}

#[cycle(generate)]
fn leaf(draw: &mut Draw, names: Names, t: IntType) -> Result<CoreExpr, NoMemory> {
    match draw.below(4) {
        0 => Ok(constant(draw, t)),
        1 => Ok(CoreExpr::Convert(
            t,
            boxed(draw.alloc, CoreExpr::In(0x0132))?,
        )),
        _ => Ok(CoreExpr::Read(place(draw, names, t, 0)?, AT)),
    }
}

// An operand that is drawn for an operator at the type: a count has a type of its own, and few divisors are 0.
#[cycle(generate)]
fn second(
    draw: &mut Draw,
    names: Names,
    op: BinOp,
    t: IntType,
    depth: u32,
) -> Result<CoreExpr, NoMemory> {
    if matches!(op, BinOp::Shl | BinOp::Shr) {
        let count = draw.promoted();
        return number(draw, names, count, depth);
    }
    let e = number(draw, names, t, depth)?;
    if matches!(op, BinOp::Div | BinOp::Rem) && draw.below(12) > 0 {
        joined(draw.alloc, BinOp::Or, t, e, 1)
    } else {
        Ok(e)
    }
}

#[cycle(generate)]
fn binary(draw: &mut Draw, names: Names, t: IntType, depth: u32) -> Result<CoreExpr, NoMemory> {
    let alloc = draw.alloc;
    let compares = t == IntType::I16 && draw.below(2) == 0;
    let op = if compares {
        COMPARISONS[draw.below(4) as usize]
    } else {
        OPERATORS[draw.below(10) as usize]
    };
    let at = if compares { draw.promoted() } else { t };
    let a = number(draw, names, at, depth - 1)?;
    let b = second(draw, names, op, at, depth - 1)?;
    Ok(CoreExpr::Bin(op, at, boxed(alloc, a)?, boxed(alloc, b)?))
}

// A number of 16 bits with a sign.
#[cycle(generate)]
fn test(draw: &mut Draw, names: Names, depth: u32) -> Result<CoreExpr, NoMemory> {
    let alloc = draw.alloc;
    match draw.below(5) {
        0 => {
            let t = draw.number_type();
            let e = number(draw, names, t, depth - 1)?;
            Ok(CoreExpr::Un(UnOp::IsZero, t, boxed(alloc, e)?))
        }
        1 => {
            let t = draw.number_type();
            let a = number(draw, names, t, depth - 1)?;
            let b = pointer(draw, names, depth - 1)?;
            Ok(CoreExpr::And(boxed(alloc, a)?, boxed(alloc, b)?))
        }
        2 => {
            let t = draw.number_type();
            let a = test(draw, names, depth.max(1))?;
            let b = number(draw, names, t, depth - 1)?;
            Ok(CoreExpr::Or(boxed(alloc, a)?, boxed(alloc, b)?))
        }
        3 => {
            let a = pointer(draw, names, depth - 1)?;
            let b = pointer(draw, names, depth - 1)?;
            Ok(CoreExpr::Distance(boxed(alloc, a)?, boxed(alloc, b)?, 1))
        }
        _ => binary(draw, names, IntType::I16, depth),
    }
}

#[cycle(generate)]
fn update(draw: &mut Draw, names: Names, t: IntType, depth: u32) -> Result<CoreExpr, NoMemory> {
    let alloc = draw.alloc;
    let op = OPERATORS[draw.below(10) as usize];
    let at = if is_promoted(t) { t } else { draw.promoted() };
    let changed = place(draw, names, t, depth - 1)?;
    let e = second(draw, names, op, at, depth - 1)?;
    Ok(CoreExpr::Update(
        changed,
        op,
        at,
        boxed(alloc, e)?,
        draw.below(2) == 0,
        AT,
    ))
}

// A call of the highest body that gives the type and may be called.
#[cycle(generate)]
fn call(draw: &mut Draw, names: Names, t: IntType, depth: u32) -> Result<CoreExpr, NoMemory> {
    let mut f = 0;
    for g in 1..names.callable {
        if result_type(g) == t {
            f = g;
        }
    }
    if f == 0 {
        return leaf(draw, names, t);
    }
    let mut args = Vec::new(draw.alloc);
    for k in 0..(f - 1) % 6 {
        args.push(number(draw, names, parameter_type(f, k), depth - 1)?)?;
    }
    Ok(CoreExpr::Call(f, List::new(args), AT))
}

// A number of the type.
#[cycle(generate)]
fn number(draw: &mut Draw, names: Names, t: IntType, depth: u32) -> Result<CoreExpr, NoMemory> {
    let alloc = draw.alloc;
    if depth == 0 {
        return leaf(draw, names, t);
    }
    match draw.below(11) {
        0 if is_promoted(t) => {
            let op = if draw.below(2) == 0 { UnOp::Neg } else { UnOp::Not };
            let e = number(draw, names, t, depth - 1)?;
            Ok(CoreExpr::Un(op, t, boxed(alloc, e)?))
        }
        1 | 2 if is_promoted(t) => binary(draw, names, t, depth),
        3 if t == IntType::I16 => test(draw, names, depth),
        4 => {
            let of = draw.number_type();
            let e = number(draw, names, of, depth - 1)?;
            Ok(CoreExpr::Convert(t, boxed(alloc, e)?))
        }
        5 => {
            let a = number(draw, names, IntType::I16, depth - 1)?;
            let b = number(draw, names, t, depth - 1)?;
            let c = number(draw, names, t, depth - 1)?;
            Ok(CoreExpr::Cond(
                boxed(alloc, a)?,
                boxed(alloc, b)?,
                boxed(alloc, c)?,
            ))
        }
        6 => {
            let at = place(draw, names, t, depth - 1)?;
            let e = number(draw, names, t, depth - 1)?;
            Ok(CoreExpr::Assign(at, boxed(alloc, e)?, AT))
        }
        7 => update(draw, names, t, depth),
        8 => call(draw, names, t, depth),
        9 => {
            let of = draw.number_type();
            let a = number(draw, names, of, depth - 1)?;
            let b = number(draw, names, t, depth - 1)?;
            Ok(CoreExpr::Comma(boxed(alloc, a)?, boxed(alloc, b)?))
        }
        10 if t == IntType::U8 => Ok(CoreExpr::Post(0)),
        10 if t == IntType::U16 => {
            let p = pointer(draw, names, depth - 1)?;
            Ok(CoreExpr::Convert(t, boxed(alloc, p)?))
        }
        _ => Ok(CoreExpr::Read(place(draw, names, t, depth)?, AT)),
    }
}

fn shown(draw: &mut Draw, names: Names) -> Result<CoreStmt, NoMemory> {
    let t = draw.number_type();
    let e = number(draw, names, t, 2)?;
    let word = CoreExpr::Convert(IntType::U16, boxed(draw.alloc, e)?);
    Ok(CoreStmt::Eval(CoreExpr::Out(
        0x0130,
        boxed(draw.alloc, word)?,
    )))
}

// Where a statement stands: how it may be left, and what a return gives.
#[derive(Clone, Copy)]
struct Place_of {
    breaks: bool,
    continues: bool,
    gives: Option<IntType>,
}

#[cycle(statements)]
fn list(draw: &mut Draw, names: Names, at: Place_of, count: u64, depth: u32) -> Result<List<CoreStmt>, NoMemory> {
    let mut all = Vec::new(draw.alloc);
    for _ in 0..count {
        all.push(statement(draw, names, at, depth)?)?;
    }
    Ok(List::new(all))
}

#[cycle(statements)]
fn inner(draw: &mut Draw, names: Names, at: Place_of, depth: u32) -> Result<Box<CoreStmt>, NoMemory> {
    let alloc = draw.alloc;
    let s = statement(draw, names, at, depth)?;
    Ok(Box::new(alloc, s)?)
}

#[cycle(statements)]
fn turns(draw: &mut Draw, names: Names, at: Place_of, depth: u32) -> Result<CoreStmt, NoMemory> {
    let within = Place_of {
        breaks: true,
        continues: true,
        gives: at.gives,
    };
    let first = draw.below(2) == 0;
    let t = draw.number_type();
    let test = number(draw, names, t, 2)?;
    let step = if first && draw.below(2) == 0 {
        Some(number(draw, names, IntType::U16, 2)?)
    } else {
        None
    };
    let body = inner(draw, names, within, depth - 1)?;
    Ok(CoreStmt::Loop {
        first,
        test,
        step,
        body,
    })
}

#[cycle(statements)]
fn switch(draw: &mut Draw, names: Names, at: Place_of, depth: u32) -> Result<CoreStmt, NoMemory> {
    let within = Place_of {
        breaks: true,
        continues: at.continues,
        gives: at.gives,
    };
    let t = draw.number_type();
    let e = number(draw, names, t, 1)?;
    let count = 1 + draw.below(3);
    let body = list(draw, names, within, count, depth - 1)?;
    let mut cases = Vec::new(draw.alloc);
    for _ in 0..draw.below(5) {
        let value = if draw.below(3) == 0 {
            None
        } else {
            Some(draw.below(5) as i64 - 2)
        };
        cases.push((value, draw.below(count) as u32))?;
    }
    Ok(CoreStmt::Switch(e, List::new(cases), body))
}

// An inlined call with locals of its own, and what it gives shown.
#[cycle(statements)]
fn inlined(draw: &mut Draw, names: Names, depth: u32) -> Result<CoreStmt, NoMemory> {
    let alloc = draw.alloc;
    let first = draw.locals.as_slice().len() as u32;
    let a = draw.number_type();
    let b = draw.number_type();
    let gives = draw.number_type();
    draw.locals.push(CoreType::Int(a))?;
    draw.locals.push(CoreType::Int(b))?;
    draw.locals.push(CoreType::Int(gives))?;
    let mut args = Vec::new(alloc);
    args.push(number(draw, names, a, 1)?)?;
    let own = [(first, a), (first + 1, b)];
    let within = Names {
        numbers: own.as_slice(),
        whole: false,
        callable: names.callable,
    };
    let at = Place_of {
        breaks: false,
        continues: false,
        gives: Some(gives),
    };
    let body = inner(draw, within, at, depth - 1)?;
    let mut both = Vec::new(alloc);
    both.push(CoreStmt::Here {
        args: List::new(args),
        first,
        count: 2,
        body,
    })?;
    let given = CoreExpr::Read(Place::Local(first + 2), AT);
    let word = CoreExpr::Convert(IntType::U16, boxed(alloc, given)?);
    both.push(CoreStmt::Eval(CoreExpr::Out(0x0130, boxed(alloc, word)?)))?;
    Ok(CoreStmt::Block(List::new(both)))
}

// A way out, mostly behind a test.
fn left(draw: &mut Draw, names: Names, out: CoreStmt) -> Result<CoreStmt, NoMemory> {
    let alloc = draw.alloc;
    if draw.below(4) == 0 {
        return Ok(out);
    }
    let test = number(draw, names, IntType::I16, 1)?;
    let other = shown(draw, names)?;
    Ok(CoreStmt::If(
        test,
        Box::new(alloc, out)?,
        Box::new(alloc, other)?,
    ))
}

#[cycle(statements)]
fn statement(draw: &mut Draw, names: Names, at: Place_of, depth: u32) -> Result<CoreStmt, NoMemory> {
    if depth == 0 {
        return shown(draw, names);
    }
    match draw.below(18) {
        0 | 1 => {
            let count = draw.below(4);
            Ok(CoreStmt::Block(list(draw, names, at, count, depth - 1)?))
        }
        2 => {
            let test = number(draw, names, IntType::I16, 2)?;
            let a = inner(draw, names, at, depth - 1)?;
            let b = inner(draw, names, at, depth - 1)?;
            Ok(CoreStmt::If(test, a, b))
        }
        3 | 4 => turns(draw, names, at, depth),
        5 => switch(draw, names, at, depth),
        6 | 14 | 15 if at.breaks => left(draw, names, CoreStmt::Break),
        7 | 16 if at.continues => left(draw, names, CoreStmt::Continue),
        8 if draw.below(3) == 0 => match at.gives {
            Some(t) if draw.below(4) > 0 => {
                let e = number(draw, names, t, 2)?;
                Ok(CoreStmt::Return(Some(e)))
            }
            Some(_) | None => Ok(CoreStmt::Return(None)),
        },
        9 | 10 | 17 => Ok(CoreStmt::Atomic(inner(draw, names, at, depth - 1)?)),
        11 => match names.numbers {
            [(x, _), ..] => Ok(CoreStmt::Clear(*x)),
            [] => shown(draw, names),
        },
        12 => inlined(draw, names, depth),
        _ => shown(draw, names),
    }
}

fn body(
    alloc: Global,
    params: u32,
    locals: Vec<CoreType>,
    gives: CoreType,
    code: CoreStmt,
) -> Result<Body, NoMemory> {
    Ok(Body {
        name: Name::new(alloc, b"f")?,
        params,
        locals: List::new(locals),
        result: gives,
        code,
        is_async: false,
        is_item: false,
    })
}

fn empty_atomic(alloc: Global) -> Result<CoreStmt, NoMemory> {
    let nothing = CoreStmt::Block(List::new(Vec::new(alloc)));
    Ok(CoreStmt::Atomic(Box::new(alloc, nothing)?))
}

// Body f, which takes (f - 1) % 6 numbers, and calls lower bodies alone.
fn called(alloc: Global, seed: u64, f: u32) -> Result<Body, NoMemory> {
    let mut draw = Draw {
        alloc,
        state: seed + 7 * u64::from(f),
        locals: Vec::new(alloc),
    };
    let mut numbers = Vec::new(alloc);
    let mut locals = Vec::new(alloc);
    let count = (f - 1) % 6;
    for k in 0..count {
        numbers.push((k, parameter_type(f, k)))?;
        locals.push(CoreType::Int(parameter_type(f, k)))?;
    }
    let names = Names {
        numbers: numbers.as_slice(),
        whole: false,
        callable: f,
    };
    let e = number(&mut draw, names, result_type(f), 3)?;
    body(alloc, count, locals, CoreType::Int(result_type(f)), CoreStmt::Return(Some(e)))
}

// The body that is compared, which gives nothing.
fn compared(alloc: Global, seed: u64, callable: u32) -> Result<Body, NoMemory> {
    let mut locals = Vec::new(alloc);
    for t in TYPES.iter() {
        locals.push(CoreType::Int(*t))?;
    }
    locals.push(CoreType::Pointer(Box::new(alloc, CoreType::Int(IntType::U8))?))?;
    locals.push(CoreType::Array(Box::new(alloc, CoreType::Int(IntType::U8))?, 3))?;
    locals.push(CoreType::Struct(0))?;
    let mut draw = Draw {
        alloc,
        state: seed,
        locals,
    };
    let numbers = [
        (0, IntType::I8),
        (1, IntType::U8),
        (2, IntType::I16),
        (3, IntType::U16),
        (4, IntType::I32),
        (5, IntType::U32),
    ];
    let names = Names {
        numbers: numbers.as_slice(),
        whole: true,
        callable,
    };
    let at = Place_of {
        breaks: false,
        continues: false,
        gives: None,
    };
    let all = list(&mut draw, names, at, 4, 5)?;
    body(alloc, 0, draw.locals, CoreType::Void, CoreStmt::Block(all))
}

fn object(alloc: Global, ty: CoreType, addr: u16) -> Result<Object, NoMemory> {
    Ok(Object {
        name: Name::new(alloc, b"x")?,
        ty,
        addr,
        norace: false,
        taken: true,
    })
}

fn field(alloc: Global, t: IntType) -> Result<Field, NoMemory> {
    Ok(Field {
        name: Name::new(alloc, b"m")?,
        ty: CoreType::Int(t),
    })
}

fn objects(alloc: Global) -> Result<Vec<Object>, NoMemory> {
    let mut all = Vec::new(alloc);
    all.push(object(alloc, CoreType::Int(IntType::U16), 0x1100)?)?;
    let element = Box::new(alloc, CoreType::Int(IntType::U8))?;
    all.push(object(alloc, CoreType::Array(element, 2), 0x1102)?)?;
    let to = Box::new(alloc, CoreType::Int(IntType::U8))?;
    all.push(object(alloc, CoreType::Pointer(to), 0x1104)?)?;
    all.push(object(alloc, CoreType::Struct(0), 0x1106)?)?;
    all.push(object(alloc, CoreType::Int(IntType::U8), 0x110A)?)?;
    all.push(object(alloc, CoreType::Int(IntType::U32), 0x110C)?)?;
    all.push(object(alloc, CoreType::Int(IntType::I16), 0x1110)?)?;
    all.push(object(alloc, CoreType::Int(IntType::I8), 0x1112)?)?;
    all.push(object(alloc, CoreType::Int(IntType::I32), 0x1114)?)?;
    Ok(all)
}

fn program(alloc: Global, bodies: Vec<Body>) -> Result<Program, NoMemory> {
    let mut fields = Vec::new(alloc);
    fields.push(field(alloc, IntType::U8)?)?;
    fields.push(field(alloc, IntType::U16)?)?;
    let mut structs = Vec::new(alloc);
    structs.push(List::new(fields))?;
    let mut tasks = Vec::new(alloc);
    tasks.push(0)?;
    Ok(Program {
        structs: Structs {
            structs: List::new(structs),
        },
        objects: List::new(objects(alloc)?),
        bodies: List::new(bodies),
        tasks: List::new(tasks),
        handlers: List::new(Vec::new(alloc)),
        boot: 0,
        warnings: List::new(Vec::new(alloc)),
    })
}

fn generated(alloc: Global, seed: u64) -> Result<Program, NoMemory> {
    let mut bodies = Vec::new(alloc);
    bodies.push(body(alloc, 0, Vec::new(alloc), CoreType::Void, empty_atomic(alloc)?)?)?;
    for f in 1..13 {
        bodies.push(called(alloc, seed, f)?)?;
    }
    bodies.push(compared(alloc, seed, 13)?)?;
    program(alloc, bodies)
}

fn asks(action: Action) -> bool {
    matches!(action, Action::Load(_, _) | Action::In(_) | Action::Post(_))
}

// What function f does in at most `most` steps, and whether it ended or waits.
fn runs(alloc: Global, c: &MidCode, f: u32, answers: &[u16], most: u32) -> Result<(Vec<Action>, bool), NoMemory> {
    let mut state = open_start(alloc, c, f)?;
    let mut done = Vec::new(alloc);
    let mut next = 0;
    for _ in 0..most {
        if state.calls.as_slice().is_empty() {
            return Ok((done, true));
        }
        let answer = if next < answers.len() { answers[next] } else { 0 };
        if let Some(action) = open_step(alloc, c, &mut state, answer)? {
            done.push(action)?;
            if matches!(action, Action::Fault(_)) {
                return Ok((done, true));
            }
            if asks(action) {
                if next == answers.len() {
                    return Ok((done, true));
                }
                next += 1;
            }
        }
    }
    Ok((done, false))
}

// Words as ports, queues and variables of one byte or two might give them: the answer to a Post and to a byte is a byte.
fn given(alloc: Global, seed: u64) -> Result<Vec<u16>, NoMemory> {
    let mut draw = Draw {
        alloc,
        state: seed + 3,
        locals: Vec::new(alloc),
    };
    let mut all = Vec::new(alloc);
    for _ in 0..300 {
        let word = if draw.below(2) == 0 { draw.below(4) } else { draw.below(65_536) };
        all.push(word as u16)?;
    }
    Ok(all)
}

fn is_start(a: &[Action], b: &[Action]) -> bool {
    if b.len() < a.len() {
        return false;
    }
    for k in 0..a.len() {
        if a[k] != b[k] {
            return false;
        }
    }
    true
}

// Whether function f of the code does what body f does: exactly the same, or, where a loop was cut, the same as far as that goes.
fn agrees(alloc: Global, p: &Program, f: u32, seed: u64) -> Result<(bool, bool, usize), NoMemory> {
    let answers = given(alloc, seed)?;
    let few = act(alloc, p, f, answers.as_slice(), 12)?;
    let more = act(alloc, p, f, answers.as_slice(), 24)?;
    let whole = few.len() == more.len();
    let c = lower(alloc, p)?;
    let (done, ended) = runs(alloc, &c, f, answers.as_slice(), 200_000)?;
    let same = is_start(few.as_slice(), done.as_slice());
    if whole {
        Ok((same && ended && few.len() == done.len(), whole, few.len()))
    } else {
        Ok((same && is_start(more.as_slice(), done.as_slice()), whole, few.len()))
    }
}

fn chain(alloc: Global, calls: u32) -> Result<Program, NoMemory> {
    let mut bodies = Vec::new(alloc);
    bodies.push(body(alloc, 0, Vec::new(alloc), CoreType::Void, empty_atomic(alloc)?)?)?;
    for f in 1..calls {
        let next = CoreExpr::Call(f + 1, List::new(Vec::new(alloc)), AT);
        let one = CoreExpr::Const(IntType::I32, 70_000);
        let sum = CoreExpr::Bin(BinOp::Add, IntType::I32, boxed(alloc, next)?, boxed(alloc, one)?);
        bodies.push(body(alloc, 0, Vec::new(alloc), CoreType::Int(IntType::I32), CoreStmt::Return(Some(sum)))?)?;
    }
    let last = CoreExpr::Convert(IntType::I32, boxed(alloc, CoreExpr::In(0x0132))?);
    bodies.push(body(alloc, 0, Vec::new(alloc), CoreType::Int(IntType::I32), CoreStmt::Return(Some(last)))?)?;
    let got = CoreExpr::Call(1, List::new(Vec::new(alloc)), AT);
    let word = CoreExpr::Convert(IntType::U16, boxed(alloc, got)?);
    let out = CoreStmt::Eval(CoreExpr::Out(0x0130, boxed(alloc, word)?));
    bodies.push(body(alloc, 0, Vec::new(alloc), CoreType::Void, out)?)?;
    program(alloc, bodies)
}

#[test]
fn a_chain_of_200_bodies(rt: HostRuntime) -> Result<(), Fail> {
    let p = chain(rt.alloc(), 200)?;
    let found = agrees(rt.alloc(), &p, 201, 5)?;
    assert!(rt; found.0);
    assert!(rt; found.1);
    assert_eq!(rt; found.2, 402);
    Ok(())
}
"""


def test(seed):
    return f"""
#[test]
fn seed_{seed:06}(rt: HostRuntime) -> Result<(), Fail> {{
    let p = generated(rt.alloc(), {seed * 7919})?;
    let found = agrees(rt.alloc(), &p, 13, {seed})?;
    assert!(rt; found.0);
    Ok(())
}}
"""


def main():
    with repository_copy() as copy:
        source = os.path.join(copy, "crates", "lowered_rows", "src")
        crates = os.path.join(copy, "crates.txt")
        with open(crates) as f:
            lines = f.read().replace("lowered_rows: ", "lowered_rows: stmt_emitter lower_form lower_stmt ")
        with open(crates, "w") as f:
            f.write(lines)
        with open(os.path.join(source, "bodies.rt"), "w") as f:
            f.write(GENERATOR + "".join(test(seed) for seed in range(FIRST, FIRST + COUNT)))
        with open(os.path.join(source, "lib.rt"), "a") as f:
            f.write("#[cfg(test)]\nmod bodies;\n")
        run = subprocess.run(["rt", "try", "--test"], cwd=os.path.dirname(source), capture_output=True, text=True)
        rows = re.findall(r"bodies::(\w+) \.\.\. (\w+)", run.stdout + run.stderr)
    if not rows:
        sys.exit(run.stdout + run.stderr)
    for name, found in rows:
        if found != "ok":
            print(f"{name}: {found}")
    agreed = sum(found == "ok" for name, found in rows)
    print(f"{agreed} of {len(rows)} agree")
    sys.exit(agreed < len(rows))


main()
