#!/bin/bash
# Times operators on vectors and on values of every kind: copies the repository to a scratch folder, adds a small
# program there, and prints nanoseconds and growths of memory a call, as LLVM builds it. The operator on two literals
# by themselves is timed beside that on two values that are literals.
set -euo pipefail
. "$(dirname "$0")/calls.sh"

start wgsl_rules wgsl_scalar wgsl_values wgsl_layout wgsl_store wgsl_ops
cat > "$crate/src/main.rt" <<'RUST'
//! Makes one call on operators again and again: its name and how often are the arguments.
#![tactic(auto)]

ghost use Rattle.std.specs.Prelude.{◌≡◌, IfOk};
ghost use Rattle.wgsl_rules.specs.Types as types;
ghost use Rattle.wgsl_rules.specs.Values.{IsStorable, IsWellFormed, type_of};
ghost use Rattle.wgsl_scalar.specs.Literals.{literal_of};
ghost use Rattle.wgsl_values.specs.View.{value_of, vec_view};

use std::alloc::{AllocError, Global};
use std::env;
use std::io;
use std::process::Abort;
use std::time::Instant;
use wgsl_ops::{Compwise, Operators, VecOperators};
use wgsl_rules::ShaderStage;
use wgsl_scalar::{Error, LiteralInstance};
use wgsl_scalar::LiteralInstance::I32;
use wgsl_values::{Instance, VecInstance};

/// A call that is timed.
#[derive(Clone, Copy, PartialEq, Eq)]
enum Call {
    Add,
    Less,
    ShiftLeft,
}

fn number_of(value: &Instance) -> u32 {
    match value {
        Instance::Literal(I32(n)) => n.unsigned_abs(),
        _ => 1,
    }
}

#[inline(never)]
fn literals(count: u32, sides: &[LiteralInstance; 2]) -> Result<u32, Error> {
    let mut sum: u32 = 0;
    for i in 0..count {
        let answer = sides[0].op_add(&sides[(i % 2) as usize], ShaderStage::Exec)?;
        sum = sum.wrapping_add(number_of(&Instance::from(answer)));
    }
    Ok(sum)
}

#[inline(never)]
fn values(
    count: u32,
    alloc: Global,
    call: Call,
    left: &Instance,
    right: &Instance,
) -> Result<u32, Error>
    requires left { IsWellFormed (value_of left.now) }
    requires right { IsWellFormed (value_of right.now) }
{
    let mut sum: u32 = 0;
    for _ in 0..count {
        let answer = match call {
            Call::Add => left.op_add(alloc, right, ShaderStage::Exec)?,
            Call::Less => left.op_lt(alloc, right)?,
            Call::ShiftLeft => left.op_shl(alloc, right, ShaderStage::Exec)?,
        };
        sum = sum.wrapping_add(number_of(&answer));
    }
    Ok(sum)
}

#[inline(never)]
fn dots(count: u32, alloc: Global, left: &VecInstance, right: &VecInstance) -> Result<u32, Error>
    requires left { IsWellFormed (vec_view left.now) }
    requires right { IsWellFormed (vec_view right.now) }
{
    let mut sum: u32 = 0;
    for _ in 0..count {
        let answer = left.dot(alloc, right, ShaderStage::Exec)?;
        sum = sum.wrapping_add(number_of(&Instance::from(answer)));
    }
    Ok(sum)
}

fn turned(literal: &LiteralInstance) -> Result<LiteralInstance, Error>
    ensures { IfOk result (λ l. type_of (literal_of l) ≡ types.i32) }
{
    match *literal {
        I32(number) => Ok(I32(!number)),
        _ => Err(Error::AddOverflow),
    }
}

#[inline(never)]
fn in_place(count: u32, alloc: Global, vector: &mut VecInstance) -> Result<u32, Error>
    requires { IsStorable (vec_view vector.old) }
{
    for _ in 0..count {
        vector.compwise_unary_mut(alloc, turned)?;
    }
    Ok(1)
}

fn four(rt: &impl Abort, alloc: Global, numbers: [LiteralInstance; 4]) -> Result<VecInstance, AllocError>
    ensures { IfOk result (λ v. IsStorable (vec_view v)) }
{
    let mut components = Vec::with_capacity(alloc, 4)?;
    for n in numbers {
        components.push(Instance::from(n))?;
    }
    assert!(rt; VecInstance::can_make(&components));
    Ok(VecInstance::new(components))
}

fn value_of_four(rt: &impl Abort, alloc: Global, numbers: [LiteralInstance; 4]) -> Result<Instance, AllocError>
    ensures { IfOk result (λ v. IsWellFormed (value_of v)) }
{
    let value = Instance::from(four(rt, alloc, numbers)?);
    assert!(rt; value.is_well_formed());
    Ok(value)
}

fn answer(rt: &impl Abort, alloc: Global, name: &str, count: u32) -> Result<u32, Error> {
    let ones = [I32(1), I32(2), I32(3), I32(4)];
    let twos = [I32(5), I32(6), I32(7), I32(8)];
    let counts = [LiteralInstance::U32(1), LiteralInstance::U32(2), LiteralInstance::U32(3), LiteralInstance::U32(4)];
    let left = value_of_four(rt, alloc, ones)?;
    let right = value_of_four(rt, alloc, twos)?;
    let number = Instance::from(77i32);
    let second = Instance::from(5i32);
    assert!(rt; number.is_well_formed());
    assert!(rt; second.is_well_formed());
    match name {
        "add_of_literals" => literals(count, &[I32(77), I32(5)]),
        "add_of_values_that_are_literals" => values(count, alloc, Call::Add, &number, &second),
        "add_of_vectors" => values(count, alloc, Call::Add, &left, &right),
        "add_of_a_vector_and_a_scalar" => values(count, alloc, Call::Add, &left, &number),
        "less_of_vectors" => values(count, alloc, Call::Less, &left, &right),
        "shift_left_of_vectors" => values(count, alloc, Call::ShiftLeft, &left, &value_of_four(rt, alloc, counts)?),
        "dot" => dots(count, alloc, &four(rt, alloc, ones)?, &four(rt, alloc, twos)?),
        "compwise_in_place" => in_place(count, alloc, &mut four(rt, alloc, ones)?),
        _ => Ok(0),
    }
}

fn main(rt: HostRuntime) -> io::Result<()> {
    let mut words = env::args(&rt)?;
    let _program = words.next();
    let (Some(name), Some(count)) = (words.next(), words.next()) else {
        return Ok(());
    };
    let Ok(count) = count.as_str().parse::<u32>() else {
        return Ok(());
    };
    let start = Instant::now(&rt)?;
    let sum = answer(&rt, rt.alloc(), name.as_str(), count);
    let nanos = start.elapsed(&rt)?.as_nanos();
    println!(rt; "{nanos} {sum:?}")?;
    Ok(())
}
RUST
mkdir "$crate/proofs/in_place"
cat > "$crate/proofs/in_place/Invariants.antt" <<'ANTT'
use Rattle.wgsl_rules.specs.Values.{IsStorable}
use Rattle.wgsl_values.specs.View.{vec_view}
use Rattle.wgsl_bench.proofs.in_place.Given as goal

abbrev pub invariant-loop : goal.invariant-loop
invariant-loop l = IsStorable (vec_view l.vector)
ANTT

build
for name in add_of_literals add_of_values_that_are_literals add_of_vectors add_of_a_vector_and_a_scalar \
    less_of_vectors shift_left_of_vectors dot compwise_in_place; do
    report 50000 "$name"
done
