#!/bin/bash
# Times builtin functions and atomics: copies the repository to a scratch folder, adds a small program there, and prints
# nanoseconds and growths of memory a call, as LLVM builds it. Before each atomic the program tests that its pointer is
# kept, which is timed alone too.
set -euo pipefail
. "$(dirname "$0")/calls.sh"

start wgsl_rules wgsl_scalar wgsl_values wgsl_layout wgsl_store wgsl_session wgsl_ops wgsl_types
cat > "$crate/src/main.rt" <<'RUST'
//! Makes one call of a builtin function again and again: its name and how often are the arguments.
#![tactic(auto)]

ghost use Rattle.std.specs.Prelude.{IfOk};
ghost use Rattle.wgsl_rules.specs.Values.{IsWellFormed};
ghost use Rattle.wgsl_values.specs.View.{value_of};

use std::alloc::{AllocError, Global};
use std::env;
use std::io;
use std::process::Abort;
use std::time::Instant;
use wgsl_types::AccessMode::ReadWrite;
use wgsl_types::AddressSpace::Storage;
use wgsl_types::LiteralInstance::{I32, U32};
use wgsl_types::{
    AtomicInstance, Error, Instance, LiteralInstance, PtrInstance, RefInstance, References,
    ShaderStage, Store, Type, VecInstance, abs, atomicCompareExchangeWeak, atomicSub, bitcast_t,
    clamp, dot, is_bitcast_target, min, pack4xI8Clamp, unpack4xU8,
};

/// A builtin function that is timed.
#[derive(Clone, Copy, PartialEq, Eq)]
enum Call {
    Magnitude,
    Minimum,
    Pack,
    Unpack,
    Dot,
    Clamp,
}

fn number_of(value: &Instance) -> u32 {
    match value {
        Instance::Literal(I32(n)) => n.unsigned_abs(),
        Instance::Literal(U32(n)) => *n,
        _ => 1,
    }
}

#[inline(never)]
fn functions(
    count: u32,
    alloc: Global,
    call: Call,
    left: &Instance,
    right: &Instance,
) -> Result<u32, Error>
    requires left { IsWellFormed (value_of left.now) }
    requires right { IsWellFormed (value_of right.now) }
{
    let mut sum: u32 = 0;
    for _ in 0..count {
        let answer = match call {
            Call::Magnitude => abs(alloc, left)?,
            Call::Minimum => min(alloc, left, right)?,
            Call::Pack => pack4xI8Clamp(alloc, left)?,
            Call::Unpack => unpack4xU8(alloc, left)?,
            Call::Dot => dot(alloc, left, right, ShaderStage::Exec)?,
            Call::Clamp => clamp(alloc, left, right, right)?,
        };
        sum = sum.wrapping_add(number_of(&answer));
    }
    Ok(sum)
}

#[inline(never)]
fn casts(
    rt: &impl Abort,
    count: u32,
    alloc: Global,
    ty: &Type,
    value: &Instance,
) -> Result<u32, Error>
    requires { IsWellFormed (value_of value.now) }
{
    let mut sum: u32 = 0;
    for _ in 0..count {
        assert!(rt; is_bitcast_target(ty));
        let answer = bitcast_t(alloc, ty, value)?;
        sum = sum.wrapping_add(number_of(&answer));
    }
    Ok(sum)
}

#[inline(never)]
fn tests(count: u32, store: &Store, p: &Instance) -> u32 {
    let mut sum: u32 = 0;
    for _ in 0..count {
        if store.holds_value(p) {
            sum = sum.wrapping_add(1);
        }
    }
    sum
}

#[inline(never)]
fn differences(
    rt: &impl Abort,
    count: u32,
    alloc: Global,
    store: &mut Store,
    p: &Instance,
) -> Result<u32, Error> {
    let mut sum: u32 = 0;
    for _ in 0..count {
        let one = Instance::from(1u32);
        assert!(rt; store.holds_value(p));
        let old = atomicSub(alloc, store, p, &one)?;
        sum = sum.wrapping_add(number_of(&old));
    }
    Ok(sum)
}

#[inline(never)]
fn exchanges(
    rt: &impl Abort,
    count: u32,
    alloc: Global,
    store: &mut Store,
    p: &Instance,
) -> Result<u32, Error> {
    let mut sum: u32 = 0;
    for i in 0..count {
        let comparand = Instance::from(i);
        let new = Instance::from(i.wrapping_add(1));
        assert!(rt; store.holds_value(p));
        let answer = atomicCompareExchangeWeak(alloc, store, p, &comparand, &new)?;
        sum = sum.wrapping_add(number_of(&answer));
    }
    Ok(sum)
}

fn vector(rt: &impl Abort, alloc: Global, numbers: &[LiteralInstance]) -> Result<Instance, AllocError>
    ensures { IfOk result (λ v. IsWellFormed (value_of v)) }
{
    let mut components = Vec::with_capacity(alloc, 4)?;
    for n in numbers {
        components.push(Instance::from(*n))?;
    }
    assert!(rt; VecInstance::can_make(&components));
    let value = Instance::from(VecInstance::new(components));
    assert!(rt; value.is_well_formed());
    Ok(value)
}

/// A pointer to an atomic of 0 in a new cell.
fn pointer(rt: &impl Abort, alloc: Global, store: &mut Store) -> Result<Instance, Error> {
    let zero = Instance::from(0u32);
    assert!(rt; AtomicInstance::can_make(&zero));
    let value = Instance::from(AtomicInstance::new(alloc, zero)?);
    assert!(rt; value.is_storable());
    assert!(rt; store.holds_value(&value));
    let reference: RefInstance = References::new(alloc, store, value, Storage, ReadWrite)?;
    Ok(Instance::from(PtrInstance::from(reference)))
}

fn answer(rt: &impl Abort, alloc: Global, name: &str, count: u32) -> Result<u32, Error> {
    let left = vector(rt, alloc, &[I32(-200), I32(200), I32(-1), I32(5)])?;
    let right = vector(rt, alloc, &[I32(1), I32(2), I32(3), I32(4)])?;
    let two = vector(rt, alloc, &[I32(-1), I32(2)])?;
    let number = Instance::from(77u32);
    let second = Instance::from(5u32);
    assert!(rt; number.is_well_formed());
    assert!(rt; second.is_well_formed());
    let mut store = Store::new(alloc);
    let p = pointer(rt, alloc, &mut store)?;
    match name {
        "abs_of_four" => functions(count, alloc, Call::Magnitude, &left, &right),
        "min_of_four" => functions(count, alloc, Call::Minimum, &left, &right),
        "clamp_of_scalars" => functions(count, alloc, Call::Clamp, &number, &second),
        "pack4xI8Clamp" => functions(count, alloc, Call::Pack, &left, &right),
        "unpack4xU8" => functions(count, alloc, Call::Unpack, &number, &second),
        "bitcast_of_two" => {
            let ty = Type::Vec(2, Box::new(alloc, Type::U32).map_err(AllocError::from)?);
            casts(rt, count, alloc, &ty, &two)
        }
        "dot_of_four" => functions(count, alloc, Call::Dot, &left, &right),
        "holds_value" => Ok(tests(count, &store, &p)),
        "atomicSub" => differences(rt, count, alloc, &mut store, &p),
        "atomicCompareExchangeWeak" => exchanges(rt, count, alloc, &mut store, &p),
        _ => Ok(0),
    }
}

fn main(rt: HostRuntime) -> io::Result<()> {
    let mut words = env::args(&rt)?;
    let _program = words.next();
    let (Some(name), Some(count)) = (words.next(), words.next()) else {
        return Ok(());
    };
    let Ok(count) = count.as_str().parse::<u32>() else {
        return Ok(());
    };
    let start = Instant::now(&rt)?;
    let sum = answer(&rt, rt.alloc(), name.as_str(), count);
    let nanos = start.elapsed(&rt)?.as_nanos();
    println!(rt; "{nanos} {sum:?}")?;
    Ok(())
}
RUST

build
for name in abs_of_four min_of_four clamp_of_scalars pack4xI8Clamp unpack4xU8 bitcast_of_two dot_of_four holds_value \
    atomicSub atomicCompareExchangeWeak; do
    report 50000 "$name"
done
