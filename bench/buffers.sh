#!/bin/bash
# Times buffers of values: copies the repository to a scratch folder, adds a small program there, and prints
# nanoseconds and growths of memory a call, as LLVM builds it.
set -euo pipefail
. "$(dirname "$0")/calls.sh"

start wgsl_rules wgsl_scalar wgsl_values wgsl_layout wgsl_store
add_types
cat > "$crate/src/main.rt" <<'RUST'
//! Takes values to bytes and back again and again: the type, the way and how often are the arguments.
#![tactic(auto)]

mod types;

ghost use Rattle.wgsl_rules.specs.Values.{IsWellFormed};
ghost use Rattle.wgsl_values.specs.View.{value_of};

use std::alloc::{AllocError, Global};
use std::env;
use std::io;
use std::process::Abort;
use std::time::Instant;
use types::{elements, members, nested, pair};
use wgsl_rules::Type;
use wgsl_scalar::Error;
use wgsl_store::Buffers;
use wgsl_values::Instance;

#[inline(never)]
fn to_buffers(count: u32, alloc: Global, value: &Instance) -> Result<u32, Error>
    requires { IsWellFormed (value_of value.now) }
{
    let mut sum: u32 = 0;
    for i in 0..count {
        if let Some(bytes) = value.to_buffer(alloc)? {
            if let Some(byte) = bytes.get((i % 4) as usize) {
                sum = sum.wrapping_add(u32::from(*byte));
            }
        }
    }
    Ok(sum)
}

#[inline(never)]
fn from_buffers(count: u32, alloc: Global, bytes: &[u8], ty: &Type) -> Result<u32, Error> {
    let mut sum: u32 = 0;
    for _ in 0..count {
        if Instance::from_buffer(alloc, bytes, ty)?.is_some() {
            sum = sum.wrapping_add(1);
        }
    }
    Ok(sum)
}

fn type_named(alloc: Global, name: &str) -> Result<Type, AllocError> {
    match name {
        "pair" => pair(alloc),
        "elements" => elements(alloc),
        "nested" => nested(alloc),
        _ => members(alloc),
    }
}

fn answer(
    rt: &impl Abort,
    alloc: Global,
    ty: &Type,
    way: &str,
    count: u32,
) -> Result<u32, Error> {
    let Some(size) = ty.size_of() else {
        return Ok(0);
    };
    let bytes = vec![in alloc; 7u8; size as usize]?;
    if way == "from" {
        return from_buffers(count, alloc, &bytes, ty);
    }
    let Some(value) = Instance::from_buffer(alloc, &bytes, ty)? else {
        return Ok(0);
    };
    assert!(rt; value.is_well_formed());
    to_buffers(count, alloc, &value)
}

fn main(rt: HostRuntime) -> io::Result<()> {
    let mut words = env::args(&rt)?;
    let _program = words.next();
    let (Some(name), Some(way), Some(count)) = (words.next(), words.next(), words.next()) else {
        return Ok(());
    };
    let Ok(count) = count.as_str().parse::<u32>() else {
        return Ok(());
    };
    let ty = type_named(rt.alloc(), name.as_str())?;
    let start = Instant::now(&rt)?;
    let sum = answer(&rt, rt.alloc(), &ty, way.as_str(), count);
    let nanos = start.elapsed(&rt)?.as_nanos();
    println!(rt; "{nanos} {sum:?}")?;
    Ok(())
}
RUST

build
while read -r name count; do
    for way in to from; do
        report "$count" "$name" "$way"
    done
done <<'CASES'
pair 50000
elements 20
nested 200
members 1000
CASES
