#!/bin/bash
# Times calls on references to parts of cells: copies the repository to a scratch folder, adds a small program there,
# and prints nanoseconds and growths of memory a call, as LLVM builds it. Where a vector or a structure is written,
# the call reads the value first that it writes; such a read is timed alone too.
set -euo pipefail
. "$(dirname "$0")/calls.sh"

start wgsl_rules wgsl_scalar wgsl_values wgsl_layout wgsl_store
add_types
cat > "$crate/src/main.rt" <<'RUST'
//! Makes one call on a reference again and again: its name and how often are the arguments.
#![tactic(auto)]

mod types;

ghost use Rattle.wgsl_store.specs.Memory.{IsKept};
ghost use Rattle.wgsl_values.specs.View.{reference_of};

use std::alloc::Global;
use std::env;
use std::io;
use std::process::Abort;
use std::time::Instant;
use types::{elements, members, pair};
use wgsl_rules::AccessMode::ReadWrite;
use wgsl_rules::AddressSpace::Storage;
use wgsl_rules::Type;
use wgsl_scalar::Error;
use wgsl_store::{Buffers, References, Store};
use wgsl_values::{Instance, RefInstance};

#[inline(never)]
fn number_writes(
    count: u32,
    alloc: Global,
    store: &mut Store,
    reference: &RefInstance,
) -> Result<u32, Error>
    requires { IsKept store.old (reference_of reference.now) }
{
    'calls: for i in 0..count {
        reference.write(alloc, store, Instance::from(i))?;
    }
    Ok(count)
}

#[inline(never)]
fn reads(
    count: u32,
    alloc: Global,
    store: &Store,
    reference: &RefInstance,
) -> Result<u32, Error>
    requires { IsKept store.now (reference_of reference.now) }
{
    let mut sum: u32 = 0;
    for _ in 0..count {
        let value = reference.read(alloc, store)?;
        if value == Instance::from(sum) {
            sum = sum.wrapping_add(1);
        }
    }
    Ok(sum)
}

#[inline(never)]
fn reads_and_writes(
    count: u32,
    alloc: Global,
    store: &mut Store,
    reference: &RefInstance,
) -> Result<u32, Error>
    requires { IsKept store.old (reference_of reference.now) }
{
    'calls: for _ in 0..count {
        let value = reference.read(alloc, store)?;
        reference.write(alloc, store, value)?;
    }
    Ok(count)
}

#[inline(never)]
fn member_steps(
    count: u32,
    alloc: Global,
    store: &Store,
    reference: &RefInstance,
    name: &str,
) -> Result<u32, Error>
    requires { IsKept store.now (reference_of reference.now) }
{
    let mut sum: u32 = 0;
    for _ in 0..count {
        let part = reference.view_member(alloc, store, String::from_str(alloc, name)?)?;
        if part.access().is_read() {
            sum = sum.wrapping_add(1);
        }
    }
    Ok(sum)
}

#[inline(never)]
fn index_steps(
    count: u32,
    alloc: Global,
    store: &Store,
    reference: &RefInstance,
    i: usize,
) -> Result<u32, Error>
    requires { IsKept store.now (reference_of reference.now) }
{
    let mut sum: u32 = 0;
    for _ in 0..count {
        let part = reference.view_index(alloc, store, i)?;
        if part.access().is_read() {
            sum = sum.wrapping_add(1);
        }
    }
    Ok(sum)
}

/// A new cell of the type, in which each byte is 7.
fn cell(
    rt: &impl Abort,
    alloc: Global,
    store: &mut Store,
    ty: &Type,
) -> Result<RefInstance, Error> {
    let size = ty.size_of().unwrap_or(0);
    let bytes = vec![in alloc; 7u8; size as usize]?;
    let value = Instance::from_buffer(alloc, &bytes, ty)?.unwrap_or(Instance::from(0u32));
    assert!(rt; value.is_storable());
    assert!(rt; store.holds_value(&value));
    References::new(alloc, store, value, Storage, ReadWrite)
}

fn member_of(
    rt: &impl Abort,
    alloc: Global,
    store: &Store,
    whole: &RefInstance,
    name: &str,
) -> Result<RefInstance, Error> {
    assert!(rt; store.holds(whole));
    whole.view_member(alloc, store, String::from_str(alloc, name)?)
}

fn element_of(
    rt: &impl Abort,
    alloc: Global,
    store: &Store,
    whole: &RefInstance,
    i: usize,
) -> Result<RefInstance, Error> {
    assert!(rt; store.holds(whole));
    whole.view_index(alloc, store, i)
}

/// The calls on a part.
fn part_calls(
    rt: &impl Abort,
    alloc: Global,
    store: &mut Store,
    part: &RefInstance,
    name: &str,
    count: u32,
) -> Result<u32, Error> {
    assert!(rt; store.holds(part));
    match name {
        "write_number" => number_writes(count, alloc, store, part),
        "read" => reads(count, alloc, store, part),
        "read_and_write" => reads_and_writes(count, alloc, store, part),
        "member" => member_steps(count, alloc, store, part, "b"),
        "index" => index_steps(count, alloc, store, part, 2),
        _ => Ok(0),
    }
}

/// The part that the name gives, in a new cell.
fn part_named(
    rt: &impl Abort,
    alloc: Global,
    store: &mut Store,
    name: &str,
) -> Result<RefInstance, Error> {
    match name {
        "pair" => cell(rt, alloc, store, &pair(alloc)?),
        "vector" => {
            let whole = cell(rt, alloc, store, &pair(alloc)?)?;
            member_of(rt, alloc, store, &whole, "b")
        }
        "component" => {
            let whole = cell(rt, alloc, store, &pair(alloc)?)?;
            let vector = member_of(rt, alloc, store, &whole, "b")?;
            element_of(rt, alloc, store, &vector, 2)
        }
        "element" => {
            let whole = cell(rt, alloc, store, &elements(alloc)?)?;
            element_of(rt, alloc, store, &whole, 4000)
        }
        _ => {
            let whole = cell(rt, alloc, store, &members(alloc)?)?;
            member_of(rt, alloc, store, &whole, "last")
        }
    }
}

fn main(rt: HostRuntime) -> io::Result<()> {
    let mut words = env::args(&rt)?;
    let _program = words.next();
    let (Some(part), Some(name), Some(count)) = (words.next(), words.next(), words.next()) else {
        return Ok(());
    };
    let Ok(count) = count.as_str().parse::<u32>() else {
        return Ok(());
    };
    let alloc = rt.alloc();
    let mut store = Store::new(alloc);
    let Ok(part) = part_named(&rt, alloc, &mut store, part.as_str()) else {
        return Ok(());
    };
    let start = Instant::now(&rt)?;
    let sum = part_calls(&rt, alloc, &mut store, &part, name.as_str(), count);
    let nanos = start.elapsed(&rt)?.as_nanos();
    println!(rt; "{nanos} {sum:?}")?;
    Ok(())
}
RUST

# Over each loop that writes, the reference is kept.
for name in number_writes reads_and_writes; do
    mkdir -p "$crate/proofs/$name"
    cat > "$crate/proofs/$name/Invariants.antt" <<ANTT
use Rattle.wgsl_store.specs.Memory.{IsKept}
use Rattle.wgsl_values.specs.View.{reference_of}
use Rattle.wgsl_bench.proofs.$name.Given as goal

abbrev pub invariant-calls : goal.invariant-calls
invariant-calls l = IsKept l.store (reference_of l.fn.reference)
ANTT
done

build
while read -r part name; do
    report 50000 "$part" "$name"
done <<'CASES'
component write_number
vector read
vector read_and_write
element read
element read_and_write
pair member
vector index
last read
last read_and_write
CASES
