#!/bin/bash
# Times layouts: copies the repository to a scratch folder, adds a small program there, and prints nanoseconds and
# growths of memory a call, as LLVM builds it. Parts are written, named and read in bytes of the program's own.
set -euo pipefail
. "$(dirname "$0")/calls.sh"

start wgsl_rules wgsl_scalar wgsl_values wgsl_layout wgsl_store
add_types
cat > "$crate/src/main.rt" <<'RUST'
//! Makes one call on a layout again and again: its name and how often are the arguments.
#![tactic(auto)]

mod types;

use std::alloc::{AllocError, Global};
use std::env;
use std::io;
use std::time::Instant;
use types::pair;
use wgsl_rules::Type;
use wgsl_store::Layout;
use wgsl_values::{Instance, MemView};

/// array<S, 64> with struct S { a: u32, b: vec3<u32> }
fn pairs(alloc: Global) -> Result<Type, AllocError> {
    Ok(Type::Array(Box::new(alloc, pair(alloc)?)?, Some(64)))
}

/// The view to the second component of the member b of element 5.
fn component(alloc: Global) -> Result<MemView, AllocError> {
    let mut view = MemView::Whole;
    view.append_index(alloc, 5)?;
    view.append_member(alloc, String::from_str(alloc, "b")?)?;
    view.append_index(alloc, 1)?;
    Ok(view)
}

#[inline(never)]
fn writes(count: u32, layout: &Layout, bytes: &mut [u8], view: &MemView) -> u32 {
    let mut done: u32 = 0;
    'calls: for i in 0..count {
        if layout.write(bytes, view, &Instance::from(i)).is_ok() {
            done = done.wrapping_add(1);
        }
    }
    done
}

#[inline(never)]
fn ranges(count: u32, layout: &Layout, len: usize, view: &MemView) -> u32 {
    let mut sum: u32 = 0;
    for _ in 0..count {
        if layout.range(len, view).is_ok() {
            sum = sum.wrapping_add(1);
        }
    }
    sum
}

#[inline(never)]
fn reads(
    count: u32,
    alloc: Global,
    layout: &Layout,
    bytes: &[u8],
    view: &MemView,
) -> Result<u32, AllocError> {
    let mut sum: u32 = 0;
    for _ in 0..count {
        if layout.read(alloc, bytes, view)?.is_some() {
            sum = sum.wrapping_add(1);
        }
    }
    Ok(sum)
}

#[inline(never)]
fn layouts(count: u32, alloc: Global, ty: &Type) -> Result<u32, AllocError> {
    let mut sum: u32 = 0;
    for _ in 0..count {
        if Layout::of(alloc, ty)?.is_some() {
            sum = sum.wrapping_add(1);
        }
    }
    Ok(sum)
}

fn answer(alloc: Global, call: &str, count: u32) -> Result<u32, AllocError> {
    let ty = pairs(alloc)?;
    let view = component(alloc)?;
    let Some(layout) = Layout::of(alloc, &ty)? else {
        return Ok(0);
    };
    let mut bytes = [7u8; 2048];
    match call {
        "write" => Ok(writes(count, &layout, &mut bytes, &view)),
        "range" => Ok(ranges(count, &layout, 2048, &view)),
        "read" => reads(count, alloc, &layout, &bytes, &view),
        _ => layouts(count, alloc, &ty),
    }
}

fn main(rt: HostRuntime) -> io::Result<()> {
    let mut words = env::args(&rt)?;
    let _program = words.next();
    let (Some(call), Some(count)) = (words.next(), words.next()) else {
        return Ok(());
    };
    let Ok(count) = count.as_str().parse::<u32>() else {
        return Ok(());
    };
    let start = Instant::now(&rt)?;
    let sum = answer(rt.alloc(), call.as_str(), count);
    let nanos = start.elapsed(&rt)?.as_nanos();
    println!(rt; "{nanos} {sum:?}")?;
    Ok(())
}
RUST

build
while read -r call count; do
    report "$count" "$call"
done <<'CASES'
write 200000
range 200000
read 100000
of 20000
CASES
