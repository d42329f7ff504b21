#!/bin/bash
# Times calls on values: copies the repository to a scratch folder, adds a small program there, and prints
# nanoseconds and growths of memory a call, as LLVM builds it. A call that writes through a view is timed with
# the test of its condition, which is timed alone too.
set -euo pipefail
. "$(dirname "$0")/calls.sh"

start wgsl_rules wgsl_scalar wgsl_values
cat > "$crate/src/main.rt" <<'RUST'
//! Makes one call on values again and again: its name and how often are the arguments.
#![tactic(auto)]

ghost use Rattle.wgsl_rules.specs.Values.{IsWellFormed};
ghost use Rattle.wgsl_values.specs.View.{value_of};

use std::alloc::{AllocError, Global};
use std::env;
use std::io;
use std::process::Abort;
use std::time::Instant;
use wgsl_rules::{StructMemberType, StructType, Type};
use wgsl_scalar::Error;
use wgsl_scalar::LiteralInstance::U32;
use wgsl_values::{ArrayInstance, Instance, MatInstance, MemView, StructInstance, VecInstance};

fn number_of(part: &Instance) -> u32 {
    match part {
        Instance::Literal(U32(n)) => *n,
        _ => 1,
    }
}

#[inline(never)]
fn members(count: u32, pair: &StructInstance) -> u32 {
    let names = ["a", "b"];
    let mut sum: u32 = 0;
    for i in 0..count {
        if let Some(part) = pair.member(names[(i % 2) as usize]) {
            sum = sum.wrapping_add(number_of(part));
        }
    }
    sum
}

#[inline(never)]
fn components(count: u32, vector: &VecInstance) -> u32 {
    let mut sum: u32 = 0;
    for i in 0..count {
        if let Some(part) = vector.get((i % 4) as usize) {
            sum = sum.wrapping_add(number_of(part));
        }
    }
    sum
}

#[inline(never)]
fn cells(count: u32, matrix: &MatInstance) -> u32 {
    let mut sum: u32 = 0;
    for i in 0..count {
        if let Some(part) = matrix.get((i % 2) as usize, (i % 4) as usize) {
            sum = sum.wrapping_add(number_of(part));
        }
    }
    sum
}

#[inline(never)]
fn views(count: u32, alloc: Global, value: &Instance, paths: &[MemView; 2]) -> Result<u32, Error>
    requires { IsWellFormed (value_of value.now) }
{
    let mut sum: u32 = 0;
    for i in 0..count {
        let part = value.view(alloc, &paths[(i % 2) as usize])?;
        sum = sum.wrapping_add(number_of(part));
    }
    Ok(sum)
}

#[inline(never)]
fn tests(count: u32, values: &[Instance; 2]) -> u32 {
    let mut sum: u32 = 0;
    for i in 0..count {
        if values[(i % 2) as usize].is_well_formed() {
            sum = sum.wrapping_add(1);
        }
    }
    sum
}

#[inline(never)]
fn writes(count: u32, alloc: Global, value: &mut Instance, paths: &[MemView; 2]) -> Result<u32, Error> {
    let mut sum: u32 = 0;
    for i in 0..count {
        if value.is_well_formed() {
            let mut part = value.view_mut(alloc, &paths[(i % 2) as usize])?;
            sum = sum.wrapping_add(number_of(&*part));
            *part = Instance::from(i);
        }
    }
    Ok(sum)
}

#[inline(never)]
fn puts(count: u32, value: &mut Instance, paths: &[MemView; 2]) -> u32 {
    let mut sum: u32 = 0;
    for i in 0..count {
        if let Some(part) = value.put(&paths[(i % 2) as usize], Instance::from(i)) {
            sum = sum.wrapping_add(number_of(&part));
        }
    }
    sum
}

#[inline(never)]
fn vector_copies(count: u32, alloc: Global, vector: &VecInstance) -> Result<u32, AllocError> {
    let mut sum: u32 = 0;
    for _ in 0..count {
        let copy = vector.clone(alloc)?;
        if let Some(part) = copy.get(0) {
            sum = sum.wrapping_add(number_of(part));
        }
    }
    Ok(sum)
}

#[inline(never)]
fn pair_copies(count: u32, alloc: Global, pair: &StructInstance) -> Result<u32, AllocError> {
    let mut sum: u32 = 0;
    for _ in 0..count {
        let copy = pair.clone(alloc)?;
        if let Some(part) = copy.members().first() {
            sum = sum.wrapping_add(number_of(part));
        }
    }
    Ok(sum)
}

#[inline(never)]
fn texts(count: u32, alloc: Global, pair: &StructInstance) -> Result<u32, AllocError> {
    let mut sum: u32 = 0;
    for _ in 0..count {
        let text = pair.to_string(alloc)?;
        if !text.is_empty() {
            sum = sum.wrapping_add(1);
        }
    }
    Ok(sum)
}

fn vector(rt: &impl Abort, alloc: Global, numbers: [u32; 3]) -> Result<VecInstance, AllocError> {
    let mut components = Vec::with_capacity(alloc, 3)?;
    for n in numbers {
        components.push(Instance::from(n))?;
    }
    assert!(rt; VecInstance::can_make(&components));
    Ok(VecInstance::new(components))
}

fn member(alloc: Global, name: &str, ty: Type) -> Result<StructMemberType, AllocError> {
    let name = String::from_str(alloc, name)?;
    Ok(StructMemberType { name, ty, size: None, align: None })
}

/// Pair(1u, vec3(2u, 3u, 4u)) of struct Pair { a: u32, b: vec3<u32> }
fn pair(rt: &impl Abort, alloc: Global) -> Result<StructInstance, AllocError> {
    let a = member(alloc, "a", Type::U32)?;
    let b = member(alloc, "b", Type::Vec(3, Box::new(alloc, Type::U32)?))?;
    let name = String::from_str(alloc, "Pair")?;
    let ty = StructType { name, members: vec![in alloc; a, b]? };
    let b = Instance::from(vector(rt, alloc, [2, 3, 4])?);
    let members = vec![in alloc; Instance::from(1u32), b]?;
    assert!(rt; StructInstance::can_make(&ty, &members));
    Ok(StructInstance::new(ty, members))
}

fn pairs(rt: &impl Abort, alloc: Global) -> Result<Instance, AllocError> {
    let first = Instance::from(pair(rt, alloc)?);
    let second = Instance::from(pair(rt, alloc)?);
    let elements = vec![in alloc; first, second]?;
    assert!(rt; ArrayInstance::can_make(&elements, false));
    Ok(Instance::from(ArrayInstance::new(elements, false)))
}

fn matrix(rt: &impl Abort, alloc: Global) -> Result<MatInstance, AllocError> {
    let first = Instance::from(vector(rt, alloc, [1, 2, 3])?);
    let second = Instance::from(vector(rt, alloc, [4, 5, 6])?);
    let columns = vec![in alloc; first, second]?;
    assert!(rt; MatInstance::can_make(&columns));
    Ok(MatInstance::from_cols(columns))
}

fn to_member(alloc: Global, name: &str) -> Result<MemView, AllocError> {
    let mut view = MemView::Whole;
    view.append_member(alloc, String::from_str(alloc, name)?)?;
    Ok(view)
}

/// The view of the element, its member b and the component there.
fn to_component(alloc: Global, element: usize, component: usize) -> Result<MemView, AllocError> {
    let mut view = MemView::Whole;
    view.append_index(alloc, element)?;
    view.append_member(alloc, String::from_str(alloc, "b")?)?;
    view.append_index(alloc, component)?;
    Ok(view)
}

fn answer(rt: &impl Abort, alloc: Global, name: &str, count: u32) -> Result<u32, Error> {
    let vector = vector(rt, alloc, [2, 3, 4])?;
    let matrix = matrix(rt, alloc)?;
    let pair = pair(rt, alloc)?;
    let whole = Instance::from(pair.clone(alloc)?);
    assert!(rt; whole.is_well_formed());
    let steps = [to_member(alloc, "b")?, to_member(alloc, "b")?];
    let mut value = pairs(rt, alloc)?;
    assert!(rt; value.is_well_formed());
    let paths = [to_component(alloc, 0, 1)?, to_component(alloc, 1, 2)?];
    match name {
        "member" => Ok(members(count, &pair)),
        "get" => Ok(components(count, &vector)),
        "matrix_get" => Ok(cells(count, &matrix)),
        "lend_vector" => views(count, alloc, &whole, &steps),
        "view" => views(count, alloc, &value, &paths),
        "is_well_formed" => Ok(tests(count, &[value, pairs(rt, alloc)?])),
        "is_well_formed_and_view_mut" => writes(count, alloc, &mut value, &paths),
        "put" => Ok(puts(count, &mut value, &paths)),
        "clone_vector" => Ok(vector_copies(count, alloc, &vector)?),
        "clone_struct" => Ok(pair_copies(count, alloc, &pair)?),
        "text_of_struct" => Ok(texts(count, alloc, &pair)?),
        _ => Ok(0),
    }
}

fn main(rt: HostRuntime) -> io::Result<()> {
    let mut words = env::args(&rt)?;
    let _program = words.next();
    let (Some(name), Some(count)) = (words.next(), words.next()) else {
        return Ok(());
    };
    let Ok(count) = count.as_str().parse::<u32>() else {
        return Ok(());
    };
    let start = Instant::now(&rt)?;
    let sum = answer(&rt, rt.alloc(), name.as_str(), count);
    let nanos = start.elapsed(&rt)?.as_nanos();
    println!(rt; "{nanos} {sum:?}")?;
    Ok(())
}
RUST

build
for name in member get matrix_get lend_vector view is_well_formed is_well_formed_and_view_mut put \
    clone_vector clone_struct text_of_struct; do
    report 50000 "$name"
done
