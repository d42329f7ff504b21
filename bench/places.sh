#!/bin/bash
# Times numbers and vectors that are read and put by places, in bytes and in a cell of a store, and by views: copies the
# repository to a scratch folder, adds a small program there, and prints nanoseconds and growths of memory a call, as LLVM
# builds it.
set -euo pipefail
. "$(dirname "$0")/calls.sh"

start wgsl_rules wgsl_scalar wgsl_values wgsl_layout wgsl_store wgsl_nodes wgsl_places
cat > "$crate/src/main.rt" <<'RUST'
//! Reads and puts the numbers of an array of structures again and again: the way and how often are the arguments.
#![tactic(auto)]

ghost use Rattle.wgsl_places.specs.Memory.{IsPlaceOf};
ghost use Rattle.wgsl_rules.specs.Values.{IsStorable};
ghost use Rattle.wgsl_store.specs.Memory.{IsKept};
ghost use Rattle.wgsl_values.specs.View.{reference_of, value_of};

use std::alloc::{AllocError, Global};
use std::env;
use std::io;
use std::process::Abort;
use std::time::Instant;
use wgsl_places::{Place, Places};
use wgsl_rules::AccessMode::ReadWrite;
use wgsl_rules::AddressSpace::Storage;
use wgsl_rules::{StructMemberType, StructType, Type};
use wgsl_scalar::LiteralInstance;
use wgsl_store::{Layout, Store};
use wgsl_values::{Instance, MemView, RefInstance};

/// How many bytes the array has, of structures of 32 bytes.
const LEN: usize = 131072;

fn member(alloc: Global, name: &str, ty: Type) -> Result<StructMemberType, AllocError> {
    let name = String::from_str(alloc, name)?;
    Ok(StructMemberType { name, ty, size: None, align: None })
}

fn vector(alloc: Global) -> Result<Type, AllocError> {
    Ok(Type::Vec(3, Box::new(alloc, Type::U32)?))
}

/// array<Particle>, of struct Particle { position: vec3<u32>, age: u32, speed: vec3<u32>, id: u32 }
fn particles(alloc: Global) -> Result<Type, AllocError> {
    let position = member(alloc, "position", vector(alloc)?)?;
    let age = member(alloc, "age", Type::U32)?;
    let speed = member(alloc, "speed", vector(alloc)?)?;
    let id = member(alloc, "id", Type::U32)?;
    let name = String::from_str(alloc, "Particle")?;
    let members = vec![in alloc; position, age, speed, id]?;
    let particle = Type::Struct(Box::new(alloc, StructType { name, members })?);
    Ok(Type::Array(Box::new(alloc, particle)?, None))
}

/// [4000].speed
fn velocity(alloc: Global) -> Result<MemView, AllocError> {
    let mut view = MemView::Whole;
    view.append_index(alloc, 4000)?;
    view.append_member(alloc, String::from_str(alloc, "speed")?)?;
    Ok(view)
}

/// [4000].speed[1]
fn speed(alloc: Global) -> Result<MemView, AllocError> {
    let mut view = velocity(alloc)?;
    view.append_index(alloc, 1)?;
    Ok(view)
}

/// The places of the ids of sixteen elements.
fn ids(rt: &impl Abort, places: &Places) -> [Place; 16] {
    let whole = places.place(LEN, &MemView::Whole).expect(rt, "the whole");
    let mut ids = [whole; 16];
    for i in 0..16 {
        let element = places.part(whole, i * 200).expect(rt, "an element");
        ids[i] = places.part(element, 3).expect(rt, "a member");
    }
    ids
}

#[inline(never)]
fn loads(count: u32, places: &Places, ids: &[Place; 16], bytes: &[u8]) -> u32 {
    let mut sum: u32 = 0;
    for i in 0..count {
        if let Some(LiteralInstance::U32(n)) = places.load(bytes, ids[(i % 16) as usize]) {
            sum = sum.wrapping_add(n);
        }
    }
    sum
}

#[inline(never)]
fn stores(count: u32, places: &Places, ids: &[Place; 16], bytes: &mut [u8]) -> u32 {
    let mut sum: u32 = 0;
    for i in 0..count {
        let number = LiteralInstance::U32(i);
        sum = sum.wrapping_add(u32::from(places.store(bytes, ids[(i % 16) as usize], number)));
    }
    sum
}

#[inline(never)]
fn parts(count: u32, places: &Places, whole: Place) -> u32 {
    let mut sum: u32 = 0;
    for i in 0..count {
        if places.part(whole, (i % 4096) as usize).is_some() {
            sum = sum.wrapping_add(1);
        }
    }
    sum
}

#[inline(never)]
fn finds(count: u32, places: &Places, view: &MemView) -> u32 {
    let mut sum: u32 = 0;
    for _ in 0..count {
        sum = sum.wrapping_add(u32::from(places.place(LEN, view).is_ok()));
    }
    sum
}

#[inline(never)]
fn reads(
    count: u32,
    alloc: Global,
    layout: &Layout,
    view: &MemView,
    bytes: &[u8],
) -> Result<u32, AllocError> {
    let mut sum: u32 = 0;
    for _ in 0..count {
        if layout.read(alloc, bytes, view)?.is_some() {
            sum = sum.wrapping_add(1);
        }
    }
    Ok(sum)
}

#[inline(never)]
fn writes(count: u32, layout: &Layout, view: &MemView, bytes: &mut [u8], value: &Instance) -> u32
    requires { IsStorable (value_of value.now) }
{
    let mut sum: u32 = 0;
    for _ in 0..count {
        sum = sum.wrapping_add(u32::from(layout.write(bytes, view, value).is_ok()));
    }
    sum
}

#[inline(never)]
fn cell_loads(count: u32, places: &Places, store: &Store, cell: &RefInstance, place: Place) -> u32
    requires { IsKept store.now (reference_of cell.now) }
{
    let mut sum: u32 = 0;
    for _ in 0..count {
        if let Some(LiteralInstance::U32(n)) = places.load_in(store, cell, place) {
            sum = sum.wrapping_add(n);
        }
    }
    sum
}

#[inline(never)]
fn cell_stores(
    count: u32,
    places: &Places,
    store: &mut Store,
    cell: &RefInstance,
    place: Place,
) -> u32
    requires kept { IsKept store.old (reference_of cell.now) }
    requires of { IsPlaceOf places.now store.old (reference_of cell.now) place }
{
    let mut sum: u32 = 0;
    'calls: for i in 0..count {
        let number = LiteralInstance::U32(i);
        sum = sum.wrapping_add(u32::from(places.store_in(store, cell, place, number)));
    }
    sum
}

#[inline(never)]
fn cell_vec_loads(
    count: u32,
    places: &Places,
    store: &Store,
    cell: &RefInstance,
    place: Place,
) -> u32
    requires { IsKept store.now (reference_of cell.now) }
{
    let mut sum: u32 = 0;
    for i in 0..count {
        if let Some(vector) = places.load_vec_in(store, cell, place) {
            if let Some(LiteralInstance::U32(n)) = vector.as_slice().get((i % 3) as usize) {
                sum = sum.wrapping_add(*n);
            }
        }
    }
    sum
}

#[inline(never)]
fn cell_vec_stores(
    count: u32,
    places: &Places,
    store: &mut Store,
    cell: &RefInstance,
    place: Place,
) -> u32
    requires kept { IsKept store.old (reference_of cell.now) }
    requires of { IsPlaceOf places.now store.old (reference_of cell.now) place }
{
    let mut sum: u32 = 0;
    'calls: for i in 0..count {
        let vector = [LiteralInstance::U32(i); 3];
        sum = sum.wrapping_add(u32::from(places.store_vec_in(store, cell, place, &vector)));
    }
    sum
}

fn cell_answer(
    rt: &impl Abort,
    alloc: Global,
    way: &str,
    count: u32,
    places: &Places,
) -> Result<u32, AllocError> {
    let mut store = Store::new(alloc);
    let bytes = vec![in alloc; 7u8; LEN]?;
    let ty = places.ty().clone(alloc)?;
    let made = store.new_from_bytes(alloc, ty, bytes.as_slice(), Storage, ReadWrite)?;
    let cell = made.expect(rt, "bytes of a value");
    assert!(rt; store.holds(&cell));
    assert!(rt; places.are_of(&cell));
    let view = if way == "load_in" || way == "store_in" { speed(alloc)? } else { velocity(alloc)? };
    let place = places.place_in(&store, &cell, &view).expect(rt, "a place");
    Ok(match way {
        "load_in" => cell_loads(count, places, &store, &cell, place),
        "store_in" => cell_stores(count, places, &mut store, &cell, place),
        "load_vec_in" => cell_vec_loads(count, places, &store, &cell, place),
        _ => cell_vec_stores(count, places, &mut store, &cell, place),
    })
}

#[inline(never)]
fn makes(count: u32, alloc: Global, ty: &Type) -> Result<u32, AllocError> {
    let mut sum: u32 = 0;
    for _ in 0..count {
        if Places::of(alloc, ty)?.is_some() {
            sum = sum.wrapping_add(1);
        }
    }
    Ok(sum)
}

fn answer(rt: &impl Abort, alloc: Global, way: &str, count: u32) -> Result<u32, AllocError> {
    let ty = particles(alloc)?;
    let view = speed(alloc)?;
    let mut bytes = vec![in alloc; 7u8; LEN]?;
    if way == "make" {
        return makes(count, alloc, &ty);
    }
    if way == "read" || way == "write" {
        let layout = Layout::of(alloc, &ty)?.expect(rt, "a layout");
        if way == "read" {
            return reads(count, alloc, &layout, &view, bytes.as_slice());
        }
        let value = Instance::from(9u32);
        assert!(rt; value.is_storable());
        return Ok(writes(count, &layout, &view, bytes.as_mut_slice(), &value));
    }
    let places = Places::of(alloc, &ty)?.expect(rt, "a layout");
    if way.ends_with("_in") {
        return cell_answer(rt, alloc, way, count, &places);
    }
    let ids = ids(rt, &places);
    let whole = places.place(LEN, &MemView::Whole).expect(rt, "the whole");
    match way {
        "load" => Ok(loads(count, &places, &ids, bytes.as_slice())),
        "store" => Ok(stores(count, &places, &ids, bytes.as_mut_slice())),
        "part" => Ok(parts(count, &places, whole)),
        _ => Ok(finds(count, &places, &view)),
    }
}

fn main(rt: HostRuntime) -> io::Result<()> {
    let mut words = env::args(&rt)?;
    let _program = words.next();
    let (Some(way), Some(count)) = (words.next(), words.next()) else {
        return Ok(());
    };
    let Ok(count) = count.as_str().parse::<u32>() else {
        return Ok(());
    };
    let start = Instant::now(&rt)?;
    let sum = answer(&rt, rt.alloc(), way.as_str(), count);
    let nanos = start.elapsed(&rt)?.as_nanos();
    println!(rt; "{nanos} {sum:?}")?;
    Ok(())
}
RUST

# Over the loop that stores, the reference is kept, and the place is one.
for stores in cell_stores cell_vec_stores; do
    mkdir -p "$crate/proofs/$stores"
    cat > "$crate/proofs/$stores/Invariants.antt" <<ANTT
use Rattle.wgsl_places.specs.Memory.{IsPlaceOf}
use Rattle.wgsl_store.specs.Memory.{IsKept}
use Rattle.wgsl_values.specs.View.{reference_of}
use Rattle.wgsl_bench.proofs.$stores.Given as goal

abbrev pub invariant-calls : goal.invariant-calls
invariant-calls l = record {
  kept : IsKept l.store (reference_of l.fn.cell);
  of : IsPlaceOf l.fn.places l.store (reference_of l.fn.cell) l.fn.place;
}
ANTT
done

build
while read -r way count; do
    report "$count" "$way"
done <<'CASES'
load 1000000
store 1000000
load_in 1000000
store_in 1000000
load_vec_in 1000000
store_vec_in 1000000
part 1000000
find 100000
read 100000
write 100000
make 10000
CASES
