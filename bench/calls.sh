# shellcheck shell=bash
# Sourced by the scripts that time calls: makes a scratch copy of the crates with a small program over them, builds
# it, and prints what a call of it takes. They write the program to "$crate/src/main.rt" between `start` and `build`.
# Its arguments are the words that name a call, and how often it is made; the first word that it prints is the
# nanoseconds that it took.

root=$(cd "$(dirname "${BASH_SOURCE[0]}")/.." && pwd)
scratch=$(mktemp -d)
trap 'rm -rf "$scratch"' EXIT
crate=$scratch/crates/wgsl_bench
program=$crate/out/wgsl_bench

# start CRATE..: copies these crates, the lowest first, with what earlier checks kept.
start() {
    local name below=
    mkdir -p "$crate/src" "$crate/specs" "$crate/proofs"
    touch "$crate/specs/Lib.antt" "$crate/proofs/Lib.antt"
    for name in "$@"; do
        cp -a "$root/crates/$name" "$scratch/crates/"
        echo "$name:$below" >> "$scratch/crates.txt"
        below+=" $name"
    done
    echo "wgsl_bench:$below" >> "$scratch/crates.txt"
}

# Adds the module `types` to the program: the types whose values are timed.
add_types() {
    cat > "$crate/src/types.rt" <<'RUST'
//! The types whose values are timed.

use std::alloc::{AllocError, Global};
use wgsl_rules::{StructMemberType, StructType, Type};

fn vector(alloc: Global, n: u8) -> Result<Type, AllocError> {
    Ok(Type::Vec(n, Box::new(alloc, Type::U32)?))
}

fn member(alloc: Global, name: &str, ty: Type) -> Result<StructMemberType, AllocError> {
    let name = String::from_str(alloc, name)?;
    Ok(StructMemberType { name, ty, size: None, align: None })
}

fn structure(alloc: Global, members: Vec<StructMemberType>) -> Result<Type, AllocError> {
    let name = String::from_str(alloc, "S")?;
    Ok(Type::Struct(Box::new(alloc, StructType { name, members })?))
}

/// struct S { a: u32, b: vec3<u32> }
pub(crate) fn pair(alloc: Global) -> Result<Type, AllocError> {
    let a = member(alloc, "a", Type::U32)?;
    let b = member(alloc, "b", vector(alloc, 3)?)?;
    structure(alloc, vec![in alloc; a, b]?)
}

/// array<vec4<u32>, 4096>
pub(crate) fn elements(alloc: Global) -> Result<Type, AllocError> {
    Ok(Type::Array(Box::new(alloc, vector(alloc, 4)?)?, Some(4096)))
}

/// 64 structures, each inside the next.
pub(crate) fn nested(alloc: Global) -> Result<Type, AllocError> {
    let mut ty = Type::U32;
    for _ in 0..64 {
        let inner = member(alloc, "a", ty)?;
        ty = structure(alloc, vec![in alloc; inner]?)?;
    }
    Ok(ty)
}

/// A structure of 64 structures of one u32, of which the last has the name "last".
pub(crate) fn members(alloc: Global) -> Result<Type, AllocError> {
    let mut members = Vec::new(alloc);
    for i in 0..64u32 {
        let inner = member(alloc, "a", Type::U32)?;
        let inner = structure(alloc, vec![in alloc; inner]?)?;
        let name = if i == 63 { "last" } else { "s" };
        members.push(member(alloc, name, inner)?)?;
    }
    structure(alloc, members)
}
RUST
}

# Builds the program by LLVM, and what counts its growths.
build() {
    (cd "$crate" && rt run --backend llvm > "$scratch/log" 2>&1) || { cat "$scratch/log"; exit 1; }
    cc -shared -fPIC -O2 -o "$scratch/refuse.so" "$root/tools/refuse/refuse.c" -ldl
}

# How many growths the program asks for in all.
growths() {
    REFUSE_REPORT=$scratch/asked LD_PRELOAD=$scratch/refuse.so "$program" "$@" > "$scratch/answer"
    cat "$scratch/asked"
}

# The least time of forty short runs, in nanoseconds: other programs disturb few of them.
nanoseconds() {
    for _ in {1..40}; do
        "$program" "$@"
    done | sort -n | awk 'NR == 1 { print $1 }'
}

# report COUNT WORD..: nanoseconds and growths a call, of so many calls, less what comes before the first.
report() {
    local count=$1 none some asked
    shift
    none=$(nanoseconds "$@" 0)
    some=$(nanoseconds "$@" "$count")
    asked=$(($(growths "$@" 100) - $(growths "$@" 0)))
    awk -v call="$*" -v time="$((some - none))" -v count="$count" -v asked="$asked" \
        'BEGIN { printf "%s: %.1f ns, %.4g growths a call\n", call, time / count, asked / 100 }'
}
