#!/bin/sh
# Times operators on literals: copies the repository to a scratch folder, adds a small program there,
# and prints nanoseconds a call, as LLVM builds it.
set -eu

root=$(cd "$(dirname "$0")/.." && pwd)
scratch=$(mktemp -d)
trap 'rm -rf "$scratch"' EXIT
mkdir -p "$scratch/crates/wgsl_bench/src" "$scratch/crates/wgsl_bench/specs" "$scratch/crates/wgsl_bench/proofs"
cp -a "$root/crates/wgsl_rules" "$root/crates/wgsl_scalar" "$scratch/crates/"
printf 'wgsl_rules:\nwgsl_scalar: wgsl_rules\nwgsl_bench: wgsl_rules wgsl_scalar\n' > "$scratch/crates.txt"
touch "$scratch/crates/wgsl_bench/specs/Lib.antt" "$scratch/crates/wgsl_bench/proofs/Lib.antt"

# one timed loop: its name, the operator, the left and the right sides that it goes over
loop() {
    cat <<RUST
#[inline(never)]
fn $1(count: u32, start: LiteralInstance, sides: &[LiteralInstance; 2]) -> LiteralInstance {
    let mut left = start;
    for i in 0..count {
        let right = sides[(i % 2) as usize];
        left = match left.$2(&right, ShaderStage::Exec) {
            Ok(answer) => answer,
            Err(_) => start,
        };
    }
    left
}

RUST
}

report() {
    cat <<RUST
    let start = Instant::now(&rt)?;
    let last = $1(COUNT, $2, &[$3, $4]);
    let nanos = start.elapsed(&rt)?.as_nanos();
    println!(rt; "$1 of $5: {} ns a call, last answer {last}", nanos / COUNT as u128)?;
RUST
}

{
    cat <<'RUST'
//! Times operators on literals.
#![tactic(auto)]

use std::io;
use std::time::Instant;
use wgsl_rules::ShaderStage;
use wgsl_scalar::LiteralInstance;

const COUNT: u32 = 4000000;

RUST
    loop sums op_add
    loop products op_mul
    loop quotients op_div
    loop shifts op_shl
    echo 'fn main(rt: HostRuntime) -> io::Result<()> {'
    report sums 'LiteralInstance::I32(1)' 'LiteralInstance::I32(77)' 'LiteralInstance::AbstractInt(5)' i32
    report sums 'LiteralInstance::U64(1)' 'LiteralInstance::U64(77)' 'LiteralInstance::U64(5)' u64
    report products 'LiteralInstance::I32(1)' 'LiteralInstance::I32(77)' 'LiteralInstance::AbstractInt(5)' i32
    report products 'LiteralInstance::U64(1)' 'LiteralInstance::U64(77)' 'LiteralInstance::U64(5)' u64
    report quotients 'LiteralInstance::I32(2147483647)' 'LiteralInstance::I32(1)' 'LiteralInstance::I32(-1)' i32
    report quotients 'LiteralInstance::U64(18446744073709551615)' 'LiteralInstance::U64(1)' 'LiteralInstance::U64(1)' u64
    report shifts 'LiteralInstance::I32(3)' 'LiteralInstance::U32(1)' 'LiteralInstance::AbstractInt(31)' i32
    report shifts 'LiteralInstance::U64(3)' 'LiteralInstance::U32(1)' 'LiteralInstance::U32(63)' u64
    echo '    Ok(())'
    echo '}'
} > "$scratch/crates/wgsl_bench/src/main.rt"

cd "$scratch/crates/wgsl_bench"
rt run > "$scratch/log" 2>&1 || { cat "$scratch/log"; exit 1; }
grep 'ns a call' "$scratch/log"
