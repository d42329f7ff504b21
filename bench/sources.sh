#!/bin/bash
# Measures the program that prints layouts, as LLVM builds it, on sources of structures of one and of four mebibytes.
# sources.sh --program only builds it and prints where it is. With PROGRAM set, that program is measured and nothing is
# built.
set -euo pipefail
here=$(cd "$(dirname "$0")" && pwd)
crate=$here/../crates/wgsl_tool
sources=$(mktemp -d)
trap 'rm -rf "$sources"' EXIT

if [ -z "${PROGRAM:-}" ]; then
    (cd "$crate" && rt run --backend llvm -- --version > "$sources/build.log" 2>&1) || {
        tail "$sources/build.log"
        exit 1
    }
    PROGRAM=$(cd "$crate" && pwd)/out/wgsl_tool
fi
if [ "${1:-}" = --program ]; then
    echo "$PROGRAM"
    exit
fi

# A source of so many bytes at most: of each eight structures, seven are flat and the last has these as its members.
python3 - "$sources" << 'END'
import pathlib, sys

def structures(limit):
    text, size, number = [], 0, 0
    while True:
        members = [f"    member_{i}: {ty},\n" for i, ty in enumerate(
            ["u32", "vec3<f32>", "array<vec4f, 16>", "mat4x4f", "array<u32, 2 * 3 + 1>"])]
        if number % 8 == 7:
            members = [f"    member_{i}: Structure{number - 7 + i},\n" for i in range(7)]
        piece = f"struct Structure{number} {{\n{''.join(members)}}}\n\n"
        if size + len(piece) > limit:
            return "".join(text)
        text.append(piece)
        size += len(piece)
        number += 1

for mebibytes in [1, 4]:
    pathlib.Path(sys.argv[1], f"{mebibytes}.wgsl").write_text(structures(mebibytes << 20))
END

for mebibytes in 1 4; do
    for flag in --table --bytes --json --c; do
        source=$sources/$mebibytes.wgsl
        start=$(date +%s%N)
        # shellcheck disable=SC2086
        timeout 100 "$PROGRAM" layout ${flag#--table} "$source" > "$sources/output"
        end=$(date +%s%N)
        seconds=$(python3 -c "print(f'{($end - $start) / 1e9:.3f}')")
        echo "$(grep -c '^struct' "$source") structures, $(wc -c < "$source") bytes, ${flag#--}: $seconds s, $(wc -c < "$sources/output") bytes are printed"
    done
done
