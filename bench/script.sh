#!/bin/bash
# Measures the program as LLVM builds it: four scripts of one mebibyte and a half of each, and a
# chain of structs. script.sh --program only builds it and prints where it is. With PROGRAM set, that
# program is measured and nothing is built.
set -euo pipefail
here=$(cd "$(dirname "$0")" && pwd)
crate=$here/../crates/wgsl_run
scripts=$(mktemp -d)
trap 'rm -rf "$scripts"' EXIT

if [ -z "${PROGRAM:-}" ]; then
    (cd "$crate" && rt run --backend llvm < /dev/null > "$scripts/build.log" 2>&1) || {
        tail "$scripts/build.log"
        exit 1
    }
    PROGRAM=$(cd "$crate" && pwd)/out/wgsl_run
fi
if [ "${1:-}" = --program ]; then
    echo "$PROGRAM"
    exit
fi

python3 "$here/generate.py" "$scripts"

seconds_of() {
    local start end
    start=$(date +%s%N)
    timeout 60 "$PROGRAM" < "$1" > "$2"
    end=$(date +%s%N)
    python3 -c "print(f'{($end - $start) / 1e9:.3f}')"
}

instructions_of() {
    timeout 100 valgrind --tool=callgrind --callgrind-out-file=/dev/null "$PROGRAM" < "$1" 2>&1 > /dev/null |
        sed -n 's/^.*Collected : //p'
}

for name in handles cells structs types; do
    for size in _half ""; do
        file=$scripts/$name$size.script
        seconds=$(seconds_of "$file" "$scripts/output")
        line="$name$size: $(wc -c < "$file") bytes, $(wc -l < "$file") lines, $seconds s"
        if [ -z "$size" ] && command -v valgrind > /dev/null; then
            line+=", $(instructions_of "$file") instructions"
        fi
        echo "$line"
    done
done

# The deepest chain that has 4096 nodes, and shallower ones where the stack or memory ends first.
for depth in 500 1000 2000 4095; do
    python3 "$here/generate.py" "$scripts" "$depth"
    status=0
    start=$(date +%s%N)
    (ulimit -v 12000000 && timeout 60 "$PROGRAM") < "$scripts/chain.script" > "$scripts/output" 2> "$scripts/errors" || status=$?
    end=$(date +%s%N)
    seconds=$(python3 -c "print(f'{($end - $start) / 1e9:.3f}')")
    last=$(tail -n 1 "$scripts/output" | cut -c 1-40)
    echo "chain of $depth structs: status $status, $(wc -l < "$scripts/output") lines, the last '$last', $seconds s"
done
