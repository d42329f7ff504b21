"""Writes the scripts that are measured into a folder: generate.py FOLDER [CHAIN [COUNT]]."""
import random
import sys
from pathlib import Path

LIMIT = 1_048_576


def words(rng, count):
    return "".join(rng.randbytes(4).hex() for _ in range(count))


def script(lines):
    """The lines until the limit is reached."""
    kept, size = [], 0
    for line in lines:
        if size + len(line) + 1 > LIMIT:
            break
        kept.append(line)
        size += len(line) + 1
    return "\n".join(kept) + "\n"


def handles(rng):
    """Many short writes and reads through handles."""
    yield "struct S a:u32 b:vec3<u32> c:vec2<u32>"
    for _ in range(50):
        yield "new S storage read_write " + "00" * 48
    scalars, count = [], 50
    for cell in range(50):
        yield f"member &{cell} b"
        yield f"index &{count} {rng.randrange(3)}"
        yield f"member &{cell} a"
        scalars += [count + 1, count + 2]
        count += 3
    while True:
        handle = rng.choice(scalars)
        if rng.random() < 0.5:
            yield f"write &{handle} {words(rng, 1)}"
        else:
            yield f"read &{handle}"


def cells(rng):
    """Many cells."""
    yield "struct P a:u32 b:u32"
    while True:
        kind = rng.randrange(3)
        if kind == 0:
            yield f"new u32 storage read_write {words(rng, 1)}"
        elif kind == 1:
            yield f"new vec3<u32> workgroup read {words(rng, 3)}"
        else:
            yield f"new P private read_write {words(rng, 2)}"


def structs(rng):
    """Wide and nested structs, made, read, written and dumped."""
    yield "struct W " + " ".join(f"m{i}:u32" for i in range(256))
    for depth in range(1, 8):
        inner = "u32" if depth == 1 else f"N{depth - 1}"
        yield f"struct N{depth} a:{inner} b:{inner}"
    count = 0
    while True:
        for name, size in (("W", 256), ("N7", 128)):
            yield f"new {name} storage read_write {words(rng, size)}"
            yield f"read &{count}"
            yield f"write &{count} {words(rng, size)}"
            yield f"dump &{count}"
            count += 1


def types(rng):
    """Every sort of type: attributes, arrays, matrices, atomics, numbers of 64 bits."""
    yield "struct A @align(16)a:u32 @size(32)b:vec3<i32> c:mat3x2<u32> d:array<vec2<i64>,3> e:atomic<u32>"
    yield "struct B a:A b:array<array<u64,2>,2> c:array<mat2x3<u32>>"
    handles = 0
    while True:
        yield f"new A storage read_write {words(rng, 36)}"
        yield f"member &{handles} d"
        yield f"index &{handles + 1} {rng.randrange(3)}"
        yield f"read &{handles + 2}"
        yield f"write &{handles + 2} {words(rng, 4)}"
        yield f"dump &{handles}"
        yield f"new B storage read_write {words(rng, 60)}"
        yield f"member &{handles + 3} c"
        yield f"index &{handles + 4} 0"
        yield f"index &{handles + 5} 1"
        yield f"new mat2x3<u32> function read_write {words(rng, 8)}"
        yield f"index &{handles + 7} {rng.randrange(2)}"
        yield f"copy &{handles + 6} &{handles + 8}"
        yield f"read &{handles + 7}"
        handles += 9


def chain(depth, number):
    """Structs, each with the one before as its only member: one made, read, written and dumped."""
    name = "TUVWXYZ"[number]
    lines = [f"struct {name}0 a:u32"]
    lines += [f"struct {name}{i} a:{name}{i - 1}" for i in range(1, depth)]
    made, written = bytes([7 + 2 * number, 0, 0, 0]).hex(), bytes([8 + 2 * number, 0, 0, 0]).hex()
    lines += [f"new {name}{depth - 1} storage read_write {made}", f"read &{number}"]
    lines += [f"write &{number} {written}", f"dump &{number}"]
    return "\n".join(lines) + "\n"


def main():
    folder = Path(sys.argv[1])
    if len(sys.argv) > 2:
        depth, *counts = map(int, sys.argv[2:])
        chains = "".join(chain(depth, number) for number in range(*counts or [1]))
        (folder / "chain.script").write_text(chains)
        return
    for seed, make in enumerate((handles, cells, structs, types)):
        text = script(make(random.Random(seed)))
        (folder / f"{make.__name__}.script").write_text(text)
        half = text[: len(text) // 2]
        (folder / f"{make.__name__}_half.script").write_text(half[: half.rindex("\n") + 1])


main()
