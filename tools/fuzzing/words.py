"""The words that scripts are made of."""

from __future__ import annotations

SPACES = ("function", "private", "workgroup", "uniform", "storage", "handle")
ACCESSES = ("read_write",) * 6 + ("read", "write")
ODD_SPACES = ("Storage", "storage,", "Function", "", "pixel_local", "push_constant", "stora")
ODD_ACCESSES = ("Read", "readwrite", "read-write", "write_read", "ReadWrite", "r", "_")

NUMBERS = (
    ("0", "1", "2", "3", "00", "0000000004", "00000000004", "007", "16", "0000000000", "00000000000")
    + ("2147483647", "2147483648", "4294967279", "4294967280", "4294967294", "4294967295", "4294967296")
    + ("4294967297", "1073741823", "1073741824", "9999999999", "10000000000", "99999999999", "04294967295")
    + ("18446744073709551615", "18446744073709551616", "-1", "+1", "1.0", "1e3", "0x10", "1_0", "", "\u0663", "\uff11")
)

COUNTS = NUMBERS + ("65536", "1048576", "1", "2")

SCALARS = ("i32", "u32", "i64", "u64")
VECTORS = tuple(f"vec{n}<{scalar}>" for n in (2, 3, 4) for scalar in SCALARS)
MATRICES = tuple(f"mat{c}x{r}<{scalar}>" for c in (2, 3, 4) for r in (2, 3, 4) for scalar in SCALARS)
ATOMICS = ("atomic<i32>", "atomic<u32>")
# Vectors stand for as many as matrices do, and scalars and atomics for as many as vectors.
PLAIN_TYPES = SCALARS * 6 + ATOMICS * 6 + VECTORS * 3 + MATRICES

ODD_TYPES = (
    ("bool", "f32", "f16", "atomic<u64>", "atomic<i64>", "atomic<bool>", "atomic", "atomic<>", "atomic<atomic<u32>>")
    + ("vec1<u32>", "vec5<u32>", "vec2<f32>", "vec2<vec2<u32>>", "vec<u32>", "vec2", "vec2u", "vec2<u32,2>", "vec02<u32>")
    + ("mat1x2<u32>", "mat2x5<i32>", "mat2<u32>", "mat2X2<u32>", "mat2x2<vec2<u32>>", "mat22<u32>", "mat2x2x2<u32>")
    + ("array", "array<>", "array<u32,>", "array<,2>", "array<u32,2,2>", "array<u32;2>", "Array<u32>", "array<2,u32>")
    + ("vec2<u32", "vec2u32>", "vec2<u32>>", "<u32>", ">", "<", "array<u32,2>>", "array<array<u32,2>,3", "u32,2", "U32")
    + ("array<u32,-1>", "array<u32,0x2>", "array<u32,00000000002>", "array<u32,0000000002>", "array<u32,4294967295>")
    + ("array<u32,4294967296>", "array<u32,1073741823>", "array<u32,1073741824>", "array<u64,536870911>")
    + ("array<u64,536870912>", "array<array<u32,65536>,16383>", "array<array<u32,65536>,16384>", "array<vec3<u32>,0>")
    + ("array<array<u32>>", "array<array<u32>,2>", "array<array<u32,0>,2>", "ptr<u32>", "ref<u32>", "array<u32,2>,3")
    + ("array<array<u32>,", "array<u32>,2", "array< u32>", "vec3<u32>,2", "i32i32", "_", "struct", "array<vec3,2>")
)

MEMBER_NAMES = ("a", "b", "c", "d", "e", "_", "_f", "g1", "A", "i32", "struct", "x" * 70, "read", "array")
ODD_NAMES = ("9e", "f-g", "\u00e9", "", "a.b", "a:b", "@a", "a(b", "@size(4)", "@align(4)", "@Size(4)a", "@align(4", "&0")

STRUCT_NAMES = (
    ("array", "vec3", "atomic", "bool", "struct", "new", "mat2x2", "_", "__", "A", "Z9", "f32", "N" * 90, "vec2u", "read")
    + ("i32", "u32", "i64", "u64", "9S", "S-1", "S.1", "S<u32>", "array<u32>", "\u00dcber", "@S", "S0", "S1", "S2")
)

NO_COMMANDS = (
    ("read", "dump", "copy &0", "write &0", "index &0", "member &0", "new", "new u32", "new u32 storage", "struct")
    + ("new u32 storage read", "struct S", "struct S:u32", "READ &0", "Read &0", "load &0", "replace &0 00", "newof &0")
    + ("# read &0", "// read &0", "read &0;", "read 0", "read & 0", "read &", "read & &0", "dump &0 &0", "read &0 &0")
    + ("copy &0 &0 &0", "write &0 0", "write &0 0g", "write &0 0x01", "write &0 000", "index &0 &0", "member &0 &0")
    + ("struct S a", "struct S a:", "struct S :u32", "struct S a:u32,b:u32", "struct S a::u32", "struct S a:u32 b")
    + ("struct S {a:u32}", "struct S @align(4) a:u32", "struct S @align(4)@align(8)a:u32", "struct S @size()a:u32")
    + ("struct S @align(4)@size(4)@align(4)a:u32", "struct S @foo(4)a:u32", "struct S a:u32@align(4)", "struct S a:S")
    + ("struct S @align( 4)a:u32", "struct S @ALIGN(4)a:u32", "struct S @align 4 a:u32", "quit", "&0", "done", "\u00a0")
)


def array(element, count):
    return f"array<{element}>" if count is None else f"array<{element},{count}>"


def nested(brackets, inner="u32", count="1"):
    """A word with so many `<`, each inside the one before."""
    inside = inner.count("<")
    arrays = brackets - inside
    return "array<" * arrays + inner + (f",{count}>" if count else ">") * arrays
