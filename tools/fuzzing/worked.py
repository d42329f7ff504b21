"""Scripts whose output was worked out by hand."""

from __future__ import annotations


def script(*lines):
    """The script of lines 'LINE -> OUTPUT', and its output."""
    pairs = [line.split(" -> ") for line in lines]
    return "".join(f"{line}\n" for line, _ in pairs).encode(), [output for _, output in pairs]


SCRIPTS = (
    script(
        "struct S a:u32 b:vec3<u32> -> done",
        "new S storage read_write 0100000000000000000000000000000002000000030000000400000000000000 -> &0",
        "member &0 b -> &1",
        "index &1 2 -> &2",
        "write &2 09000000 -> done",
        "read &1 -> vec3(2u, 3u, 9u)",
        "dump &0 -> 0100000000000000000000000000000002000000030000000900000000000000",
        "new S storage read_write 01000000ffffffffffffffffffffffff020000000300000004000000ffffffff -> &3",
        "dump &3 -> 0100000000000000000000000000000002000000030000000400000000000000",
        "read &3 -> S(1u, vec3(2u, 3u, 4u))",
    ),
    script(
        "read &0 -> refused NoHandle",
        "new S storage read 00 -> refused BadLine",
        "new vec3<u32> storage write 010000000200000003000000 -> &0",
        "read &0 -> refused NotRead",
        "index &0 0 -> refused NotRead",
        "write &0 01 -> refused NoValue",
        "write &0 0 -> refused BadLine",
        "write &0 040000000500000006000000 -> done",
    ),
    script(
        "new array<u32> storage read_write 0a0000000b0000000c000000 -> &0",
        "index &0 2 -> &1",
        "index &0 3 -> refused OutOfBounds",
        "write &0 0100000002000000 -> refused WriteRefType",
        "read &1 -> 12u",
        "dump &0 -> 0a0000000b0000000c000000",
    ),
    script(
        "new array<u32> storage read_write 0100000002000000 -> &0",
        "new array<u32> storage read_write 030000000400000005000000 -> &1",
        "copy &0 &1 -> refused WriteRefType",
        "index &1 2 -> &2",
        "index &0 0 -> &3",
        "copy &2 &3 -> done",
        "dump &0 -> 0500000002000000",
    ),
    script(
        "struct S @align(4)@align(8)a:u32 -> refused BadLine",
        "struct S a:u32 -> done",
        "struct S a:u32 -> refused BadLine",
        "struct E @align(3)a:u32 -> done",
        "new E storage read 01000000 -> refused NoValue",
        "read &4294967296 -> refused NoHandle",
        "read &99999999999 -> refused BadLine",
        "read 0 -> refused BadLine",
        "new vec2<u32> storage read 0100000002000000 -> &0",
        "index &0 9999999999 -> refused OutOfBounds",
    ),
    script(
        "struct A @size(16)a:u32 b:u32 -> done",
        "new A storage read_write 0100000000000000000000000000000002000000 -> &0",
        "member &0 a -> &1",
        "write &1 05000000 -> done",
        "dump &0 -> 0500000000000000000000000000000002000000",
        "struct R a:u32 b:array<vec2<u32>> -> done",
        "new R private read 010000000000000002000000030000 -> refused NoValue",
        "new R private read 01000000000000000200000003000000 -> &2",
        "read &2 -> R(1u, array(vec2(2u, 3u)))",
        "struct M a:atomic<i32> b:array<u32> -> done",
        "new M workgroup read_write ffffffff0500000006000000 -> &3",
        "read &3 -> M(atomic<i32>(-1i), array(5u, 6u))",
        "member &3 b -> &4",
        "write &4 07000000 -> refused WriteRefType",
        "write &4 070000000800000009 -> done",
        "dump &3 -> ffffffff0700000008000000",
    ),
    script(
        "new array<vec3<i64>> storage read_write "
        "010000000000000002000000000000000300000000000000ffffffffffffffff"
        "0400000000000000050000000000000006000000000000000000000000000000 -> &0",
        "index &0 1 -> &1",
        "read &1 -> vec3(4li, 5li, 6li)",
        "dump &0 -> 0100000000000000020000000000000003000000000000000000000000000000"
        "0400000000000000050000000000000006000000000000000000000000000000",
        "new mat2x3<u32> handle read 0100000002000000030000000000000004000000050000000600000000000000 -> &2",
        "read &2 -> mat2x3(vec3(1u, 2u, 3u), vec3(4u, 5u, 6u))",
        "index &2 0 -> &3",
        "index &3 1 -> &4",
        "read &4 -> 2u",
    ),
)
