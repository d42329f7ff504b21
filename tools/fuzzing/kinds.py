"""The kinds of scripts, and which one a seed gives."""

from __future__ import annotations

from random import Random

from fuzzing import words
from fuzzing.authors import Author


class Mangled(Author):
    """Something happened to most lines."""

    mangles = 0.6


class Types(Author):
    """Many structures and cells, of every type and attribute; few calls on each."""

    weights = {"struct": 6, "new": 8, "member": 1, "index": 1, "read": 4, "write": 2, "dump": 4}
    mangles = 0.01


class Aliases(Author):
    """Few cells, and many handles of overlapping parts of them."""

    weights = {"member": 5, "index": 8, "read": 4, "write": 10, "copy": 8, "dump": 4}
    mangles = 0.01
    lines = (300, 1500)

    def begin(self):
        for _ in range(self.random.randint(2, 8)):
            self.put_whole(self.struct())
        for _ in range(self.random.randint(1, 4)):
            self.put_whole(self.new())
            self.put_whole("new array<vec3<i64>,3> storage read_write " + self.digits(96))


class Counts(Author):
    """Runtime-sized arrays, of few elements, behind handles, with values of each count."""

    weights = {"new": 6, "member": 6, "index": 6, "read": 5, "write": 10, "copy": 10, "dump": 5}
    mangles = 0.01

    def begin(self):
        element = self.type_word()
        self.put_whole(f"struct E {self.member_word()} {self.member_word()}")
        self.put_whole(f"struct R {self.attributes(None)}a:u32 b:array<{element}>")
        self.put_whole(f"struct Q {self.member_word()} @align(32)tail:array<E>")

    def type_word(self, depth=0):
        if depth == 0 and self.chance(0.6):
            return self.random.choice(("R", "R", "Q", "Q", "array<E>", "array<u32>", "array<vec3<u32>>", "array<R>"))
        return super().type_word(depth)


class Limits(Author):
    """Types of the most brackets and of the most nodes, and one more."""

    weights = {"struct": 3, "new": 6, "limit": 6, "index": 6, "member": 4, "read": 3, "write": 2, "copy": 2, "dump": 3}
    lines = (60, 120)

    def begin(self):
        """D11 has 4095 nodes: each structure has the one before twice."""
        inner = "u32"
        for depth in range(1, 12):
            self.put_whole(f"struct D{depth} a:{inner} b:{inner}")
            inner = f"D{depth}"
        self.put_whole("struct D12 a:D11")
        self.put_whole("struct D13 a:D12")
        self.put_whole("struct D14 a:D11 b:u32")

    def limit(self):
        word = self.random.choice((self.brackets, self.nodes))()
        if self.chance(0.4):
            return f"struct L{len(self.state.structs)} a:{word}"
        length = self.random.choice((4, 8, 16, 4096, 8192, 16384))
        return f"new {word} storage read_write {self.digits(length)}"

    def brackets(self):
        number = self.random.choice((1, 8, 15, 16, 16, 16, 17, 17, 18))
        inner = self.random.choice(("u32", "vec3<u32>", "mat2x2<i64>", "atomic<i32>", "D3", "D13"))
        word = words.nested(number, inner)
        if self.chance(0.2):
            # The outermost array is a runtime-sized one.
            head, comma, _ = word.rpartition(",")
            return head + ">" * bool(comma)
        return word

    def nodes(self):
        return self.random.choice(("D11", "array<D11,1>", "array<array<D11,1>,1>", "array<D11>", "D12", "array<D12,1>"))


class Wide(Author):
    """Structures of thousands of members."""

    weights = {"member": 8, "read": 1, "write": 3, "copy": 1, "dump": 1}
    lines = (20, 60)
    longest_value = 40_000

    def begin(self):
        """A structure of 4096 nodes, and one of 4097; then what has so many members of other types."""
        for number in (4095, 4096):
            self.put_whole(f"struct W{number} " + " ".join(f"m{i}:u32" for i in range(number)))
        count = self.random.randint(100, 1365)
        self.put_whole("struct V " + " ".join(f"{self.attributes(None)}v{i}:{self.plain()}" for i in range(count)))
        for name in ("W4095", "W4096", "V"):
            ty = self.type_named(name)
            length = ty.size if ty and ty.is_fixed else 16380
            self.put_whole(f"new {name} storage read_write {self.digits(length)}")

    def plain(self):
        return self.random.choice(words.PLAIN_TYPES)


class Chain(Author):
    """Structures, each with the one before as its first member, and handles on the way down."""

    weights = {"member": 8, "read": 2, "write": 3, "copy": 2, "dump": 2}
    lines = (10, 40)
    mangles = 0.0

    def begin(self):
        depth = self.random.choice((200, 800, 1500, 4095, 4096))
        self.put_whole("struct C0 a:i32")
        for number in range(1, depth):
            self.put_whole(f"struct C{number} a:C{number - 1}")
        self.put_whole(f"new C{depth - 1} storage read_write {self.digits(4)}")
        if self.handles:
            # Each handle has its type, with what is left of the chain in it.
            for number in range(self.random.randint(0, min(depth, 300_000 // depth))):
                self.put_whole(f"member &{number} a")


class Large(Author):
    """Values of a hundred thousand bytes and more."""

    weights = {"new": 2, "index": 4, "read": 1, "write": 2, "copy": 2, "dump": 1}
    lines = (5, 15)
    mangles = 0.0
    longest_value = 120_000

    def new(self):
        ty, word = self.type_and_word()
        if ty is None or not ty.has_layout or ty.align > 64:
            return super().new()
        stride = max(-(-ty.length(1) // ty.align) * ty.align, 4)
        number = self.random.randint(1, self.longest_value // stride + 1)
        if self.chance(0.5):
            return f"new array<{word},{number}> storage read_write {self.digits(number * stride)}"
        return f"new array<{word}> storage read_write {self.digits(number * stride + self.random.randrange(stride))}"


class Handles(Author):
    """Thousands of handles of one cell, and few reads of the whole."""

    weights = {"member": 6, "index": 12, "write": 3, "copy": 2, "read": 2}
    mangles = 0.0
    lines = (3000, 6000)

    def begin(self):
        self.put_whole("struct H a:mat4x4<u32> b:array<vec3<i32>,4> c:array<mat2x3<u64>,2>")
        for access in ("read_write", "read_write", "read", "write"):
            self.put_whole(f"new H storage {access} {self.digits(self.type_named('H').size)}")


# How often each kind is met.
KINDS = {
    Author: 30,
    Mangled: 20,
    Types: 20,
    Aliases: 12,
    Counts: 16,
    Limits: 4,
    Wide: 2,
    Chain: 1,
    Large: 3,
    Handles: 2,
}


def script_of(seed):
    """The name of the kind of script that a seed gives, the script, and what it prints, line by line."""
    kinds, weights = zip(*KINDS.items())
    kind = Random(f"kind {seed}").choices(kinds, weights)[0]
    script, expected = kind(seed).write_script()
    return kind.__name__, script, expected
