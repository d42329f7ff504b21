"""The types of scripts: their texts, their nodes, and where their scalars stand in bytes.

Each type has `text`, `nodes` (the types in it, itself too), `align` (0 where an attribute says so), `size` (None where
it is not known), `is_fixed` (it has a layout, of `size` bytes) and `runtime` (None, or where the runtime-sized array that
it is or ends in begins, and how far its elements lie apart). A type has a layout where it is fixed or has a `runtime`.
"""

from __future__ import annotations

from dataclasses import dataclass

LIMIT = 4_294_967_295  # the greatest size, offset, distance, count and attribute


def within(number):
    """The number, or None where it passes the limit."""
    return number if number is not None and number <= LIMIT else None


def round_up(alignment, number):
    """The least multiple of the alignment that is no less than the number; None where there is none in the limit."""
    if number is None or alignment == 0:
        return None
    return within(-(-number // alignment) * alignment)


def is_power_of_two(number):
    return number > 0 and number & (number - 1) == 0


class Type:
    """What all types share."""

    is_fixed = True
    runtime = None

    @property
    def has_layout(self):
        return self.is_fixed or self.runtime is not None

    def count_in(self, length):
        """How many elements of its runtime-sized array so many bytes hold; None where that is none at all."""
        begin, distance = self.runtime
        return (length - begin) // distance if length >= begin + distance else None

    def length(self, count):
        """How many bytes a value has, with so many elements of the runtime-sized array."""
        if self.runtime is None:
            return self.size
        begin, distance = self.runtime
        return begin + count * distance

    def parts(self, count):
        """What an index finds: where the first part stands, how far parts lie apart, their type and their number."""
        return None

    def placed(self, count):
        """Each part in its order: where it stands, and its type. None of a scalar and of an atomic."""
        first, distance, inner, number = self.parts(count)
        return [(first + i * distance, inner) for i in range(number)]

    def __eq__(self, other):
        return self.text == other.text

    def __hash__(self):
        return hash(self.text)

    def __str__(self):
        return self.text


@dataclass(eq=False)
class Scalar(Type):
    text: str
    size: int
    is_signed: bool
    suffix: str
    nodes = 1

    def __post_init__(self):
        self.align = self.size

    def placed(self, count):
        return None

    def value_text(self, data):
        return f"{int.from_bytes(data, 'little', signed=self.is_signed)}{self.suffix}"


SCALARS = {
    scalar.text: scalar
    for scalar in (
        Scalar("i32", 4, True, "i"),
        Scalar("u32", 4, False, "u"),
        Scalar("i64", 8, True, "li"),
        Scalar("u64", 8, False, "lu"),
    )
}


class Atomic(Type):
    size = align = 4
    nodes = 2

    def __init__(self, scalar):
        self.scalar = scalar
        self.text = f"atomic<{scalar.text}>"

    def placed(self, count):
        return None

    def value_text(self, data):
        return f"{self.text}({self.scalar.value_text(data)})"


class Vector(Type):
    nodes = 2

    def __init__(self, number, scalar):
        self.number, self.scalar = number, scalar
        self.text = f"vec{number}<{scalar.text}>"
        self.value_name = f"vec{number}"
        self.size = number * scalar.size
        # Three take the place of four.
        self.align = (4 if number == 3 else number) * scalar.size

    def parts(self, count):
        return 0, self.scalar.size, self.scalar, self.number


class Matrix(Type):
    nodes = 2

    def __init__(self, columns, rows, scalar):
        self.number, self.column = columns, Vector(rows, scalar)
        self.text = f"mat{columns}x{rows}<{scalar.text}>"
        self.value_name = f"mat{columns}x{rows}"
        self.align = self.column.align
        self.size = columns * self.align

    def parts(self, count):
        return 0, self.align, self.column, self.number


class Array(Type):
    value_name = "array"

    def __init__(self, element, number):
        """`number` is None of a runtime-sized array."""
        self.element, self.number = element, number
        self.nodes = element.nodes + 1
        self.align = element.align
        self.distance = round_up(element.align, element.size)
        if number is None:
            self.text = f"array<{element.text}>"
            self.size = None
            self.is_fixed = False
            if element.is_fixed and self.distance is not None:
                self.runtime = (0, self.distance)
        else:
            self.text = f"array<{element.text}, {number}>"
            self.size = None if self.distance is None else within(number * self.distance)
            self.is_fixed = number >= 1 and element.is_fixed and self.size is not None

    def parts(self, count):
        return 0, self.distance, self.element, count if self.number is None else self.number


@dataclass
class Member:
    name: str
    ty: Type
    size: int | None = None
    align: int | None = None

    @property
    def own_size(self):
        return self.ty.size if self.size is None else self.size

    @property
    def own_align(self):
        return self.ty.align if self.align is None else self.align

    def has_valid_align(self):
        """Whether the attribute fits the type, which has a layout, and so an alignment."""
        return self.align is None or (is_power_of_two(self.align) and self.align % self.ty.align == 0)

    def has_valid_size(self):
        return self.size is None or self.size >= self.ty.size

    def is_fixed(self):
        """Whether it has a place of fixed size in a layout."""
        return self.ty.is_fixed and self.has_valid_align() and self.has_valid_size()

    def is_runtime_sized(self):
        """Whether it may end a layout as a runtime-sized array."""
        is_array = isinstance(self.ty, Array) and self.ty.runtime is not None
        return is_array and self.has_valid_align() and self.size is None


class Struct(Type):
    def __init__(self, name, members):
        self.text = self.value_name = name
        self.members = members
        self.nodes = 1 + sum(member.ty.nodes for member in members)
        self.align = max(member.own_align for member in members)
        self.offsets, end = self.place(members)
        self.size = round_up(self.align, end)
        before, last = members[:-1], members[-1]
        is_fixed_before = all(member.is_fixed() for member in before)
        self.is_fixed = is_fixed_before and last.is_fixed() and self.size is not None
        if is_fixed_before and last.is_runtime_sized() and self.offsets[-1] is not None:
            self.runtime = (self.offsets[-1], last.ty.distance)

    @staticmethod
    def place(members):
        """Where each member stands (None: past the limit), and where the last one ends."""
        offsets, end = [], 0
        for member in members:
            offset = round_up(member.own_align, end)
            size = member.own_size
            offsets.append(offset)
            end = None if offset is None or size is None else within(offset + size)
        return offsets, end

    def placed(self, count):
        return [(offset, member.ty) for offset, member in zip(self.offsets, self.members)]

    def member(self, name):
        """Where the first member of the name stands, and its type; None where there is none."""
        for offset, member in zip(self.offsets, self.members):
            if member.name == name:
                return offset, member.ty
        return None


def scalars(ty, at, count):
    """Where each scalar of a value at a place stands, and how many bytes it has."""
    placed = ty.placed(count)
    if placed is None:
        return [(at, ty.size)]
    found = []
    for offset, inner in placed:
        found += scalars(inner, at + offset, count)
    return found


def value_text(ty, data, at, count):
    """The text of the value whose bytes begin at a place."""
    placed = ty.placed(count)
    if placed is None:
        return ty.value_text(data[at : at + ty.size])
    texts = []
    for offset, inner in placed:
        texts.append(value_text(inner, data, at + offset, count))
    return f"{ty.value_name}({', '.join(texts)})"
