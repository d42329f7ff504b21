"""A memory of cells that are plain bytes, and of handles that name ranges of them."""

from __future__ import annotations

from dataclasses import dataclass

from fuzzing.layouts import Array, Matrix, Struct, Type, Vector, scalars, value_text


class Refused(Exception):
    """What a line prints behind `refused `."""


@dataclass
class Handle:
    """The part of a cell that begins at a byte."""

    cell: bytearray
    at: int
    ty: Type
    count: int | None  # the elements of the runtime-sized array that the cell is or ends in
    access: str

    def length(self):
        return self.ty.length(self.count)

    def held(self):
        return bytes(self.cell[self.at : self.at + self.length()])

    def text(self):
        return value_text(self.ty, self.cell, self.at, self.count)

    def parts(self):
        """How many parts an index finds."""
        return self.ty.parts(self.count)[-1]

    def own_count(self):
        """The elements of the runtime-sized array that the part itself is or ends in."""
        return None if self.ty.runtime is None else self.count

    def asks_to_read(self):
        if self.access == "write":
            raise Refused("NotRead")

    def asks_to_write(self):
        if self.access == "read":
            raise Refused("NotWrite")


def laid_out(ty, data):
    """The bytes of the value that these bytes lay out, padding zeroed, and its count of runtime-sized elements."""
    if not ty.has_layout:
        raise Refused("NoValue")
    count = None if ty.is_fixed else ty.count_in(len(data))
    if len(data) < ty.size if ty.is_fixed else count is None:
        raise Refused("NoValue")
    value = bytearray(ty.length(count))
    for at, width in scalars(ty, 0, count):
        value[at : at + width] = data[at : at + width]
    return value, count


class Memory:
    def __init__(self):
        self.handles = []

    def add(self, handle):
        """The number of the new handle."""
        self.handles.append(handle)
        return len(self.handles) - 1

    def handle(self, number):
        if number >= len(self.handles):
            raise Refused("NoHandle")
        return self.handles[number]

    def new(self, ty, access, data):
        cell, count = laid_out(ty, data)
        return self.add(Handle(cell, 0, ty, count, access))

    def member(self, number, name):
        whole = self.handle(number)
        whole.asks_to_read()
        found = whole.ty.member(name) if isinstance(whole.ty, Struct) else None
        if found is None:
            raise Refused("Component")
        offset, ty = found
        return self.add(Handle(whole.cell, whole.at + offset, ty, whole.count, whole.access))

    def index(self, number, i):
        whole = self.handle(number)
        whole.asks_to_read()
        if not isinstance(whole.ty, (Array, Vector, Matrix)):
            raise Refused("NotIndexable")
        first, distance, ty, parts = whole.ty.parts(whole.count)
        if i >= parts:
            raise Refused("OutOfBounds")
        return self.add(Handle(whole.cell, whole.at + first + i * distance, ty, whole.count, whole.access))

    def read(self, number):
        handle = self.handle(number)
        handle.asks_to_read()
        return handle.text()

    def dump(self, number):
        handle = self.handle(number)
        handle.asks_to_read()
        return handle.held().hex()

    def write(self, number, data):
        handle = self.handle(number)
        value, count = laid_out(handle.ty, data)
        self.put(handle, handle.ty, value, count)

    def copy(self, source, target):
        source, target = self.handle(source), self.handle(target)
        source.asks_to_read()
        self.put(target, source.ty, source.held(), source.own_count())

    @staticmethod
    def put(handle, ty, value, count):
        """Overwrites the handle's range by the bytes of a value, which has to fit."""
        handle.asks_to_write()
        if ty != handle.ty or count != handle.own_count():
            raise Refused("WriteRefType")
        handle.cell[handle.at : handle.at + len(value)] = value
