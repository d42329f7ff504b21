"""How the types of a WGSL shader lie in memory, where a path leads in a host's buffer, and what the constants of the
shader are: by a library whose every function is proved to meet its contract.

>>> shader = Module('''
... struct Particle { at: vec3<f32>, mass: f32, cell: vec2<u32> }
... @group(0) @binding(0) var<storage, read_write> particles: array<Particle>;
... ''')
>>> particles = shader.layout("particles")
>>> buffer = bytearray(particles.size_with(4))
>>> mass = particles.place("[3].mass", len(buffer))
>>> mass.offset, mass.store(buffer, 0.5), mass.load(buffer)
(108, True, 0.5)
>>> shader.layout("Particle").dtype()["offsets"]
[0, 12, 16]
>>> shader.expression("vec2(7, 7) / 2i").value
'vec2(3i, 3i)'

The library `libwgsl.so` is looked for in the folder that the environment variable YOLKDAMASK_LIB names, then beside this
file, and else where the system looks for libraries. It keeps no state, so any thread may call at any time. The functions
of the library are proved; what this file declares of them and wraps around them is not.
"""

from __future__ import annotations

import ctypes
import enum
import os
import pathlib
import struct
from collections.abc import Callable, Iterator, Mapping, Sequence
from dataclasses import dataclass
from typing import Any, Union

__all__ = [
    "Difference",
    "Error",
    "Expression",
    "Format",
    "Fault",
    "Faulty",
    "Layout",
    "Member",
    "Misuse",
    "Module",
    "Node",
    "Place",
    "Refused",
    "Report",
    "Stage",
    "run_script",
    "version",
]

Number = Union[int, float]

# ---- the library


class _Answer(ctypes.Structure):
    _fields_ = [("status", ctypes.c_uint32), ("number", ctypes.c_uint32), ("length", ctypes.c_size_t)]


class _Fault(ctypes.Structure):
    _fields_ = [(name, ctypes.c_size_t) for name in ("start", "end", "line", "column", "column_utf16")] + [
        ("severity", ctypes.c_uint32),
        ("code", ctypes.c_uint32),
    ]


class Node(ctypes.Structure):
    """A record of a layout: a type, with the records of the types inside it behind it in the same table.

    `sort` is 0 of a number, 1 of a vector, 2 of a matrix, 3 of an array, 4 of a structure; `kind` is that of a number, 1
    i32, 2 u32, 3 f32, 4 f16, 5 i64, 6 u64, 7 f64, and 256 more of an atomic. Offsets, sizes, alignments and strides are
    bytes. `child` is the number of the first child's record.
    """

    _fields_ = [
        (name, ctypes.c_uint32)
        for name in (
            "sort", "kind", "offset", "size", "align", "count",
            "stride", "child", "tail_start", "tail_stride", "name_start", "name_end",
        )
    ]  # fmt: skip


class _Place(ctypes.Structure):
    _fields_ = [
        ("offset", ctypes.c_uint64),
        ("node", ctypes.c_uint32),
        ("kind", ctypes.c_uint32),
        ("count", ctypes.c_uint32),
        ("spare", ctypes.c_uint32),
    ]


class _Number(ctypes.Structure):
    _fields_ = [("bits", ctypes.c_uint64), ("is_there", ctypes.c_uint32), ("spare", ctypes.c_uint32)]


class _Difference(ctypes.Structure):
    _fields_ = [("of_first", ctypes.c_uint32), ("of_second", ctypes.c_uint32), ("what", ctypes.c_uint32)]


_TEXT = [ctypes.c_char_p, ctypes.c_size_t]
_OUT = [ctypes.c_void_p, ctypes.c_size_t]
_TABLE = [ctypes.c_void_p, ctypes.c_size_t]
_U32 = ctypes.c_uint32

_DECLARED = {
    "wgsl_layout_text": (_Answer, [*_TEXT, *_TEXT, *_TEXT, _U32, _U32, _U32, *_OUT]),
    "wgsl_eval_text": (_Answer, [*_TEXT, *_TEXT, _U32, _U32, _U32, *_OUT]),
    "wgsl_expression_type": (_Answer, [*_TEXT, *_TEXT, *_TEXT, _U32, _U32, *_OUT]),
    "wgsl_expression_value": (_Answer, [*_TEXT, *_TEXT, *_TEXT, _U32, _U32, *_OUT]),
    "wgsl_expression_bytes": (_Answer, [*_TEXT, *_TEXT, *_TEXT, _U32, _U32, *_OUT]),
    "wgsl_faults": (_Answer, [*_TEXT, *_TEXT, _U32, _U32, *_OUT]),
    "wgsl_fault_text": (_Answer, [*_TEXT, *_TEXT, _U32, _U32, ctypes.c_size_t, *_OUT]),
    "wgsl_code_text": (_Answer, [_U32, *_OUT]),
    "wgsl_script": (_Answer, [*_TEXT, *_OUT]),
    "wgsl_version": (_Answer, _OUT),
    "wgsl_layout": (_Answer, [*_TEXT, *_TEXT, *_TEXT, _U32, _U32, *_OUT]),
    "wgsl_is_table": (ctypes.c_bool, _TABLE),
    "wgsl_whole": (_Place, _TABLE),
    "wgsl_part": (_Place, [*_TABLE, _Place, ctypes.c_uint64, ctypes.c_size_t]),
    "wgsl_place_of": (_Place, [*_TABLE, *_TEXT, ctypes.c_size_t, *_TEXT]),
    "wgsl_load": (_Number, [ctypes.c_void_p, ctypes.c_size_t, _Place]),
    "wgsl_store": (ctypes.c_bool, [ctypes.c_void_p, ctypes.c_size_t, _Place, ctypes.c_uint64]),
    "wgsl_load_vector": (ctypes.c_bool, [ctypes.c_void_p, ctypes.c_size_t, _Place, *_OUT]),
    "wgsl_store_vector": (ctypes.c_bool, [ctypes.c_void_p, ctypes.c_size_t, _Place, *_OUT]),
    "wgsl_size_with": (_Number, [*_TABLE, _U32, ctypes.c_uint64]),
    "wgsl_count_in": (_Number, [*_TABLE, _U32, ctypes.c_uint64]),
    "wgsl_first_difference": (_Difference, [*_TABLE, *_TABLE]),
}


def _open_library() -> ctypes.CDLL:
    folder = os.environ.get("YOLKDAMASK_LIB")
    beside = pathlib.Path(__file__).resolve().parent / "libwgsl.so"
    if folder:
        library = ctypes.CDLL(str(pathlib.Path(folder).resolve() / "libwgsl.so"))
    else:
        library = ctypes.CDLL(str(beside) if beside.is_file() else "libwgsl.so")
    for name, (result, arguments) in _DECLARED.items():
        function = getattr(library, name)
        function.restype = result
        function.argtypes = arguments
    return library


_LIBRARY = _open_library()

# ---- errors


class Error(Exception):
    """Why a call has no answer."""


class Faulty(Error):
    """The source has faults, and no answer of this kind. `Module.faults` lists them."""


class Misuse(Error):
    """An argument is none that the call takes."""


class Refused(Error):
    """There is no such answer. `number` is the library's number for the reason."""

    def __init__(self, number: int) -> None:
        self.number = number
        super().__init__(_REFUSALS.get(number, f"refusal {number}"))


_REFUSALS = {
    1: "the value needs a float",
    2: "the value needs an override",
    3: "the value needs a variable",
    4: "the value needs a function",
    5: "the value needs a texture, a sampler or a pointer",
    6: "the value is known while the shader runs alone",
    7: "the value has no bytes",
    8: "there are fewer faults",
    9: "the script is too long",
    10: "nothing of this name has a layout",
}

_OK, _FAULT, _REFUSED, _ROOM, _MEMORY, _MISUSE = range(6)


def _filled(call: Callable[[Any, int], _Answer], kind: Any, room: int) -> tuple[int, Any, int]:
    """How many faults there are, what the call wrote, and how much of that: it is made again with as much room as it needs."""
    while True:
        out = (kind * room)()
        answer = call(ctypes.addressof(out), room)
        if answer.status in (_OK, _FAULT):
            return answer.number, out, answer.length
        if answer.status == _ROOM and answer.length > room:
            room = answer.length
            continue
        if answer.status == _REFUSED:
            raise Refused(answer.number)
        if answer.status == _MEMORY:
            raise MemoryError("memory is wanting")
        if answer.status == _MISUSE:
            raise Misuse(f"argument {answer.number} is none that the call takes")
        raise Error(f"the library answered the status {answer.status}")


def _text(call: Callable[[Any, int], _Answer]) -> tuple[int, bytes]:
    number, out, length = _filled(call, ctypes.c_char, 4096)
    return number, out.raw[:length]


def _sized(text: str) -> tuple[bytes, int]:
    encoded = text.encode()
    return encoded, len(encoded)


# ---- modules


class Stage(enum.IntEnum):
    """When values are needed."""

    CONST = 0
    OVERRIDE = 1
    EXEC = 2


class Format(enum.IntEnum):
    """How layouts are written."""

    TABLE = 0
    BYTES = 1
    JSON = 2
    RUST = 3
    RUST_BYTEMUCK = 4
    C = 5


@dataclass(frozen=True)
class Fault:
    """Something that is told of a source: of the bytes from `start` to `end`, which begin in this line and column, from 1."""

    start: int
    end: int
    line: int
    column: int
    column_utf16: int
    severity: str
    code: str
    text: str

    def __str__(self) -> str:
        return f"{self.line}:{self.column}: {self.severity}: {self.text}"


@dataclass(frozen=True)
class Report:
    """A text, and how many faults the source has."""

    text: str
    faults: int


@dataclass(frozen=True)
class Expression:
    """What an expression is found to be. `bytes` is what a buffer has of the value, or None where it has none, as of a bool."""

    type: str
    value: str
    bytes: bytes | None


class Module:
    """The text of a shader, which is read again by each call.

    `stage` says when values are needed, `strict` whether what is warned of and what is left out is a fault, `crate`
    whether what the Rust crate wgsl-types has beyond WGSL is taken, and `defines` has values of overrides, by name or by the
    number of an `@id`.

    >>> shader = Module("override n: u32; const x = missing;", defines={"n": 8})
    >>> shader.expression("n * 2").value
    '16u'
    >>> for fault in shader.faults(): print(fault)
    1:28: error: nothing is named missing
    """

    def __init__(
        self,
        text: str,
        *,
        stage: Stage = Stage.CONST,
        strict: bool = False,
        crate: bool = False,
        defines: Mapping[str, object] | None = None,
    ) -> None:
        self.text = text
        self._defines = "".join(f"{name}={_written(value)}\n" for name, value in (defines or {}).items())
        self._how = (int(stage), int(strict) | int(crate) << 1)

    def _asked(self) -> tuple[Any, ...]:
        return (*_sized(self._defines), *self._how)

    def faults(self) -> list[Fault]:
        """What is told of it, in the order of the places: faults, warnings, and notes of what is left out."""
        source, asked = _sized(self.text), self._asked()
        _, records, length = _filled(lambda *out: _LIBRARY.wgsl_faults(*source, *asked, *out), _Fault, 16)
        told = []
        for number in range(length):
            record = records[number]
            _, text = _text(lambda *out, number=number: _LIBRARY.wgsl_fault_text(*source, *asked, number, *out))
            _, code = _text(lambda *out, record=record: _LIBRARY.wgsl_code_text(record.code, *out))
            places = (record.start, record.end, record.line, record.column, record.column_utf16)
            severity = {1: "error", 2: "warning"}.get(record.severity, "note")
            told.append(Fault(*places, severity, code.decode(), text.decode()))
        return told

    def layouts(self, format: Format = Format.TABLE, names: Sequence[str] = ()) -> Report:
        """The layouts of all that it shares with its host, or of the declarations of these names."""
        source, of_names = _sized(self.text), _sized("\n".join(names))
        defines, how = self._asked()[:2], self._how
        faults, text = _text(
            lambda *out: _LIBRARY.wgsl_layout_text(*source, *of_names, *defines, int(format), *how, *out)
        )
        return Report(text.decode(), faults)

    def constants(self, format: Format = Format.TABLE) -> Report:
        """The types and values of its constants: as lines, or as JSON."""
        source, defines, how = _sized(self.text), self._asked()[:2], self._how
        faults, text = _text(lambda *out: _LIBRARY.wgsl_eval_text(*source, *defines, int(format), *how, *out))
        return Report(text.decode(), faults)

    def expression(self, expression: str) -> Expression:
        """What an expression is, which may name what the module declares. `Faulty` where it has faults, `Refused` where it has
        no value.

        >>> Module("const WIDTH = 5u;").expression("vec2(WIDTH, 1u)")
        Expression(type='vec2<u32>', value='vec2(5u, 1u)', bytes=b'\\x05\\x00\\x00\\x00\\x01\\x00\\x00\\x00')
        """
        value = self._side(_LIBRARY.wgsl_expression_value, expression)
        kind = self._side(_LIBRARY.wgsl_expression_type, expression)
        laid_out: bytes | None = None
        try:
            laid_out = self._side(_LIBRARY.wgsl_expression_bytes, expression)
        except Refused as refused:
            if refused.number != 7:
                raise
        return Expression(kind.decode(), value.decode(), laid_out)

    def _side(self, call: Any, expression: str) -> bytes:
        source, written, asked = _sized(self.text), _sized(expression), self._asked()
        faults, text = _text(lambda *out: call(*source, *written, *asked, *out))
        if not text:
            raise Faulty(f"{expression!r} has no value: {faults} faults")
        return text

    def layout(self, type: str) -> Layout:
        """The layout of a structure, an alias or a variable by its name, or of a type as the module may write it.

        >>> Module("").layout("array<vec3<f32>, 4>").size
        64
        """
        source, written, asked = _sized(self.text), _sized(type), self._asked()
        faults, nodes, length = _filled(lambda *out: _LIBRARY.wgsl_layout(*source, *written, *asked, *out), Node, 64)
        if not length:
            raise Faulty(f"{type!r} has no layout: {faults} faults")
        return Layout(nodes[:length], source[0])


def _written(value: object) -> str:
    return str(value).lower() if isinstance(value, bool) else str(value)


# ---- layouts

_NUMBER, _VECTOR, _MATRIX, _ARRAY, _STRUCTURE = range(5)
_NOWHERE = 0xFFFF_FFFF
_ATOMIC = 0x100

# Of each kind of a number: its bytes, its letter for `struct`, its name for NumPy.
_KINDS = {
    1: (4, "i", "<i4"),
    2: (4, "I", "<u4"),
    3: (4, "f", "<f4"),
    4: (2, "e", "<f2"),
    5: (8, "q", "<i8"),
    6: (8, "Q", "<u8"),
    7: (8, "d", "<f8"),
}
_FIELDS = {
    1: "sort",
    2: "kind",
    3: "offset",
    4: "size",
    5: "align",
    6: "count",
    7: "stride",
    8: "child",
    9: "tail_start",
    10: "tail_stride",
}


@dataclass(frozen=True)
class Difference:
    """Where two layouts differ first: the numbers of the records, and the field that differs."""

    of_first: int
    of_second: int
    field: str


@dataclass(frozen=True)
class Member:
    """A member of a structure: its name, where it begins in bytes, and the number of its record."""

    name: str
    offset: int
    number: int


class Layout:
    """Where the parts of the values of a type stand, as a table of records. It is made once, and then serves any number of
    reads and writes."""

    def __init__(self, nodes: Sequence[Node], names: bytes = b"") -> None:
        self._nodes = (Node * len(nodes))(*nodes)
        self._table = (ctypes.addressof(self._nodes), len(nodes))
        self._names = names

    @classmethod
    def from_nodes(cls, nodes: Sequence[Node], names: str = "") -> Layout:
        """A layout of a host's own making; ValueError where the records are not the layout of a type."""
        layout = cls(nodes, names.encode())
        if not _LIBRARY.wgsl_is_table(*layout._table):
            raise ValueError("these records are not the layout of a type")
        return layout

    @property
    def nodes(self) -> Sequence[Node]:
        """The records, the root first."""
        return list(self._nodes)

    @property
    def align(self) -> int:
        """What the place of a value is a multiple of, in bytes."""
        return int(self._nodes[0].align)

    @property
    def size(self) -> int | None:
        """How many bytes a value takes; None where the type is or ends in a runtime-sized array."""
        root = self._nodes[0]
        return None if root.tail_stride else int(root.size)

    def size_with(self, count: int) -> int:
        """How many bytes a value takes with so many elements in the runtime-sized array."""
        found = _LIBRARY.wgsl_size_with(*self._table, 0, _counted(count))
        if not found.is_there:
            raise OverflowError("that many elements take 2^64 bytes or more")
        return int(found.bits)

    def count_in(self, length: int) -> int | None:
        """How many elements the runtime-sized array has in so many bytes, 0 where there is none; None where they are too few."""
        found = _LIBRARY.wgsl_count_in(*self._table, 0, _counted(length))
        return int(found.bits) if found.is_there else None

    def place(self, path: str, length: int) -> Place:
        """The place of a path as WGSL writes it behind a variable, in a value of so many bytes; KeyError where it leads nowhere."""
        found = _LIBRARY.wgsl_place_of(*self._table, self._names, len(self._names), _counted(length), *_sized(path))
        if found.node == _NOWHERE:
            raise KeyError(path)
        return Place(found)

    @property
    def whole(self) -> Place:
        """The place of the whole value."""
        return Place(_LIBRARY.wgsl_whole(*self._table))

    def part(self, place: Place, index: int, length: int) -> Place:
        """The place of a component, column, element or member by its position; IndexError where there is none."""
        found = _LIBRARY.wgsl_part(*self._table, place._raw, _counted(index), _counted(length))
        if found.node == _NOWHERE:
            raise IndexError(index)
        return Place(found)

    def members(self, number: int = 0) -> Iterator[Member]:
        """The members of the structure of this record, the root's where none is named."""
        node = self._nodes[number]
        if node.sort == _STRUCTURE:
            for child in range(node.child, node.child + node.count):
                yield Member(self._name(child), int(self._nodes[child].offset), child)

    def _name(self, number: int) -> str:
        node = self._nodes[number]
        return self._names[node.name_start : node.name_end].decode()

    def first_difference(self, other: Layout) -> Difference | None:
        """Where this layout and another differ first, names apart; None where they are the same.

        >>> one, two = Module("").layout("array<u32, 4>"), Module("").layout("array<vec2<u32>, 4>")
        >>> one.first_difference(one), one.first_difference(two).of_first
        (None, 0)
        """
        found = _LIBRARY.wgsl_first_difference(*self._table, *other._table)
        return Difference(found.of_first, found.of_second, _FIELDS.get(found.what, "record")) if found.what else None

    def dtype(self) -> Any:
        """What `numpy.dtype` takes for a value, or for an element where the type is a runtime-sized array: a dictionary
        `names`, `formats`, `offsets`, `itemsize` of a structure, a text of a number, and pairs of one of these and a shape
        of what has parts alike. A structure that ends in a runtime-sized array has no such thing.

        >>> Module("struct S { a: u32, b: vec3<f32> }").layout("S").dtype()
        {'names': ['a', 'b'], 'formats': ['<u4', ('<f4', (3,))], 'offsets': [0, 16], 'itemsize': 32}
        >>> Module("").layout("mat3x3<f32>").dtype()
        ({'names': ['part'], 'formats': [('<f4', (3,))], 'offsets': [0], 'itemsize': 16}, (3,))
        """
        root = self._nodes[0]
        if root.tail_stride and root.sort == _ARRAY:
            return self._spaced(root)
        return self._dtype(0)

    def _dtype(self, number: int) -> Any:
        node = self._nodes[number]
        if node.tail_stride:
            raise ValueError("a runtime-sized array has no dtype")
        if node.sort == _NUMBER:
            return _KINDS[node.kind & ~_ATOMIC][2]
        if node.sort == _STRUCTURE:
            members = list(self.members(number))
            return {
                "names": [member.name for member in members],
                "formats": [self._dtype(member.number) for member in members],
                "offsets": [member.offset for member in members],
                "itemsize": int(node.size),
            }
        return (self._spaced(node), (int(node.count),))

    def _spaced(self, node: Node) -> Any:
        """One of the parts alike, with the bytes up to the next."""
        child = self._nodes[node.child]
        part = self._dtype(node.child)
        if child.size == node.stride:
            return part
        return {"names": ["part"], "formats": [part], "offsets": [0], "itemsize": int(node.stride)}

    def struct_format(self) -> str:
        """The format of a value for the module `struct`: its numbers in the order of their places, with padding between them.
        ValueError where the type is or ends in a runtime-sized array.

        >>> Module("struct S { a: u32, b: vec3<f32> }").layout("S").struct_format()
        '<I12xfff4x'
        """
        size = self.size
        if size is None:
            raise ValueError("a runtime-sized array has no format")
        words, end = ["<"], 0
        for offset, kind in self._numbers(0, 0):
            width, letter, _ = _KINDS[kind & ~_ATOMIC]
            words += [f"{offset - end}x"] * (offset > end) + [letter]
            end = offset + width
        return "".join([*words, *[f"{size - end}x"] * (size > end)])

    def _numbers(self, number: int, offset: int) -> Iterator[tuple[int, int]]:
        node = self._nodes[number]
        if node.sort == _NUMBER:
            yield offset, int(node.kind)
        elif node.sort == _STRUCTURE:
            for member in self.members(number):
                yield from self._numbers(member.number, offset + member.offset)
        else:
            for part in range(node.count):
                yield from self._numbers(node.child, offset + part * node.stride)


def _counted(number: int) -> int:
    if not 0 <= number < 1 << 64:
        raise OverflowError(number)
    return number


class Place:
    """Where a part of a value stands: it loads and stores a number, or the numbers of a vector, in a host's bytes, which are
    anything that lends its memory, as a bytearray."""

    def __init__(self, raw: _Place) -> None:
        self._raw = raw

    @property
    def offset(self) -> int:
        """Where it begins in the bytes."""
        return int(self._raw.offset)

    @property
    def number(self) -> int:
        """The number of its record in the layout."""
        return int(self._raw.node)

    def __repr__(self) -> str:
        return f"Place(offset={self.offset}, number={self.number})"

    def _letter(self) -> str:
        kind = _KINDS.get(self._raw.kind & ~_ATOMIC)
        if not kind or not self._raw.count:
            raise TypeError("no number stands there, and no vector")
        return kind[1]

    def load(self, buffer: Any) -> Number | tuple[Number, ...]:
        """The number there, or those of the vector; IndexError where they do not lie in the buffer.

        >>> Module("").layout("vec2<i32>").place(".y", 8).load(b"\\x01\\0\\0\\0\\xff\\xff\\xff\\xff")
        -1
        """
        letter, view = self._letter(), memoryview(buffer).cast("B")
        # The bytes from there on, as many as the numbers may take.
        held = bytes(view[self.offset : self.offset + 8 * self._raw.count])
        there = _Place(0, self._raw.node, self._raw.kind, self._raw.count, 0)
        if self._raw.count == 1:
            found = _LIBRARY.wgsl_load(held, len(held), there)
            numbers = [found.bits] if found.is_there else None
        else:
            out = (ctypes.c_uint64 * self._raw.count)()
            is_there = _LIBRARY.wgsl_load_vector(held, len(held), there, ctypes.addressof(out), len(out))
            numbers = list(out) if is_there else None
        if numbers is None:
            raise IndexError(f"{self!r} is not in {len(view)} bytes")
        found_numbers = tuple(_number_of(letter, bits) for bits in numbers)
        return found_numbers[0] if self._raw.count == 1 else found_numbers

    def store(self, buffer: Any, value: Number | Sequence[Number]) -> bool:
        """Overwrites the number there, or those of the vector, and answers True; IndexError, and nothing is changed, where they
        do not lie in the buffer; struct.error where a number does not fit."""
        letter, view = self._letter(), memoryview(buffer).cast("B")
        lent = (ctypes.c_char * len(view)).from_buffer(view)
        at = (ctypes.addressof(lent), len(view))
        values = [value] if isinstance(value, (int, float)) else list(value)
        bits = [_bits_of(letter, number) for number in values]
        if self._raw.count == 1 and len(bits) == 1:
            is_stored = _LIBRARY.wgsl_store(*at, self._raw, bits[0])
        else:
            numbers = (ctypes.c_uint64 * len(bits))(*bits)
            is_stored = _LIBRARY.wgsl_store_vector(*at, self._raw, ctypes.addressof(numbers), len(bits))
        if not is_stored:
            raise IndexError(f"{self!r} does not take {len(bits)} numbers in {len(view)} bytes")
        return True


def _number_of(letter: str, bits: int) -> Number:
    number: Number = struct.unpack_from(f"<{letter}", bits.to_bytes(8, "little"))[0]
    return number


def _bits_of(letter: str, number: Number) -> int:
    return int.from_bytes(struct.pack(f"<{letter}", number), "little")


# ---- scripts, and the library


def run_script(script: str | bytes) -> str:
    """Runs a script of calls on a shader's memory, which begins empty: a line for each line of the script that has a word.

    >>> print(run_script("new u32 storage read_write 01000000\\nread &0"), end="")
    &0
    1u
    """
    given = script.encode() if isinstance(script, str) else script
    _, text = _text(lambda *out: _LIBRARY.wgsl_script(given, len(given), *out))
    return text.decode()


def version() -> str:
    """The version of the library."""
    return _text(lambda *out: _LIBRARY.wgsl_version(*out))[1].decode()
