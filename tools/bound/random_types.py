"""The places of random types, through the library: random_types.py RUN.

Of each of 2,000 random types, each scalar's place, size and number in random bytes is compared with those of a plain
reckoning (tools/fuzzing/layouts.py, which follows the rules of the language alone); of those without floats, some scalars
are read by a script of the library too. Scripts are compared with what the program RUN prints. The last line is
'N passed, M failed'."""

import pathlib
import random
import struct
import subprocess
import sys

HERE = pathlib.Path(__file__).resolve().parent
sys.path.insert(0, str(HERE.parent))

from fuzzing import kinds, layouts  # noqa: E402
from yolkdamask import Module, run_script  # noqa: E402

# Scripts have chains of thousands of structures.
sys.setrecursionlimit(30_000)

TYPES = 2000
SCRIPTS = 200
FLOATS = {"f32": ("f", 4), "f16": ("e", 2)}
ALL_SCALARS = {**layouts.SCALARS, **{name: layouts.Scalar(name, size, True, "") for name, (_, size) in FLOATS.items()}}

passed = failed = 0


def count(holds, name):
    global passed, failed
    if holds:
        passed += 1
    else:
        failed += 1
        if failed < 20:
            print(name)


class Types:
    """Random structures, in the order in which they are declared."""

    def __init__(self, seed, scalars):
        self.random = random.Random(seed)
        self.scalars = list(scalars.values())
        self.structs = []

    def plain(self):
        scalar = self.random.choice(self.scalars)
        sort = self.random.randrange(6)
        if sort < 2:
            return scalar
        if sort == 2 and scalar.text in ("i32", "u32"):
            return layouts.Atomic(scalar)
        if sort == 3:
            return layouts.Matrix(self.random.randint(2, 4), self.random.randint(2, 4), scalar)
        return layouts.Vector(self.random.randint(2, 4), scalar)

    def type(self, depth=0):
        draw = self.random.random()
        if self.structs and draw < 0.2:
            return self.random.choice(self.structs)
        if depth < 2 and draw < 0.45:
            return layouts.Array(self.type(depth + 1), self.random.randint(1, 3))
        return self.plain()

    def member(self, number):
        ty = self.type()
        align = ty.align * self.random.choice((1, 2, 4)) if self.random.random() < 0.2 else None
        size = ty.size + self.random.choice((0, 1, 4, 12)) if self.random.random() < 0.2 else None
        return layouts.Member(f"m{number}", ty, size, align)

    def struct(self):
        members = [self.member(number) for number in range(self.random.randint(1, 5))]
        made = layouts.Struct(f"S{len(self.structs)}", members)
        self.structs.append(made)
        return made

    def whole(self):
        """A few structures, and one that may end in a runtime-sized array."""
        for _ in range(self.random.randint(0, 2)):
            self.struct()
        last = self.struct()
        if self.random.random() < 0.3:
            self.structs.pop()
            tail = layouts.Member("tail", layouts.Array(self.type(1), None))
            last = layouts.Struct(last.text, [*last.members, tail])
            self.structs.append(last)
        return last


def member_text(member):
    align = f"@align({member.align}) " if member.align is not None else ""
    size = f"@size({member.size}) " if member.size is not None else ""
    return f"{align}{size}{member.name}: {member.ty.text}"


def module_text(structs):
    return "\n".join(f"struct {ty.text} {{ {', '.join(map(member_text, ty.members))} }}" for ty in structs)


def member_word(member):
    align = f"@align({member.align})" if member.align is not None else ""
    size = f"@size({member.size})" if member.size is not None else ""
    return f"{align}{size}{member.name}:{member.ty.text.replace(' ', '')}"


def script_lines(structs):
    return [f"struct {ty.text} {' '.join(map(member_word, ty.members))}" for ty in structs]


def steps(ty, length_count):
    """Each scalar: the steps to it, where it stands, and its type."""
    placed = ty.placed(length_count)
    if placed is None:
        yield [], 0, ty
        return
    for number, (offset, inner) in enumerate(placed):
        step = ty.members[number].name if isinstance(ty, layouts.Struct) else number
        for rest, at, scalar in steps(inner, length_count):
            yield [step, *rest], offset + at, scalar


def path_text(found, ty, pick):
    """As WGSL writes it; components by letters at times."""
    text = ""
    for step in found:
        if isinstance(step, str):
            text += f".{step}" if text else step
        elif isinstance(ty, layouts.Vector) and pick.random() < 0.7:
            text += "." + pick.choice(("xyzw", "rgba"))[step]
        else:
            text += f"[{step}]"
        ty = next(inner for name, inner in parts_of(ty) if name == step)
    return text


def parts_of(ty):
    if isinstance(ty, layouts.Struct):
        return [(member.name, member.ty) for member in ty.members]
    _, _, inner, _ = ty.parts(4)
    return [(number, inner) for number in range(4)]


def number_in(scalar, data):
    kind = getattr(scalar, "scalar", scalar)
    if kind.text in FLOATS:
        return struct.unpack(f"<{FLOATS[kind.text][0]}", data)[0]
    return int.from_bytes(data, "little", signed=kind.is_signed)


def is_same(one, other):
    return one == other or one != one and other != other


def try_type(seed):
    scalars = layouts.SCALARS if seed % 2 else ALL_SCALARS
    types = Types(seed, scalars)
    ty = types.whole()
    elements = types.random.randint(1, 3)
    if not ty.has_layout:
        return count(False, f"seed {seed}: a type without a layout was made")
    length = ty.length(elements)
    layout = Module(module_text(types.structs)).layout(ty.text)
    count(layout.size_with(elements) == length and layout.align == ty.align, f"seed {seed}: size or alignment")
    count(layout.count_in(length) == (elements if ty.runtime else 0), f"seed {seed}: elements")
    data = types.random.randbytes(length)
    all_steps = list(steps(ty, elements))
    for found, offset, scalar in all_steps:
        path = path_text(found, ty, types.random)
        place = layout.place(path, length)
        wanted = number_in(scalar, data[offset : offset + scalar.size])
        count(place.offset == offset and is_same(place.load(data), wanted), f"seed {seed}: {path}")
    if seed % 2 and ty.length(elements) < 2000:
        try_script(seed, types, ty, data, types.random.sample(all_steps, min(3, len(all_steps))))


def try_script(seed, types, ty, data, chosen):
    """The same numbers, as a script reads them."""
    lines = script_lines(types.structs) + [f"new {ty.text} storage read_write {data.hex()}"]
    wanted = []
    handle = 0
    for found, offset, scalar in chosen:
        before = 0
        for step in found:
            lines.append(f"member &{before} {step}" if isinstance(step, str) else f"index &{before} {step}")
            handle += 1
            before = handle
        lines.append(f"read &{before}")
        wanted.append(scalar.value_text(data[offset : offset + scalar.size]))
    answers = run_script("\n".join(lines) + "\n").splitlines()
    read = [answer for line, answer in zip(lines, answers) if line.startswith("read")]
    count(read == wanted, f"seed {seed}: a script reads {read}, not {wanted}")


def try_scripts(runner):
    for seed in range(SCRIPTS):
        _, script, _ = kinds.script_of(seed)
        ran = subprocess.run([runner], input=script, capture_output=True, check=False)
        if ran.returncode == 0:
            count(run_script(script).encode() == ran.stdout, f"script {seed}: other lines than the program's")


for number in range(TYPES):
    try_type(number)
try_scripts(sys.argv[1])
print(f"{passed} passed, {failed} failed")
