"""Scripts from seeds: every command and every type word, most lines accepted, each refusal met."""

from __future__ import annotations

from random import Random

from fuzzing import words
from fuzzing.layouts import Array, Matrix, Struct, Vector
from fuzzing.mangling import mangled, spaced
from fuzzing.script import BadLine, Script, lines_of

LIMIT = 1_048_576  # the most bytes of a script
MOST_BYTES = LIMIT - 40_000  # from here on no line is added but the last
INDEXED = (Array, Matrix, Vector)


class Author:
    """Writes a script, and reads along what its lines make, so that it can ask for what is there."""

    # How often each command is written.
    weights = {"struct": 2, "new": 4, "member": 5, "index": 6, "read": 5, "write": 5, "copy": 4, "dump": 4, "noise": 1}
    mangles = 0.05
    lines = (100, 600)
    longest_value = 2048

    def __init__(self, seed):
        self.random = Random(seed)
        self.state = Script()
        self.text = bytearray()
        self.expected = []
        self.same_type = {}  # the handles of each type
        self.ends = self.random.choice((b"\n", b"\n", b"\n", b"\r\n"))

    def chance(self, part):
        return self.random.random() < part

    @property
    def handles(self):
        return self.state.memory.handles

    def put(self, line):
        """Adds the line, and an end."""
        end = self.ends if self.chance(0.98) else self.random.choice((b"\n", b"\r\n", b" \r\n", b"\r\r\n"))
        self.take(line + end)

    def put_whole(self, line):
        """Adds a line that others need."""
        self.take(line.encode() + b"\n")

    def take(self, text):
        self.text += text
        for line in lines_of(text):
            known = len(self.handles)
            answer = self.state.answer(line)
            if answer is not None:
                self.expected.append(answer)
            for number in range(known, len(self.handles)):
                self.same_type.setdefault(self.handles[number].ty.text, []).append(number)

    def write_script(self):
        """The script, and what it prints, line by line."""
        self.begin()
        commands, weights = zip(*self.weights.items())
        for _ in range(self.random.randint(*self.lines)):
            if len(self.text) > MOST_BYTES - 4 * self.longest_value:
                break
            command = self.random.choices(commands, weights)[0]
            self.put(self.finished(getattr(self, command)()))
        self.end()
        return bytes(self.text), self.expected

    def begin(self):
        pass

    def end(self):
        """A last line, which may have no LF; a CR is then a part of its word. A few scripts are as long as may be."""
        if self.chance(0.01):
            self.take(b" " * (LIMIT - len(self.text) - 7) + b"\nread &")
            return
        self.take(self.finished(self.read()) + self.random.choice((b"\n", b"", b"\r\n", b"\r", b" \r", b" ")))

    def finished(self, line):
        line = line if isinstance(line, bytes) else line.encode()
        if self.chance(self.mangles):
            line = mangled(self.random, line)
        return spaced(self.random, line) if self.chance(0.05) else line

    # Words

    def handle(self, fits=None):
        """A handle's number, mostly of one that fits; past the last one where there is none."""
        if not self.handles:
            return 0
        for _ in range(12):
            number = self.random.randrange(len(self.handles))
            if fits is None or fits(self.handles[number]):
                return number
        return number

    def handle_word(self, number):
        if self.chance(0.97):
            return f"&{number}"
        zeros = self.random.choice((1, 3, 8, 9, 10))
        odd = [f"&{number:0{zeros}d}", f"&{len(self.handles)}", str(number), f"&{number}&", f"&&{number}"]
        return self.random.choice(odd + ["&" + word for word in words.NUMBERS])

    def digits(self, length):
        """A word of so many bytes."""
        length = max(length, 0)
        kind = self.random.randrange(8)
        if kind < 5:
            data = self.random.getrandbits(8 * length).to_bytes(length, "little") if length else b""
        else:
            data = (b"\0", b"\xff", b"\x80")[kind - 5] * length
        text = data.hex() or "00"
        return text.upper() if self.chance(0.1) else text

    def value_digits(self, ty, count):
        """The bytes of a value, mostly as many as are wanted. Where there is no layout, as many as its size would ask for."""
        length = ty.length(count) if ty.has_layout else ty.size
        if length is None or length > 2 * self.longest_value:
            length = self.random.randint(0, 200)
        if self.chance(0.8):
            more = 0
        elif self.chance(0.5):
            more = self.random.randint(-4, 4)
        else:
            more = self.random.randint(-length, 40)
        text = self.digits(length + more)
        return text[:-1] if self.chance(0.01) else text

    def type_word(self, depth=0):
        structs = list(self.state.structs)
        if structs and self.chance(0.3):
            recent = structs[-8:] if self.chance(0.7) else structs
            return self.random.choice(recent)
        if depth < 3 and self.chance(0.3):
            element = self.type_word(depth + 1)
            return words.array(element, self.count())
        return self.random.choice(words.ODD_TYPES if self.chance(0.02) else words.PLAIN_TYPES)

    def count(self):
        """The count of an array; none of a runtime-sized one."""
        if self.chance(0.2):
            return None
        return self.random.choice(words.COUNTS) if self.chance(0.05) else str(self.random.choice((0, 1, 1, 2, 2, 3, 4, 7)))

    def type_and_word(self):
        """A word for a type, mostly of a short value; its type, or None where it names none."""
        for _ in range(8):
            word = self.type_word()
            ty = self.type_named(word)
            if ty is not None and not ty.has_layout and self.chance(0.2):
                break
            if ty is not None and ty.has_layout and ty.length(1) <= self.longest_value:
                break
        return ty, word

    def type_named(self, word):
        try:
            return self.state.type_of(word)
        except BadLine:
            return None

    def attributes(self, ty):
        if self.chance(0.65):
            return ""
        align = self.align(ty)
        size = self.size(ty)
        both = [align, align, size, size, align + size, size + align]
        return self.random.choice(both + [align + align, size + align + size] * self.chance(0.03))

    def align(self, ty):
        if self.chance(0.12):
            return f"@align({self.random.choice(words.NUMBERS)})"
        own = ty.align if ty and ty.align else 4
        return f"@align({own * self.random.choice((1, 1, 1, 2, 2, 3, 4, 6)) // self.random.choice((1, 1, 1, 1, 1, 1, 2, 4))})"

    def size(self, ty):
        if self.chance(0.12):
            return f"@size({self.random.choice(words.NUMBERS)})"
        own = ty.size if ty and ty.size is not None else 4
        return f"@size({max(0, own + self.random.choice((0, 0, 1, 4, 8, 20, -1, -4)))})"

    def member_word(self):
        word = self.type_word(1)
        name = self.random.choice(words.ODD_NAMES if self.chance(0.01) else words.MEMBER_NAMES)
        return f"{self.attributes(self.type_named(word))}{name}:{word}"

    # Lines

    def struct(self):
        number = len(self.state.structs)
        name = f"S{number}" if self.chance(0.8) else self.random.choice(words.STRUCT_NAMES)
        members = [self.member_word() for _ in range(self.random.choice((1, 1, 2, 2, 3, 3, 4, 6)))]
        # A runtime-sized array makes a layout in the last place alone.
        if self.chance(0.15):
            word = f"array<{self.type_word(2)}>"
            members.append(f"{self.attributes(self.type_named(word))}{self.random.choice(words.MEMBER_NAMES)}:{word}")
        return " ".join(["struct", name] + members * self.chance(0.99))

    def new(self):
        ty, word = self.type_and_word()
        space = self.random.choice(words.SPACES if self.chance(0.98) else words.ODD_SPACES)
        access = self.random.choice(words.ACCESSES if self.chance(0.98) else words.ODD_ACCESSES)
        count = self.random.choice((1, 1, 2, 3, 5))
        digits = self.value_digits(ty, count) if ty else self.digits(self.random.randint(0, 20))
        return f"new {word} {space} {access} {digits}"

    def member(self):
        number = self.handle(lambda handle: isinstance(handle.ty, Struct))
        name = self.random.choice(words.ODD_NAMES if self.chance(0.03) else words.MEMBER_NAMES)
        if self.handles and isinstance(self.handles[number].ty, Struct) and self.chance(0.9):
            name = self.random.choice(self.handles[number].ty.members).name
        return f"member {self.handle_word(number)} {name}"

    def index(self):
        number = self.handle(lambda handle: isinstance(handle.ty, INDEXED))
        at = str(self.random.choice((0, 1, 2)))
        if self.handles and isinstance(self.handles[number].ty, INDEXED):
            parts = self.handles[number].parts()
            at = str(self.random.randrange(parts) if self.chance(0.9) else parts + self.random.choice((0, 0, 1, 100)))
        if self.chance(0.03):
            at = self.random.choice(words.NUMBERS)
        return f"index {self.handle_word(number)} {at}"

    def read(self):
        return f"read {self.handle_word(self.handle())}"

    def dump(self):
        return f"dump {self.handle_word(self.handle())}"

    def write(self):
        number = self.handle()
        if not self.handles:
            return f"write {self.handle_word(number)} {self.digits(4)}"
        handle = self.handles[number]
        count = handle.count
        if count is not None and self.chance(0.2):
            count += self.random.choice((-1, 1, 2))
        return f"write {self.handle_word(number)} {self.value_digits(handle.ty, count)}"

    def copy(self):
        source = self.handle()
        target = self.handle()
        if self.handles and self.chance(0.85):
            target = self.random.choice(self.same_type[self.handles[source].ty.text])
        return f"copy {self.handle_word(source)} {self.handle_word(target)}"

    def noise(self):
        """A line without words, or one that is no command."""
        if self.chance(0.3):
            return self.random.choice(("", " ", "     "))
        if self.chance(0.5):
            return self.random.choice(words.NO_COMMANDS)
        return bytes(self.random.randrange(256) for _ in range(self.random.randint(1, 30)))
