"""The lines of scripts: their words, and what each prints."""

from __future__ import annotations

import re

from fuzzing.layouts import LIMIT, SCALARS, Array, Atomic, Matrix, Member, Struct, Vector
from fuzzing.memory import Memory, Refused

NODES = 4096
NESTED = 16
SPACES = ("function", "private", "workgroup", "uniform", "storage", "handle")
ACCESSES = ("read", "write", "read_write")

# How many words stand behind each command but `struct`.
WORDS = {"new": 4, "member": 2, "index": 2, "read": 1, "write": 2, "copy": 2, "dump": 1}

# Bytes are read as letters of Latin-1, so that each pattern sees one letter a byte; the patterns name ASCII alone.
NAME = re.compile(r"[A-Za-z_][A-Za-z0-9_]*")
NUMBER = re.compile(r"[0-9]{1,10}")
HANDLE = re.compile(r"&([0-9]{1,10})")
DIGITS = re.compile(r"(?:[0-9A-Fa-f]{2})+")
ATTRIBUTE = re.compile(r"@(align|size)\(([0-9]{1,10})\)")
TEMPLATE = re.compile(r"(atomic|vec([234])|mat([234])x([234]))<(i32|u32|i64|u64)>")


class BadLine(Exception):
    pass


def checked(condition):
    if not condition:
        raise BadLine


def matched(pattern, word):
    found = pattern.fullmatch(word)
    checked(found)
    return found


def limited(digits):
    """The number of an attribute or of a count."""
    checked(int(digits) <= LIMIT)
    return int(digits)


def handle_of(word):
    return int(matched(HANDLE, word)[1])


def bytes_of(word):
    return bytes.fromhex(matched(DIGITS, word)[0])


def template_of(found):
    """The type of a word without arrays and structures."""
    name, components, columns, rows, scalar = found.groups()
    scalar = SCALARS[scalar]
    if name == "atomic":
        checked(scalar.size == 4)
        return Atomic(scalar)
    if components:
        return Vector(int(components), scalar)
    return Matrix(int(columns), int(rows), scalar)


class Script:
    """What lines have made so far."""

    def __init__(self):
        self.structs = {}
        self.memory = Memory()

    def answer(self, line):
        """What a line prints, its end left out of both; None where it has no words."""
        words = [word for word in line.decode("latin-1").split(" ") if word]
        if not words:
            return None
        try:
            return self.run(*words)
        except BadLine:
            return "refused BadLine"
        except Refused as refused:
            return f"refused {refused}"

    def run(self, command, *words):
        if command == "struct":
            checked(words)
            return self.struct(*words)
        checked(len(words) == WORDS.get(command))
        return getattr(self, command)(*words)

    def struct(self, name, *words):
        matched(NAME, name)
        checked(name not in SCALARS and name not in self.structs and words)
        made = Struct(name, [self.member_of(word) for word in words])
        checked(made.nodes <= NODES)
        self.structs[name] = made
        return "done"

    def new(self, ty, space, access, digits):
        checked(space in SPACES and access in ACCESSES)
        ty, data = self.type_of(ty), bytes_of(digits)
        return f"&{self.memory.new(ty, access, data)}"

    def member(self, handle, name):
        handle = handle_of(handle)
        return f"&{self.memory.member(handle, matched(NAME, name)[0])}"

    def index(self, handle, i):
        handle, i = handle_of(handle), int(matched(NUMBER, i)[0])
        return f"&{self.memory.index(handle, i)}"

    def read(self, handle):
        return self.memory.read(handle_of(handle))

    def dump(self, handle):
        return self.memory.dump(handle_of(handle))

    def write(self, handle, digits):
        self.memory.write(handle_of(handle), bytes_of(digits))
        return "done"

    def copy(self, source, target):
        self.memory.copy(handle_of(source), handle_of(target))
        return "done"

    def member_of(self, word):
        attributes = {}
        found = ATTRIBUTE.match(word)
        while found:
            name, number = found.groups()
            checked(name not in attributes)
            attributes[name] = limited(number)
            word = word[found.end() :]
            found = ATTRIBUTE.match(word)
        name, colon, ty = word.partition(":")
        matched(NAME, name)
        checked(colon)
        return Member(name, self.type_of(ty), **attributes)

    def type_of(self, word):
        """The type of a word. All `<` of a word that names a type are nested."""
        checked(word.count("<") <= NESTED)
        ty = self.type_in(word)
        checked(ty.nodes <= NODES)
        return ty

    def type_in(self, word):
        found = TEMPLATE.fullmatch(word)
        if found:
            return template_of(found)
        if word in SCALARS:
            return SCALARS[word]
        if not word.startswith("array<"):
            checked(word in self.structs)
            return self.structs[word]
        checked(word.endswith(">"))
        inner = word[len("array<") : -1]
        if "," in inner and not inner.endswith(">"):
            inner, _, number = inner.rpartition(",")
            return Array(self.type_in(inner), limited(matched(NUMBER, number)[0]))
        return Array(self.type_in(inner), None)


def lines_of(script):
    """The lines of a script without their ends: a CR right before an LF belongs to the end."""
    *ended, rest = script.split(b"\n")
    return [line[:-1] if line.endswith(b"\r") else line for line in ended] + [rest]


def answers(script):
    """What the program prints for a script, line by line."""
    state = Script()
    found = (state.answer(line) for line in lines_of(script))
    return [text for text in found if text is not None]
