"""Writes the script that the workload `script` runs: script.py > script.txt. The same at each run."""
import random

LIMIT = 1_040_000
CHAIN = 200
HELD = 12


class Script:
    """Lines, and how many handles they make."""

    def __init__(self, rng):
        self.rng = rng
        self.lines = []
        self.size = 0
        self.handles = 0

    def add(self, line):
        self.lines.append(line)
        self.size += len(line) + 1

    def made(self, line):
        """Adds a line that makes a handle, which is answered."""
        self.add(line)
        self.handles += 1
        return self.handles - 1

    def words(self, count):
        return "".join(self.rng.randbytes(4).hex() for _ in range(count))

    def declare(self):
        """Wide structures, trees of structures, a host's structures with attributes, and chains."""
        for name, number in (("W", "u32"), ("U", "i32")):
            self.add(f"struct {name} " + " ".join(f"member_{i}:{number}" for i in range(256)))
        self.add("struct V " + " ".join(f"v{i}:vec3<i32>" for i in range(64)))
        for letter in "NM":
            for depth in range(1, 8):
                inner = "u32" if depth == 1 else f"{letter}{depth - 1}"
                self.add(f"struct {letter}{depth} a:{inner} b:{inner}")
        self.add("struct P position:vec3<i32> @size(16)id:u32 rotation:mat4x4<i32> charges:array<u32,8> e:atomic<u32>")
        for letter in "CD":
            self.add(f"struct {letter}0 a:vec3<u32>")
            for depth in range(1, CHAIN):
                self.add(f"struct {letter}{depth} inner:{letter}{depth - 1} own:u32")


class Chain:
    """Two cells of a chain, and handles of the outer structures and of their numbers."""

    def __init__(self, script, letter):
        self.script = script
        made = f"new {letter}{CHAIN - 1} storage read_write"
        self.inner = [script.made(f"{made} {script.words(4 * CHAIN)}")]
        self.copy = script.made(f"{made} {script.words(4 * CHAIN)}")
        self.own = []
        for _ in range(HELD):
            self.own.append(script.made(f"member &{self.inner[-1]} own"))
            self.inner.append(script.made(f"member &{self.inner[-1]} inner"))

    def write(self):
        """Writes a number of the outer ones, and answers how far inside it stands."""
        depth = self.script.rng.randrange(HELD)
        self.script.add(f"write &{self.own[depth]} {self.script.words(1)}")
        return depth

    def add(self):
        """Reads and copies the chain, each time with another number in it."""
        for handle in self.inner[0], self.copy:
            self.write()
            self.script.add(f"copy &{self.inner[0]} &{self.copy}")
            self.script.add(f"read &{handle}")
        depth = self.write()
        self.script.add(f"read &{self.inner[depth]}")


def add_wide(script):
    """A wide structure: made, read, written as a whole and in a member, copied, dumped."""
    name = script.rng.choice("WU")
    first = script.made(f"new {name} storage read_write {script.words(256)}")
    second = script.made(f"new {name} private read_write {script.words(256)}")
    for number in script.rng.sample(range(256), 8):
        member = script.made(f"member &{first} member_{number}")
        script.add(f"write &{member} {script.words(1)}")
        script.add(f"copy &{member} &{member}")
        script.add(f"copy &{first} &{second}")
        script.add(f"{script.rng.choice(('read', 'dump'))} &{second}")
    script.add(f"write &{first} {script.words(256)}")
    script.add(f"read &{first}")


def add_tree(script):
    """A tree of structures, down to two numbers."""
    handles = [script.made(f"new {script.rng.choice('NM')}7 storage read_write {script.words(128)}")]
    for _ in range(6):
        handles.append(script.made(f"member &{handles[-1]} {script.rng.choice('ab')}"))
    for _ in range(4):
        script.add(f"write &{handles[4]} {script.words(8)}")
        script.add(f"copy &{handles[5]} &{handles[5]}")
        for handle in handles:
            script.add(f"read &{handle}")


def add_vectors(script):
    cell = script.made(f"new V storage read_write {script.words(256)}")
    vector = script.made(f"member &{cell} v{script.rng.randrange(64)}")
    component = script.made(f"index &{vector} {script.rng.randrange(3)}")
    for _ in range(8):
        script.add(f"write &{component} {script.words(1)}")
        script.add(f"read &{vector}")
    script.add(f"member &{cell} v64")


def add_host(script):
    """A structure of a host, written in parts."""
    cell = script.made(f"new P storage read_write {script.words(36)}")
    position = script.made(f"member &{cell} position")
    rotation = script.made(f"member &{cell} rotation")
    column = script.made(f"index &{rotation} {script.rng.randrange(4)}")
    for _ in range(12):
        script.add(f"write &{position} {script.words(3)}")
        script.add(f"write &{column} {script.words(4)}")
        script.add(f"read &{column}")
    script.add(f"dump &{cell}")


def add_small(script):
    for _ in range(12):
        name, count = script.rng.choice((("u32", 1), ("i32", 1), ("vec4<u32>", 4), ("vec2<i32>", 2)))
        cell = script.made(f"new {name} storage read_write {script.words(count)}")
        script.add(f"read &{cell}")


def main():
    script = Script(random.Random(35))
    script.declare()
    chains = [Chain(script, letter) for letter in "CD"]
    while script.size < LIMIT:
        kind = script.rng.randrange(10)
        if kind < 9:
            add = (add_wide, add_wide, add_tree, add_tree, add_vectors, add_host, add_host, add_small, add_small)[kind]
            add(script)
        else:
            script.rng.choice(chains).add()
    print("\n".join(script.lines))


main()
