"""The functions of the tests, and what each test reaches: what it calls, what these call, and so on."""

import re
from dataclasses import dataclass, field

from listing.text import without_comments

TEST = "#[test]"
FUNCTION = re.compile(r"^( *)(?:pub(?:\([^)]*\))? )?(?:const )?fn (\w+)", re.MULTILINE)
MACRO = re.compile(r"^( *)macro_rules! (\w+)", re.MULTILINE)
CONSTANT = re.compile(r"^(?:pub(?:\([^)]*\))? )?(?:const|static) (\w+):", re.MULTILINE)
HEAD_END = re.compile(r"\{\}$|\{$|;$", re.MULTILINE)
CLAUSE = re.compile(r"^ *(?:requires|ensures)\b.*$", re.MULTILINE)
USE = re.compile(r"^ *(?:pub(?:\([^)]*\))? )?use ([^;]+);", re.MULTILINE)
CALL = re.compile(r"(?<![\w.:])((?:\w+::)*)(\w+)(?:::<[^;(]*>)?\(")
METHOD = re.compile(r"\.(\w+)(?:::<[^;(]*>)?\(")
INVOKED = re.compile(r"\b(\w+)!")
PATH = re.compile(r"\b\w+(?:::\w+)+")
CASE = re.compile(r"\b(?:\w+::)*[A-Z]\w*")


def used(tree, prefix=()):
    """The names that a `use` brings, each with its path."""
    head, brace, rest = tree.strip().partition("{")
    if not brace:
        path, _, alias = head.partition(" as ")
        steps = prefix + tuple(path.split("::"))
        steps = steps[:-1] if steps[-1] == "self" else steps
        yield alias or steps[-1], steps
        return
    prefix += tuple(step for step in head.split("::") if step)
    depth, part = 0, ""
    for letter in rest[: rest.rindex("}")] + ",":
        depth += {"{": 1, "}": -1}.get(letter, 0)
        if letter != "," or depth > 0:
            part += letter
            continue
        if part.strip():
            yield from used(part, prefix)
        part = ""


def end_of_constant(text, start):
    """Where the `;` stands that is in no brackets."""
    depth = 0
    for end in range(start, len(text)):
        depth += {"(": 1, "[": 1, "{": 1, ")": -1, "]": -1, "}": -1}.get(text[end], 0)
        if text[end] == ";" and depth == 0:
            return end
    raise ValueError("a constant without an end")


def arm_of(text, place):
    """The pattern of the arm of a `match` that the place stands in; empty where it stands in none."""
    lines = text[:place].split("\n")
    pattern, arrow, _ = lines[-1].partition(" => ")
    if arrow:
        return pattern
    depth = len(lines[-1]) - len(lines[-1].lstrip())
    for line in reversed(lines[:-1]):
        indent = len(line) - len(line.lstrip())
        if line and indent < depth:
            depth = indent
            if line.endswith(" => {"):
                return line[: -len(" => {")]
    return ""


@dataclass(eq=False)
class Function:
    """A function, a macro or a constant: where it stands, its name, its head, its text without comments and clauses,
    and whether it is a test, a method, a macro."""

    module: "Module"
    name: str
    head: str
    text: str
    is_test: bool
    is_method: bool
    is_macro: bool

    def __post_init__(self):
        self.calls = [(self.path_of(match), self.picks(match.start())) for match in CALL.finditer(self.text)]
        self.methods = [(match[1], self.picks(match.start())) for match in METHOD.finditer(self.text)]
        self.macros = set(INVOKED.findall(self.text))
        self.words = self.module.words(self.text)
        self.head_words = self.module.words(self.head)
        self.paths = {self.module.whole(tuple(path.split("::")))[-2:] for path in PATH.findall(self.text)}
        self.paths.update(self.module.whole((word,))[-2:] for word in self.words)

    def path_of(self, match):
        return (*(step for step in match[1].split("::") if step), match[2])

    def picks(self, place):
        """The cases that pick what stands at the place, in an arm of a `match`."""
        wholes = (self.module.whole(tuple(case.split("::"))) for case in CASE.findall(arm_of(self.text, place)))
        return {whole[-2:] for whole in wholes if len(whole) > 1}

    def full_name(self):
        return "::".join((*self.module.path, self.name))


@dataclass(eq=False)
class Module:
    """A file: its path of a crate's name and modules, what its `use` lines bring, and its functions."""

    path: tuple
    text: str
    uses: dict = field(default_factory=dict)
    functions: dict = field(default_factory=dict)
    methods: list = field(default_factory=list)

    def __post_init__(self):
        text = without_comments(self.text)
        for tree in USE.findall(text):
            self.uses.update(used(tree))
        for pattern in (FUNCTION, MACRO):
            for match in pattern.finditer(text):
                self.add(match, text, pattern is MACRO)
        for match in CONSTANT.finditer(text):
            constant = text[match.start() : end_of_constant(text, match.end())]
            self.functions[match[1]] = Function(self, match[1], "", constant, False, False, False)

    def add(self, match, text, is_macro):
        """Adds the function, which goes to the brace at its own indentation, or to the end of its head."""
        end = HEAD_END.search(text, match.end())
        head = CLAUSE.sub("", text[match.start() : end.start()])
        if end[0] == "{":
            end = re.compile(rf"^{match[1]}\}}", re.MULTILINE).search(text, end.end())
        body = CLAUSE.sub("", text[match.start() : end.end()])
        is_test = text[: match.start()].rstrip().endswith(TEST)
        is_method = match[1] != "" and not is_macro
        function = Function(self, match[2], head, body, is_test, is_method, is_macro)
        if is_method:
            self.methods.append(function)
        else:
            self.functions[match[2]] = function

    def words(self, text):
        """The words of the text, and of the paths of the names in it that a `use` brings."""
        words = set(re.findall(r"\w+", text))
        return words.union(*(self.uses.get(word, ()) for word in words))

    def whole(self, path):
        """The path from a crate on, where its first step is a name that a `use` brings or a place in the crate."""
        if path[0] in self.uses:
            return self.whole_from(self.uses[path[0]] + path[1:])
        return self.whole_from(path)

    def whole_from(self, path):
        if path[0] == "crate":
            return self.path[:1] + path[1:]
        if path[0] == "self":
            return self.path + path[1:]
        if path[0] == "super":
            return self.path[:-1] + path[1:]
        return path


class Tests:
    """The tests of all crates, and the fixtures. The traits are those whose calls are made as `Trait::name(` too."""

    def __init__(self, crates, fixtures, traits):
        self.modules = {}
        self.next = {}
        self.fixtures = fixtures
        self.traits = traits
        for folder in sorted(crates.glob("*/src")):
            for path in sorted(folder.rglob("*.rt")):
                steps = path.relative_to(folder).with_suffix("").parts
                if folder.parent.name in fixtures or "tests" in steps:
                    steps = () if steps in (("lib",), ("main",)) else steps
                    module = Module((folder.parent.name, *steps), path.read_text(encoding="utf-8"))
                    self.modules[module.path] = module
        self.methods = {}
        for module in self.modules.values():
            for method in module.methods:
                self.methods.setdefault((module.path[0], method.name), []).append(method)

    def named(self, end):
        """The tests whose full names end so."""
        functions = (function for module in self.modules.values() for function in module.functions.values())
        return [it for it in functions if it.is_test and it.full_name().endswith(f"::{end}")]

    def found(self, module, path, name):
        """The function that the path and the name lead to from the module; none where it is no test's or fixture's."""
        if not path and name in module.functions:
            return module.functions[name]
        whole = module.whole((*path, name))
        for place in (whole[:-1], module.path + whole[:-1]):
            other = self.modules.get(place)
            if other is not None and other is not module:
                return self.found(other, (), whole[-1])
        return None

    def next_of(self, function):
        """The functions and macros that this one calls."""
        if function not in self.next:
            self.next[function] = {found for found in self.calls_of(function) if found is not None}
        return self.next[function]

    def calls_of(self, function):
        module, crate = function.module, function.module.path[0]
        for path, _ in function.calls:
            yield self.found(module, path[:-1], path[-1])
            if len(path) > 1:
                yield from self.methods.get((crate, path[-1]), ())
        for name, _ in function.methods:
            for place in (crate, *self.fixtures):
                yield from self.methods.get((place, name), ())
        for name in function.macros:
            for place, other in self.modules.items():
                macro = other.functions.get(name)
                if place[0] in (crate, *self.fixtures) and macro is not None and macro.is_macro:
                    yield macro
        for name in function.words:
            if name.isupper():
                yield self.found(module, (), name)

    def reached(self, test):
        """The test, and all functions and macros that it reaches."""
        seen, waiting = {test}, [test]
        while waiting:
            for function in self.next_of(waiting.pop()):
                if function not in seen:
                    seen.add(function)
                    waiting.append(function)
        return seen

    def makes(self, function, call):
        """For each place where the function makes the call, of whatever type its value is, the cases that pick it."""
        if call.owner:
            yield from (picks for name, picks in function.methods if name == call.name)
        for path, picks in function.calls:
            if path[-1] == call.name and self.is_made(call, function.module.whole(path), function.module.path[0]):
                yield picks

    def is_made(self, call, whole, crate):
        """Whether the path, in a test of the crate, leads to the call."""
        if call.owner:
            return len(whole) > 1 and whole[-2] in (call.owner, *self.traits)
        return whole[0] == call.crate and (len(whole) == 2 or crate != call.crate)

    def names_owner(self, function, call, reached):
        """Whether the type is named near the call in the function: there, in a function that calls it, or in the head
        of one that either of these calls."""
        near, waiting = {function}, [function]
        while waiting:
            called = waiting.pop()
            callers = {other for other in reached if called in self.next_of(other)} - near
            near |= callers
            waiting += [caller for caller in callers if caller.is_macro]
        if any(call.owner in other.words for other in near):
            return True
        return any(call.owner in made.head_words for other in near for made in self.next_of(other))

    def is_picked(self, picks, function, reached):
        """Whether another function names one of the cases, if there are any."""
        return not picks or any(picks & other.paths for other in reached if other is not function)

    def reaches(self, test, call):
        """Whether the test reaches the call: some function makes it, where the case that picks it is named by another;
        its type is named near it, and its own case anywhere."""
        reached = self.reached(test)
        if call.case and not any((call.enum, call.case) in function.paths for function in reached):
            return False
        for function in reached:
            if any(self.is_picked(picks, function, reached) for picks in self.makes(function, call)):
                if call.owner is None or self.names_owner(function, call, reached):
                    return True
        return False
