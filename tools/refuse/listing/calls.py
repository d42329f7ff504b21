"""The public calls of the libraries: those that allocate, and those whose docs say that they take no memory."""

import re
from typing import NamedTuple, Optional

from listing.text import bracketed, documented, functions, has_body, without_comments

# What the docs of a call say that takes no memory. The first is that of new docs: "It takes no memory." One that takes no
# memory for something takes some for all else.
TAKES_NONE = re.compile(r"\btakes no memory\b(?! for )|\bno memory is taken\b|\bwithout the memory that\b", re.IGNORECASE)

# The same of one type alone, in the docs of a trait's call.
OF_ONE_TYPE = {"a vector takes none": "VecInstance"}

HANDLES = r"\b(?:Alloc|AllocGlobal|Allocator)\b"
VARIANT = re.compile(r"    (\w+)[(,{ ]")
FREE = re.compile(r"(pub )fn (\w+)")
METHOD = re.compile(r"    (pub )?fn (\w+)")


class Call(NamedTuple):
    """A public call: of a type, if it has an owner, and made with one case of an enum, if it has one."""

    crate: str
    owner: Optional[str]
    name: str
    enum: Optional[str] = None
    case: Optional[str] = None

    def __str__(self):
        owner = f"{self.owner}::" if self.owner else ""
        case = f"({self.case})" if self.case else ""
        return f"{self.crate} {owner}{self.name}{case}"


def says_none(docs, owner=None):
    """Whether the docs say that the call takes no memory, of this type where they say it of one alone."""
    of_one_type = any(form in docs and owner == only for form, only in OF_ONE_TYPE.items())
    return of_one_type or TAKES_NONE.search(docs) is not None


def sources(crates, crate):
    """The library's files, without its tests."""
    folder = crates / crate / "src"
    for path in sorted(folder.rglob("*.rt")):
        if path.relative_to(folder).parts[0] not in ("tests", "tests.rt"):
            yield path, path.read_text(encoding="utf-8")


def items(text, word):
    """The items of the word that begin a line, each up to the brace or, for a struct, the `;` that ends it."""
    short = r"[^{;]*;|" if word == "struct" else ""
    pattern = re.compile(rf"^(?:pub )?{word}\b(?:{short}[^{{]*\{{\}}$|.*?^\}})", re.MULTILINE | re.DOTALL)
    return [match[0] for match in pattern.finditer(text)]


def head_of(item, word):
    """The name of the item, but of an `impl`, its type parameters, and what stands behind them."""
    rest = re.sub(rf"^(?:pub )?{word}\b\s*", "", item)
    name = re.match(r"\w+", rest)
    start = name.end() if name and word != "impl" else 0
    if rest[start : start + 1] == "<":
        taken, end = bracketed(rest, start, "<", ">")
        return (name and name[0]), taken, rest[end:].lstrip()
    return (name and name[0]), "", rest[start:].lstrip()


def implemented(item):
    """The trait, if any, and the type of an `impl`."""
    _, _, rest = head_of(item, "impl")
    whole = re.match(r"(?:(\w+)(?:<[^{]*?>)? for )?&?(?:'\w+ )?(?:mut )?(\w+)", rest)
    return whole.groups() if whole else (None, None)


class Traits:
    """The public traits of the libraries: their calls that have a body and allocate, and those that take no memory."""

    def __init__(self, crates, libraries):
        self.allocating = {}
        self.docs = {}
        for crate in libraries:
            for _, text in sources(crates, crate):
                for item in items(text, "trait"):
                    if item.startswith("pub "):
                        self.read(item)

    def read(self, item):
        name = re.match(r"pub trait (\w+)", item)[1]
        self.docs[name] = {found[2]: docs for docs, found in documented(item, METHOD)}
        self.allocating[name] = [
            call
            for _, call, taken, rest in functions(without_comments(item), 4)
            if "alloc: Global" in taken and has_body(rest)
        ]


class Library:
    """The public calls of a library."""

    def __init__(self, crates, crate, traits):
        self.crate = crate
        self.traits = traits
        self.allocating = set()
        self.without_memory = set()
        self.cases = {}
        self.cases_without = set()
        self.holders = set()
        files = list(sources(crates, crate))
        self.root = "".join(without_comments(text) for path, text in files if path.name in ("lib.rt", "main.rt"))
        for _, text in files:
            self.read_types(text)
        for path, text in files:
            self.read_free(path, text)
            for item in items(text, "impl"):
                self.read_impl(item)
        self.without_memory.update(call for call in self.allocating if (call.enum, call.case) in self.cases_without)

    def is_public(self, name, path=None):
        if path is not None and re.search(rf"\bpub mod {path.stem};", self.root):
            return True
        return re.search(rf"\bpub use [^;]*\b{name}\b", self.root) is not None

    def read_types(self, text):
        for item in items(text, "enum"):
            name = head_of(item, "enum")[0]
            plain = without_comments(item)
            self.cases[name] = re.findall(r"^    (\w+)[(,{ ]", plain, re.MULTILINE)
            for docs, found in documented(item, VARIANT):
                if says_none(docs):
                    self.cases_without.add((name, found[1]))
        for item in items(without_comments(text), "struct"):
            name, taken, rest = head_of(item, "struct")
            if self.holds(taken, rest):
                self.holders.add(name)

    def holds(self, taken, rest):
        """Whether a struct of these type parameters holds an allocator, itself or through one of them."""
        where, _, fields = rest.partition("(" if rest.startswith("(") else "{")
        bounded = re.findall(rf"(\w+):[^,]*?{HANDLES}", f"{taken}, {where}")
        return any(re.search(rf"\b{held}\b", fields) for held in ("Global", *bounded))

    def read_free(self, path, text):
        plain = without_comments(text)
        for public, name, taken, _ in functions(plain, 0):
            if public and "alloc: Global" in taken and self.is_public(name, path):
                self.allocating.add(Call(self.crate, None, name))
        for docs, found in documented(text, FREE):
            if says_none(docs) and self.is_public(found[2], path):
                self.without_memory.add(Call(self.crate, None, found[2]))

    def read_impl(self, item):
        trait, owner = implemented(item)
        if owner is None or not (self.is_public(owner) or trait in self.traits.allocating):
            return
        own = set()
        for public, name, taken, _ in functions(without_comments(item), 4):
            own.add(name)
            if trait is None and not public:
                continue
            call = Call(self.crate, owner, name)
            if "alloc: Global" in taken:
                self.allocating.add(call)
            elif trait is None and owner in self.holders and re.search(r"&(?:'\w+ )?mut self", taken):
                self.add_held(call, taken)
        self.allocating.update(
            Call(self.crate, owner, name) for name in self.traits.allocating.get(trait, ()) if name not in own
        )
        self.add_without(trait, owner, item)

    def add_held(self, call, taken):
        match = re.search(r": (\w+)$", taken.strip().rstrip(","))
        cases = self.cases.get(match[1], []) if match else []
        self.allocating.update(call._replace(enum=match[1], case=case) for case in cases)
        if not cases:
            self.allocating.add(call)

    def add_without(self, trait, owner, item):
        """The calls of the `impl` that take no memory. One that takes a `Call` is told by the docs of its cases."""
        docs = dict(self.traits.docs.get(trait, {}))
        docs.update({found[2]: text for text, found in documented(item, METHOD) if trait or found[1]})
        taking = {call.name for call in self.allocating if call.owner == owner and call.case}
        for name, text in docs.items():
            if says_none(text, owner) and name not in taking:
                self.without_memory.add(Call(self.crate, owner, name))
