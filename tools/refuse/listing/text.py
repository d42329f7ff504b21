"""The text of sources: without comments, and the functions in it."""

import re

IGNORED = re.compile(r"""b?"(?:\\.|[^"\\])*"|b?'(?:\\.|[^'\\])'|//[^\n]*""", re.DOTALL)
FUNCTION = re.compile(r"^( *)(pub )?fn (\w+)", re.MULTILINE)
DOCS = re.compile(r"(?:^ *///[^\n]*\n)+(?:^ *#\[[^\n]*\n)*", re.MULTILINE)


def without_comments(text):
    """The text without comments, and with empty texts in the place of those in quotes."""
    return IGNORED.sub(lambda match: "" if match[0].startswith("//") else '""', text)


def bracketed(text, start, opening, closing):
    """What stands in the brackets that open at the place, and where they end. A `>` of an arrow closes none."""
    depth = 0
    for end in range(start, len(text)):
        if text[end] == opening:
            depth += 1
        elif text[end] == closing and text[end - 1 : end + 1] not in ("->", "=>"):
            depth -= 1
        if depth == 0:
            return text[start + 1 : end], end + 1
    raise ValueError(f"no {closing} for the {opening}: {text[start : start + 60]}")


def parameters(text, start):
    """The parameters of the function whose name ends there, and what stands behind them."""
    if text[start] == "<":
        _, start = bracketed(text, start, "<", ">")
    taken, end = bracketed(text, text.index("(", start), "(", ")")
    return taken, text[end:]


def functions(text, indent):
    """The functions of this indentation: whether they are `pub`, their names, parameters, and what stands behind."""
    for match in FUNCTION.finditer(text):
        if len(match[1]) == indent:
            taken, rest = parameters(text, match.end())
            yield bool(match[2]), match[3], taken, rest


def has_body(rest):
    """Whether a function of a trait has a body: a `{` at the end of a line comes before the next `;`."""
    body = re.search(r"\{$|;$", rest, re.MULTILINE)
    return body is not None and body[0] == "{"


def documented(text, item):
    """The matches of the pattern that have docs, each with these as one line."""
    for match in DOCS.finditer(text):
        found = item.match(text, match.end())
        if found:
            lines = re.findall(r"^ *///(.*)$", match[0], re.MULTILINE)
            yield " ".join(" ".join(lines).split()), found
