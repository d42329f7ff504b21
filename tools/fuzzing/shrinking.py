"""A script that shows a failure, cut down to one that still does."""

from __future__ import annotations

import time


def cut_down(script, fails, deadline):
    """The script with as many lines left out, and as many words and bytes of those that stay, as still fails."""
    script = without_parts(script, b"\n", fails, deadline)
    lines = script.split(b"\n")
    for number in range(len(lines)):

        def fails_with(line, number=number):
            return fails(b"\n".join(lines[:number] + [line] + lines[number + 1 :]))

        lines[number] = without_parts(lines[number], b" ", fails_with, deadline)
        if len(lines[number]) <= 400:
            lines[number] = without_parts(lines[number], b"", fails_with, deadline)
    return b"\n".join(lines)


def parts_of(text, separator):
    return text.split(separator) if separator else [text[at : at + 1] for at in range(len(text))]


def without_parts(text, separator, fails, deadline):
    """Leaves out runs of parts, long ones first, while what is left fails."""
    parts = parts_of(text, separator)
    length = len(parts) // 2
    while length:
        at = 0
        while at < len(parts):
            fewer = parts[:at] + parts[at + length :]
            if time.monotonic() > deadline:
                return separator.join(parts)
            if fails(separator.join(fewer)):
                parts = fewer
            else:
                at += length
        length //= 2
    return separator.join(parts)
