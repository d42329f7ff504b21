"""The program as a process."""

from __future__ import annotations

import subprocess

SECONDS = 100  # for one script


class Program:
    def __init__(self, path):
        self.path = path

    def difference(self, script, expected):
        """How a run on the script differs from these lines and an end with status 0; None where it doesn't."""
        try:
            run = subprocess.run([self.path], input=script, capture_output=True, timeout=SECONDS, check=False)
        except subprocess.TimeoutExpired:
            return f"no end within {SECONDS} s"
        if run.returncode or run.stderr:
            return f"status {run.returncode}, {run.stderr[:200]!r} on standard error"
        printed = run.stdout.split(b"\n")
        if printed.pop():
            return "the last line has no end"
        return first_difference(printed, [line.encode() for line in expected])


def first_difference(printed, expected):
    if printed == expected:
        return None
    for number, (one, other) in enumerate(zip(printed, expected)):
        if one != other:
            return f"line {number + 1} of the output is {shown(one)}, and should be {shown(other)}"
    return f"{len(printed)} lines of output, and should be {len(expected)}"


def shown(line):
    text = repr(line)[1:]
    return text if len(text) <= 300 else f"{text[:150]} .. {text[-140:]}"
