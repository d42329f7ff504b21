"""Lines that something happened to."""

from __future__ import annotations

BLANKS = (b"  ", b"    ", b" " * 40)

# What takes the place of a letter, or comes in beside one: ends of lines, blanks that are no spaces, bytes that are no
# text, text that is not ASCII, and the signs of the grammar.
PIECES = (
    [b"\n", b"\r", b"\r\n", b"\t", b"\x0b", b"\x0c", b"\x00", b"\x1f", b"\x7f"]
    + [b"\x80", b"\xff", b"\xc0\xaf", b"\xed\xa0\x80", b"\xf5\x80\x80\x80", b"\xc3", b"\xe2\x82"]
    + ["\u00a0".encode(), "\u0661".encode(), "\u2003".encode(), "\uff11".encode(), "\u0430".encode()]
    + ["\ufeff".encode(), "\U0001f600".encode(), "\u0130".encode(), "\u00aa".encode()]
    + [bytes([sign]) for sign in b" &@():,<>_-+0129afgiuxAFGZ~#;'\"\\/."]
)


def dropped(random, line, at):
    return line[:at] + line[at + random.choice((1, 1, 1, 2, 5)) :]


def doubled(random, line, at):
    end = at + random.choice((1, 1, 1, 2, 8))
    return line[:end] + line[at:]


def changed(random, line, at):
    return line[:at] + random.choice(PIECES) + line[at + 1 :]


def put_in(random, line, at):
    return line[:at] + random.choice(PIECES) + line[at:]


def turned(random, line, at):
    return line[:at] + line[at : at + 2][::-1] + line[at + 2 :]


def cut(random, line, at):
    return random.choice((line[:at], line[at:]))


def flipped(random, line, at):
    return line[:at] + line[at : at + 1].swapcase() + line[at + 1 :]


def random_byte(random, line, at):
    return line[:at] + bytes([random.randrange(256)]) + line[at + 1 :]


def words_changed(random, line, at):
    """A word dropped, doubled, or at another place."""
    words = line.split(b" ")
    word = words.pop(random.randrange(len(words)))
    for _ in range(random.randrange(3)):
        words.insert(random.randint(0, len(words)), word)
    return b" ".join(words)


CHANGES = (changed, put_in, dropped, doubled, turned, flipped, random_byte, cut, words_changed)


def mangled(random, line):
    """The line with one change or a few."""
    for _ in range(random.choice((1, 1, 1, 1, 2, 3))):
        line = random.choice(CHANGES)(random, line, random.randint(0, len(line)))
    return line


def spaced(random, line):
    """The line with more spaces, which change nothing."""
    words = line.split(b" ")
    text = random.choice((b"", b" ", b"   ")) + words[0]
    for word in words[1:]:
        text += random.choice((b" ",) + BLANKS) + word
    return text + random.choice((b"", b" ", b"  "))
