"""Prints the layouts of the shader of standard input in each format, and the values of its constants."""

import sys

from yolkdamask import Format, Module

shader = Module(sys.stdin.buffer.read().decode())
for format in Format:
    sys.stdout.write(shader.layouts(format).text)
for format in (Format.TABLE, Format.JSON):
    sys.stdout.write(shader.constants(format).text)
