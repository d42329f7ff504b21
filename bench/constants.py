"""Writes modules of constants of five kinds into a folder: constants.py FOLDER."""
import sys
from pathlib import Path

MODULES = {
    "literals": ["const T = array(" + ", ".join(f"{i}u" for i in range(60_000)) + ");"],
    "chain": ["const C0 = 1u;", *(f"const C{i} = C{i - 1} + {i % 7}u;" for i in range(1, 20_000))],
    "calls": [f"const C{i} = clamp(max({i}u, 5u), 1u, ({i}u + 9u));" for i in range(20_000)],
    "vectors": [f"const C{i} = vec3<u32>({i}u, 2u, 3u) * 3u + vec3(1u, {i}u, 2u);" for i in range(15_000)],
    "structures": [
        f"struct S{i} {{ a: u32, b: vec4<u32>, c: array<u32, {i % 9 + 1}> }}\n"
        f"const K{i} = S{i}({i}u, vec4(1u), array<u32, {i % 9 + 1}>()).a;"
        for i in range(10_000)
    ],
}

folder = Path(sys.argv[1])
for name, lines in MODULES.items():
    (folder / f"{name}.wgsl").write_text("\n".join(lines) + "\n")
