#!/usr/bin/env python3
"""What the program `draw` must print: the OBJ lines of its wall and then the bill, from the wall's boxes alone.

Compare with: checks/draw.py | diff - crates/draw/stdout
"""
from itertools import product

WALL = [
    ((0, 0, 0), (200, 100, 300), 1),
    ((200, 0, 0), (800, 100, 90), 2),
    ((200, 0, 90), (800, 100, 160), 0),
    ((200, 0, 250), (900, 100, 50), 2),
    ((1000, 0, 0), (100, 100, 250), 1),
]

# corners of each face, as (high x, high y, high z), so that the face is seen anticlockwise from outside
FACES = [
    ("000", "010", "110", "100"),
    ("001", "101", "111", "011"),
    ("000", "100", "101", "001"),
    ("010", "011", "111", "110"),
    ("000", "001", "011", "010"),
    ("100", "110", "111", "101"),
]


def drawing():
    lines, vertices = [], 0
    for corner, size, material in WALL:
        if material == 0:
            continue
        lines.append(f"g m{material}")
        number = {}
        for z, y, x in product((0, 1), repeat=3):  # x turns fastest
            vertices += 1
            number[f"{x}{y}{z}"] = vertices
            at = [c + s * high for c, s, high in zip(corner, size, (x, y, z))]
            lines.append("v " + " ".join(map(str, at)))
        for face in FACES:
            lines.append("f " + " ".join(str(number[c]) for c in face))
    return lines


def bill():
    volume = lambda size: size[0] * size[1] * size[2]
    lines = []
    for m in range(16):
        of = [volume(size) for _, size, material in WALL if material == m]
        if of:
            lines.append(f"(m{m} {len(of)} {sum(of)})")
    lines.append(f"(total {len(WALL)} {sum(volume(size) for _, size, _ in WALL)})")
    return lines


def outward():
    """Every face's normal points away from the middle of the box."""
    for face in FACES:
        p = [[2 * int(d) - 1 for d in c] for c in face]
        u = [b - a for a, b in zip(p[0], p[1])]
        v = [b - a for a, b in zip(p[0], p[2])]
        n = (u[1] * v[2] - u[2] * v[1], u[2] * v[0] - u[0] * v[2], u[0] * v[1] - u[1] * v[0])
        assert sum(a * b for a, b in zip(n, p[0])) > 0, face


outward()
print("\n".join(drawing() + bill()))
