"""Mesh files as docs/01-scope.md 5.9 has them, written, and walls to write."""
import struct


def parts(title, points, triangles):
    """The file in order; the newline after a block is a part of its own."""
    m = len(triangles)
    return [
        b"# vtk DataFile Version 3.0\n",
        title + b"\n",
        b"BINARY\n",
        b"DATASET UNSTRUCTURED_GRID\n",
        b"POINTS %d double\n" % len(points),
        b"".join(struct.pack(">3d", *point) for point in points),
        b"\n",
        b"CELLS %d %d\n" % (m, 4 * m),
        b"".join(struct.pack(">4I", 3, *triangle) for triangle in triangles),
        b"\n",
        b"CELL_TYPES %d\n" % m,
        struct.pack(">I", 5) * m,
        b"\n",
    ]


def file(title, points, triangles):
    """title: bytes without a newline. points: three numbers each. triangles: three names each."""
    return b"".join(parts(title, points, triangles))


def grid(columns, rows, dx, dy, z=0.0):
    """columns by rows points, row by row from the bottom; two triangles to a cell, counterclockwise."""
    points = [(i * dx, j * dy, z) for j in range(rows) for i in range(columns)]
    triangles = []
    for j in range(rows - 1):
        for i in range(columns - 1):
            a = j * columns + i
            triangles += [(a, a + 1, a + columns), (a + 1, a + columns + 1, a + columns)]
    return points, triangles
