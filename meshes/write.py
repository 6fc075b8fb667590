"""Writes the mesh files that docs/01-scope.md describes, and makes meshes to write."""
import struct


def pieces(title, points, triangles):
    """The file's lines and blocks in order; the newline after a block is a piece of its own."""
    m = len(triangles)
    return [
        b"# vtk DataFile Version 3.0\n",
        title + b"\n",
        b"BINARY\n",
        b"DATASET UNSTRUCTURED_GRID\n",
        b"POINTS %d double\n" % len(points),
        b"".join(struct.pack(">3d", *point) for point in points),
        b"\n",
        b"CELLS %d %d\n" % (m, 4 * m),
        b"".join(struct.pack(">4I", 3, *triangle) for triangle in triangles),
        b"\n",
        b"CELL_TYPES %d\n" % m,
        struct.pack(">I", 5) * m,
        b"\n",
    ]


def file(title, points, triangles):
    """title: bytes without a newline. points: three numbers each. triangles: three names each."""
    return b"".join(pieces(title, points, triangles))


def square():
    """The four points of the scope's examples, as two triangles."""
    return [(0, 0, 0), (6, 0, 0), (0, 6, 0), (6, 6, 0)], [(0, 1, 2), (1, 3, 2)]


def halves(a, b, c, d):
    """a, b and c, d are opposite sides of a square that run the same way."""
    return [(a, b, c), (b, d, c)]


def folded(columns, rows):
    """A panel of columns x rows points that is folded along every other column."""
    points = [(0.5 * i, 0.25 * j, 0.125 * (i % 2)) for j in range(rows) for i in range(columns)]
    triangles = []
    for j in range(rows - 1):
        for i in range(columns - 1):
            a = j * columns + i
            triangles += halves(a, a + 1, a + columns, a + columns + 1)
    return points, triangles


def sleeve(columns, rows):
    """The same closed in both directions: two triangles for each point."""
    points, _ = folded(columns, rows)
    triangles = []
    for j in range(rows):
        for i in range(columns):
            below, above, right = j * columns, (j + 1) % rows * columns, (i + 1) % columns
            triangles += halves(below + i, below + right, above + i, above + right)
    return points, triangles
