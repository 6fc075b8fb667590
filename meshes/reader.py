"""
A reader of the mesh files that docs/01-scope.md describes, to judge the proved one by. It shares nothing with it: every right line with a count is
written out once, and a line of a file is looked up among them.
"""
from bisect import bisect_left

MAX_POINTS = 65536
MAX_TRIANGLES = 131072
MAX_TITLE = 256  # with its newline


class Refused(Exception):
    def __init__(self, place, what):
        self.place = place
        self.what = what


class Lines:
    """All right lines of one kind, each with its newline, and the count that each says."""

    def __init__(self, counts):
        self.counts = counts
        self.sorted = sorted(counts)

    def begin_with(self, text):
        """Whether one of them begins so: if any does, the first that is not below text does."""
        i = bisect_left(self.sorted, text)
        return i < len(self.sorted) and self.sorted[i].startswith(text)


def only(line):
    return Lines({line: None})


VERSION = only(b"# vtk DataFile Version 3.0\n")
BINARY = only(b"BINARY\n")
DATASET = only(b"DATASET UNSTRUCTURED_GRID\n")
POINTS = Lines({b"POINTS %d double\n" % n: n for n in range(MAX_POINTS + 1)})
CELLS = Lines({b"CELLS %d %d\n" % (m, 4 * m): m for m in range(MAX_TRIANGLES + 1)})


class File:
    """A file and how far it has been read; every step goes past one right thing or refuses."""

    def __init__(self, data):
        self.data = data
        self.place = 0

    def wrong(self, what):
        raise Refused(self.place, what)

    def ends_early(self):
        raise Refused(len(self.data), "early end")

    def line(self, right, what):
        after = self.data.find(b"\n", self.place) + 1
        text = self.data[self.place:after or None]
        if text in right.counts:
            self.place = after
            return right.counts[text]
        if not after and right.begin_with(text):
            self.ends_early()
        self.wrong(what)

    def title(self):
        newline = self.data.find(b"\n", self.place, self.place + MAX_TITLE)
        if newline >= 0:
            self.place = newline + 1
        elif len(self.data) - self.place < MAX_TITLE:
            self.ends_early()
        else:
            self.wrong("title")

    def any_bytes(self, count):
        if len(self.data) - self.place < count:
            self.ends_early()
        self.place += count

    def number(self, right, what):
        """Four bytes, the highest first, whose value is one of the range `right`."""
        number = self.data[self.place:self.place + 4]
        if len(number) < 4:
            self.ends_early()
        if int.from_bytes(number, "big") not in right:
            self.wrong(what)
        self.place += 4

    def newline(self, what):
        if self.place == len(self.data):
            self.ends_early()
        if self.data[self.place:self.place + 1] != b"\n":
            self.wrong(what)
        self.place += 1

    def end(self):
        if self.place < len(self.data):
            self.wrong("byte too many")


def read(data):
    """The counts and, as (first byte, byte after the last), the three blocks; or Refused."""
    file = File(data)
    file.line(VERSION, "version line")
    file.title()
    file.line(BINARY, "BINARY line")
    file.line(DATASET, "DATASET line")

    n = file.line(POINTS, "POINTS line")
    points = file.place
    file.any_bytes(24 * n)
    points_end = file.place
    file.newline("newline after points")

    m = file.line(CELLS, "CELLS line")
    cells = file.place
    for _ in range(m):
        file.number(range(3, 4), "cell size")
        for _ in range(3):
            file.number(range(n), "name")
    cells_end = file.place
    file.newline("newline after cells")

    file.line(only(b"CELL_TYPES %d\n" % m), "CELL_TYPES line")
    types = file.place
    for _ in range(m):
        file.number(range(5, 6), "type")
    types_end = file.place
    file.newline("newline after types")

    file.end()
    return n, m, ((points, points_end), (cells, cells_end), (types, types_end))


def judge(data):
    """The answer, and 'accepted', 'early end' or the name of what is wrong."""
    try:
        n, m, _ = read(data)
    except Refused as refused:
        return (8, refused.place), refused.what
    return (0, n, m), "accepted"


def answer(data):
    """(0, points, triangles) or (8, place)"""
    return judge(data)[0]


def blocks(data):
    """The points, cells and types blocks of a file that is accepted."""
    return read(data)[2]
