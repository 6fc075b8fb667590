"""Cases for `wall`: arguments, files and standard input, drawn by a random.Random. What is right about them is for wall.py to say; nothing here knows it."""
import math
import os
import struct

import wall
import walls

BELOW_1E9 = math.nextafter(1e9, 0)
CLOSED = object()  # a standard input that is closed


class Case:
    """files: path below the case's folder -> bytes, or wall.UNREADABLE for a folder. stdin: bytes, wall.UNREADABLE for a folder, or CLOSED. find: a name as it is typed -> what it stands for."""

    def __init__(self, kind, args, files, stdin=b"", odd=None):
        self.kind, self.args, self.files, self.stdin, self.odd = kind, args, files, stdin, odd or {}

    def find(self, name):
        if name in self.odd:
            return self.odd[name]
        path = os.path.normpath(name)
        if path == b"." or any(there.startswith(path + b"/") for there in self.files):
            return wall.UNREADABLE
        return self.files.get(path)

    def answers(self):
        return wall.answers(self.args, self.find, wall.UNREADABLE if self.stdin is CLOSED else self.stdin)


# Coordinates


def of_thousandths(rng):
    """On a last decimal's middle, or as near as a double comes."""
    return (rng.randint(-10**6, 10**6) + 0.5) / 1000


def of_any_size(rng):
    return rng.choice((-1, 1)) * 10 ** rng.uniform(-12, 8.9)


def of_huge(rng):
    return rng.choice((rng.uniform(-999999999, 999999999), float(rng.randint(-999999999, 999999999)), BELOW_1E9, -BELOW_1E9, 999999999.9995))


def of_tiny(rng):
    return rng.choice((-1, 1)) * rng.random() * 10.0 ** -rng.randint(0, 323)


COORDINATES = (
    lambda rng: float(rng.randint(0, 12)),
    lambda rng: float(rng.randint(-3000, 3000)),
    lambda rng: float(rng.choice((rng.randint(-1048576, 1048576), 1048576, -1048576))),
    lambda rng: float(rng.randint(-1100000, 1100000)),
    lambda rng: rng.randint(-40000, 40000) / 16,
    lambda rng: rng.randint(-5000000, 5000000) / 1000,
    lambda rng: rng.uniform(-2500, 2500),
    lambda rng: rng.choice((0.0, -0.0, 1.0, -1.0, 0.0005, -0.0005, 0.0004999, -0.0004)),
    of_thousandths,
    of_any_size,
    of_huge,
    of_tiny,
)


def coordinate(rng):
    return rng.choice(COORDINATES)


# Walls: points as x and y, triangles that turn left or are flat


def of_grid(rng):
    columns, rows = rng.randint(2, 9), rng.randint(2, 6)
    dx, dy = (rng.choice((1.0, 6.0, 25.0, 300.0, 0.1, 12.5, 1 / 3, rng.uniform(0.001, 900), 1e-7, 2e7)) for _ in range(2))
    points, triangles = walls.grid(columns, rows, dx, dy)
    x, y = rng.choice(((0.0, 0.0), (-0.0, -0.0), (rng.uniform(-500, 500), -700.25), (-1e8, 1e8), (float(rng.randint(-9999, 9999)), -12.0)))
    return [(a + x, b + y) for a, b, _ in points], triangles


def of_split(rng):
    """A triangle, and points put into triangles of it."""
    draw = coordinate(rng)
    points, triangles = [(draw(rng), draw(rng)) for _ in range(3)], [(0, 1, 2)]
    for _ in range(rng.randint(0, 12)):
        a, b, c = triangles.pop(rng.randrange(len(triangles)))
        u, v = sorted((rng.random(), rng.random()))
        points.append(tuple(u * points[a][k] + (v - u) * points[b][k] + (1 - v) * points[c][k] for k in (0, 1)))
        new = len(points) - 1
        triangles += [(a, b, new), (b, c, new), (c, a, new)]
    return points, triangles


def of_soup(rng):
    draw = [coordinate(rng) for _ in range(rng.randint(1, 2))]
    points = [(rng.choice(draw)(rng), rng.choice(draw)(rng)) for _ in range(rng.randint(1, 15))]
    return points, [tuple(rng.randrange(len(points)) for _ in range(3)) for _ in range(rng.randint(1, 25))]


def of_one(rng):
    draw = coordinate(rng)
    return [(draw(rng), draw(rng)) for _ in range(3)], [(0, 1, 2)]


def of_line(rng):
    """All on one line, or in one place: no triangle has an area, and a side may have every point."""
    draw, n = coordinate(rng), rng.randint(1, 6)
    xs = [draw(rng) for _ in range(n)]
    points = rng.choice(([(x, 7.0) for x in xs], [(-3.5, x) for x in xs], [(x, x) for x in xs], [(xs[0], xs[0])] * n))
    return points, [tuple(rng.randrange(n) for _ in range(3)) for _ in range(rng.randint(1, 5))]


def of_smallest(rng):
    """Areas among the smallest doubles, or too small for one: a mass may come out as a zero where the area does not."""
    x = rng.choice((0, 537, 1074, rng.randint(0, 1074)))
    y = min(1074, max(0, 1074 - x - rng.choice((rng.randint(-3, 16), rng.randint(-1, 3)))))
    points = [(rng.randint(-9, 9) * 2.0**-x, rng.randint(-9, 9) * 2.0**-y) for _ in range(rng.randint(3, 9))]
    return points, [tuple(rng.sample(range(len(points)), 3)) for _ in range(rng.randint(1, 4))]


SHAPES = (of_grid, of_grid, of_split, of_split, of_soup, of_soup, of_one, of_line, of_smallest)


def turned_left(points, triangles):
    return [(a, c, b) if wall.plane_area(points[a], points[b], points[c]) < 0 else (a, b, c) for a, b, c in triangles]


def heights(rng, n):
    z = rng.choice((0.0, -0.0, 5.0, -17.25, rng.uniform(-9, 9), BELOW_1E9, 5e-324))
    return [rng.choice((0.0, -0.0)) if z == 0 else z for _ in range(n)]


def as_whole(rng, points):
    """Whole coordinates up to 1,048,576, perhaps one of them at that end or past it."""
    points = [tuple(float(max(-1048576, min(1048576, round(number)))) for number in point) for point in points]
    if rng.random() < 0.3:
        i, at = rng.randrange(len(points)), rng.randrange(2)
        points[i] = tuple(rng.choice((1048576.0, -1048576.0, 1048577.0, -1048577.0, 0.5)) if k == at else number for k, number in enumerate(points[i]))
    return points


def mesh(rng):
    """Points of three coordinates and triangles, none of which is refused."""
    points, triangles = rng.choice(SHAPES)(rng)
    if rng.random() < 0.3:
        draw = coordinate(rng)
        points = points + [(draw(rng), draw(rng)) for _ in range(rng.randint(1, 4))]
    if rng.random() < 0.3:
        place = list(range(len(points)))
        rng.shuffle(place)
        at = {name: new for new, name in enumerate(place)}
        points, triangles = [points[name] for name in place], [tuple(at[name] for name in triangle) for triangle in triangles]
        rng.shuffle(triangles)
    if rng.random() < 0.2:
        a, b = rng.randrange(len(points)), rng.randrange(len(points))
        triangles.insert(rng.randint(0, len(triangles)), rng.choice(((a, a, b), (a, b, a), (b, a, a), (a, a, a))))
    if rng.random() < 0.35:
        points = as_whole(rng, points)
    triangles = [triangle[k:] + triangle[:k] for triangle in triangles for k in (rng.randrange(3),)]
    return [(x, y, z) for (x, y), z in zip(points, heights(rng, len(points)))], turned_left(points, triangles)


TITLES = (b"A wall", b"A wall", b"vtk output", b"", b"BINARY", b"t" * 255, b"\0\t\r\x01 POINTS 4 double \x7f\x80\xff")


def parts(rng):
    return walls.parts(rng.choice(TITLES), *mesh(rng))


def good(rng):
    return b"".join(parts(rng))


def small_parts(rng):
    n = rng.randint(1, 4)
    points = [(float(rng.randint(-9, 9)), rng.uniform(-9, 9), 0.0) for _ in range(n)]
    triangles = [tuple(rng.randrange(n) for _ in range(3)) for _ in range(rng.randint(1, 3))]
    return walls.parts(rng.choice(TITLES[:5]), points, turned_left(points, triangles))


# Damaged files

VERSION, TITLE, BINARY, DATASET, POINTS, XYZ, AFTER_XYZ, CELLS, NAMES, AFTER_NAMES, TYPES_LINE, TYPES, AFTER_TYPES = range(13)


def changed(rng, at, make):
    """A file whose part `at` is what make(part) gives."""
    whole = parts(rng)
    whole[at] = make(whole[at])
    return b"".join(whole)


def ways_of(line):
    """A line in other ways, most of them wrong."""
    text = line[:-1]
    return [
        text,
        text[:-1] + b"\n",
        text[1:] + b"\n",
        text + b" \n",
        b" " + line,
        text + b"\r\n",
        text + b"\0\n",
        text + b"x\n",
        line + b"\n",
        b"\n",
        text.lower() + b"\n",
        text.swapcase() + b"\n",
        text.replace(b" ", b"  ") + b"\n",
        text.replace(b" ", b"\t") + b"\n",
        text.replace(b" ", b" 0") + b"\n",
        text.replace(b" ", b" +") + b"\n",
        text.replace(b" ", b" -") + b"\n",
        text.replace(b" ", b"") + b"\n",
        text.replace(b"3.0", b"4.2").replace(b"BINARY", b"ASCII").replace(b"UNSTRUCTURED_GRID", b"POLYDATA").replace(b"double", b"float") + b"\n",
        text.replace(b"3.0", b"5.1").replace(b"double", b"doubles") + b"\n",
    ]


POINTS_LINES = [b"POINTS %s double\n" % count for count in (
    b"0", b"00", b"01", b"65536", b"65537", b"65540", b"70000", b"100000", b"99999999999999999999999", b"4294967297", b"18446744073709551617", b"-1", b"1.0", b"", b" 4", b"4 ", b"x", b"4x")]
CELLS_LINES = [b"CELLS %s\n" % counts for counts in (
    b"0 0", b"0 00", b"00 0", b"1 4", b"01 4", b"1 04", b"1 5", b"2 6", b"131072 524288", b"131073 524292", b"131080 524320", b"200000 800000", b"99999999999999999999 1", b"1", b"1 ", b"",
    b"1 4 ", b"1  4", b"1073741825 4", b"4294967297 4", b"2 4")]
TYPES_LINES = [b"CELL_TYPES %s\n" % count for count in (b"0", b"1", b"01", b"2", b"131072", b"131073", b"", b"1 ", b"999999999999999999999", b"4294967297")]


def other_line(at, lines=None):
    def make(rng):
        return changed(rng, at, lambda line: rng.choice(lines + ways_of(line) if lines else ways_of(line)))
    return make


def cut_count(at):
    """The file ends in a line with a count."""
    lines = {POINTS: POINTS_LINES, CELLS: CELLS_LINES, TYPES_LINE: TYPES_LINES}[at]

    def make(rng):
        line = rng.choice(lines)
        return b"".join(parts(rng)[:at]) + line[:rng.randint(0, len(line))]
    return make


def cut_in(at):
    """The file ends in a part, or where it begins or ends."""
    def make(rng):
        whole = parts(rng)
        return b"".join(whole[:at]) + whole[at][:rng.randint(0, len(whole[at]))]
    return make


def number_put(at, size, choose, values):
    """A 32-bit number of a block, every size-th from choose(rng), replaced: in the first, the last or any entry."""
    def make(rng):
        whole = parts(rng)
        block, n = bytearray(whole[at]), len(whole[XYZ]) // 24
        for _ in range(rng.choice((1, 1, 2))):
            entry = rng.choice((0, len(block) // size - 1, rng.randrange(len(block) // size)))
            place = entry * size + 4 * choose(rng)
            block[place:place + 4] = struct.pack(">I", rng.choice(values(n)))
        whole[at] = bytes(block)
        return b"".join(whole[:at + 1])[:rng.choice((-1, -3, -5))] if rng.random() < 0.2 else b"".join(whole)
    return make


not_three = number_put(NAMES, 16, lambda rng: 0, lambda n: (0, 1, 2, 4, 5, 0x03000000, 0x80000003, 0x103, 0xFFFFFFFF))
name_too_far = number_put(NAMES, 16, lambda rng: rng.randint(1, 3), lambda n: (n, n, n + 1, n + 65536, 2**31, 2**31 + n - 1, 2**32 - 1, (n - 1) << 24 or n))
not_five = number_put(TYPES, 4, lambda rng: 0, lambda n: (0, 3, 4, 6, 7, 9, 0x05000000, 0x105, 0xFFFFFFFF))


def newline_lost(at):
    def make(rng):
        return changed(rng, at, lambda part: rng.choice((b"", b" ", b"\r", b"\r\n", b"\0", b"C", b" \n")))
    return make


def newline_doubled(at):
    def make(rng):
        return changed(rng, at, lambda part: b"\n\n")
    return make


def too_many(rng):
    return good(rng) + rng.choice((b"\n", b"\0", b" ", b"CELL_DATA 2\n", b"POINT_DATA 4\n", b"METADATA\n", bytes(100)))


def title_too_long(rng):
    long = rng.choice((256, 257, 300, 5000)) * b"t"
    return rng.choice((changed(rng, TITLE, lambda line: long + b"\n"), walls.parts(b"", [], [])[0] + long, walls.parts(b"", [], [])[0] + long[:rng.randint(250, 258)]))


def any_byte(rng):
    data = bytearray(good(rng))
    for _ in range(rng.choice((1, 1, 1, 2, 3))):
        place = rng.randrange(len(data))
        way = rng.randrange(4)
        if way == 0:
            data[place] = rng.randrange(256)
        elif way == 1:
            data[place] ^= 1 << rng.randrange(8)
        elif way == 2:
            data.insert(place, rng.choice((10, 32, 0, 48, rng.randrange(256))))
        elif len(data) > 1:
            del data[place]
    return bytes(data)


def no_points(rng):
    return walls.file(b"Nothing", [], [])


def no_points_yet_triangles(rng):
    return walls.file(b"Names of nothing", [], [(rng.choice((0, 1, 2**32 - 1)), 0, 0)])


def no_triangles(rng):
    points = [(rng.choice((math.nan, 1e300, float(rng.randint(0, 9)))), 0.0, float(i)) for i in range(rng.randint(1, 5))]
    return walls.file(b"Points alone", points, [])


OUTSIDE = (math.nan, -math.nan, math.inf, -math.inf, 1e9, -1e9, math.nextafter(1e9, 2e9), -math.nextafter(1e9, 2e9), 1e300, -1.7976931348623157e308)
INSIDE = (BELOW_1E9, -BELOW_1E9, 999999999.0, -999999999.0)


def any_place(rng, length):
    return rng.choice((0, length - 1, rng.randrange(length)))


def outside(rng):
    """A coordinate that is not between, or more; perhaps of a point that is never named, perhaps with another z or a turned triangle besides."""
    points, triangles = mesh(rng)
    if rng.random() < 0.3:
        points.append((0.0, 0.0, points[0][2]))
    for _ in range(rng.choice((1, 1, 2, 3))):
        i = any_place(rng, len(points))
        point = list(points[i])
        point[rng.randrange(3)] = rng.choice(OUTSIDE)
        points[i] = tuple(point)
    if rng.random() < 0.3:
        i = any_place(rng, len(points))
        points[i] = (*points[i][:2], rng.uniform(-9, 9))
    if rng.random() < 0.3:
        triangles[-1] = triangles[-1][::-1]
    return walls.file(b"Far away", points, triangles)


def just_inside(rng):
    points, triangles = mesh(rng)
    i = any_place(rng, len(points))
    point = list(points[i])
    point[rng.randrange(2)] = rng.choice(INSIDE)
    points[i] = tuple(point)
    return walls.file(b"As far as it goes", points, turned_left(points, triangles))


def not_flat(rng):
    points, triangles = mesh(rng)
    points += [(*coordinate_pair(rng), points[0][2])] if len(points) < 2 or rng.random() < 0.2 else []
    z = points[0][2]
    for _ in range(rng.choice((1, 1, 2, len(points)))):
        i = any_place(rng, len(points))
        points[i] = (*points[i][:2], rng.choice((math.nextafter(z, 1e9), math.nextafter(z, -1e9), -z, z + 1, z / 3 + 0.0000005, 12.3456785, -0.0000004, coordinate(rng)(rng), BELOW_1E9)))
    if rng.random() < 0.3:
        triangles[-1] = triangles[-1][::-1]
    return walls.file(b"Not flat", points, triangles)


def coordinate_pair(rng):
    draw = coordinate(rng)
    return draw(rng), draw(rng)


def turned(rng):
    points, triangles = mesh(rng)
    for _ in range(rng.choice((1, 1, 2, len(triangles)))):
        t = any_place(rng, len(triangles))
        a, b, c = triangles[t]
        triangles[t] = rng.choice(((a, c, b), (c, b, a), (b, a, c)))
    return walls.file(b"Turned", points, triangles)


def just_turned(rng):
    """As near to flat as doubles come: some turn right, some left, some are flat by rounding."""
    a, b = rng.uniform(0, 9), rng.uniform(0, 9)
    points = [(0.0, 0.0, 0.0), (a, b, 0.0), (2 * a, math.nextafter(2 * b, rng.choice((-1e9, 1e9))), 0.0), (3 * a, 3 * b, 0.0), (5e-324, 1.0, 0.0), (0.0, 1.0, 0.0)]
    return walls.file(b"Nearly flat", points, [tuple(rng.sample(range(6), 3)) for _ in range(rng.randint(1, 3))])


def nothing(rng):
    return b""


def junk(rng):
    return rng.choice((b"\n", b"#", b"# vtk", b"# vtk DataFile Version 3.0", b"# vtk DataFile Version 3.1\n", b"solid wall\n", bytes(rng.randrange(256) for _ in range(rng.randint(1, 400)))))


def too_long(rng, turn):
    over = wall.MOST_BYTES + (0, 1, 1, 2, 5000)[turn % 5]
    return rng.choice((b"", good(rng))).ljust(over, b"\0")


DAMAGED = [
    *[cut_in(at) for at in range(13)],
    *[cut_in(at) for at in (XYZ, NAMES, TYPES)],
    *[cut_count(at) for at in (POINTS, CELLS, TYPES_LINE)] * 2,
    *[other_line(at) for at in (VERSION, BINARY, DATASET)],
    *[other_line(POINTS, POINTS_LINES), other_line(CELLS, CELLS_LINES), other_line(TYPES_LINE, TYPES_LINES)] * 2,
    *[newline_lost(at) for at in (TITLE, AFTER_XYZ, AFTER_NAMES, AFTER_TYPES)],
    *[newline_doubled(at) for at in (AFTER_XYZ, AFTER_NAMES, AFTER_TYPES)],
    *[not_three, name_too_far, not_five, too_many, title_too_long] * 2,
    *[no_points, no_points_yet_triangles, no_triangles, nothing, junk],
    *[outside, not_flat, turned, any_byte] * 3,
    *[just_inside, just_turned] * 2,
]

# Words

DENSITY_ENDS = (b"1099511627776", b"1099511627777", b"1099511627776.1", b"999999999999999", b"0.00000000000001", b"0.0000000000009", b"0.00000000000091")  # about 2^40 and 2^-40
THICKNESS_ENDS = (b"0.00000000090949", b"0.00000000090950", b"0.00000000000001", b"999999999999999")  # about 2^-40 m
# Between two last decimals: a tie where the double in kg/m3, m, Pa or 1 is the typed number (odd / 1024 m), else as near to one as a double comes
DENSITY_TIES = (b"0.0625", b"0.1875", b"0.0005", b"0.0015", b"1400.0625", b"1400.1875", b"1400.0005", b"1400.0015")
THICKNESS_TIES = (b"0.9765625", b"2.9296875", b"4.8828125", b"6.8359375", b"1000.9765625", b"0.0000005", b"0.0000015", b"0.0000025", b"0.1000005", b"1.2345675", b"2.0000005", b"2.0000015", b"12.3456785")
YOUNG_TIES = (b"0.0000005", b"0.0000015", b"2147.4836485", b"2147.4836475", b"70000.0000005")
POISSON_TIES = (b"0.0000005", b"0.0000015", b"0.1234565", b"0.3000005")
RIGHT = {
    b"density": (b"1400", b"1400.0", b"7850", b"1.5", b"2", b"0.5", b"000000000001400", *DENSITY_ENDS, *DENSITY_TIES),
    b"thickness": (b"2", b"2.5", b"1.953125", b"1000", b"0.1", b"3", b"00.5", b"12.345678", *THICKNESS_ENDS, *THICKNESS_TIES),
    b"young": (b"2147.483648", b"70000", b"0.000001", b"0.00000000000001", b"999999999999999", b"210000.5", *YOUNG_TIES),
    b"poisson": (b"0", b"0.25", b"0.3", b"0.49999999999999", b"0.499", b"00000.0", b"000000.33333333", *POISSON_TIES),
    b"row": wall.SIDES,
}


def decimal(rng):
    n = rng.randint(1, 15)
    digits = b"%0*d" % (n, rng.randrange(10**n))
    point = rng.randint(1, n)
    return digits if point == n else digits[:point] + b"." + digits[point:]


def right_word(rng, word):
    """A value that may still be a 0, or too large for poisson."""
    return word + b"=" + (decimal(rng) if word not in (b"row", b"poisson") and rng.random() < 0.4 else rng.choice(RIGHT[word]))


def right_words(rng):
    words = rng.sample(sorted(RIGHT), rng.choice((0, 0, 1, 1, 2, 3, 4, 5)))
    return [right_word(rng, word) for word in words]


WRONG = [
    b"", b"a" * 4096, b"a" * 5000, b"density=" + b"1" * 4088, b"density=" + b"0" * 4087, b"-" * 4096, b"-" * 4095, b"=" * 4095, b"x=" + b"5" * 4094, b"row=" + b"u" * 4092,
    b"-", b"-h", b"--help", b"--", b"-5", b"-density=5", b"-=", b"-a.vtk",
    b"=", b"=5", b"==", b"=left", b"colour=red", b"Density=5", b"density =5", b" density=5", b"DENSITY=5", b"densit=5", b"densityy=5", b"label=1", b"help=", b"file=a.vtk", b"x=",
    b"row=", b"row=up", b"row=Left", b"row=left ", b"row= left", b"row==left", b"row=bottom=", b"row=lef", b"row=leftt", b"row=5", b"row=top\n",
    b"density=", b"density=1.", b"density=.5", b"density=.", b"density=..5", b"density=1..5", b"density=1.5.", b"density=1.5.2", b"density=-1", b"density=+1", b"density=1e3", b"density= 1",
    b"density=1 ",
    b"density==1", b"density=1=", b"density=nan", b"density=inf", b"density=0x10", b"density=1_000", b"density=1\n", b"density=\xd9\xa1", b"density=5\xc3\xa9", b"density=1/2", b"density=:",
    b"density=1:", b"density=1/",
    b"thickness=2,5", b"thickness=,5", b"thickness=2.5mm", b"thickness=2.5,", b"thickness=", b"young=2e9", b"young=", b"poisson=", b"poisson=-0.2", b"poisson=0,3", b"poisson=.3",
    b"density=0", b"density=0.0", b"density=000000000000000", b"thickness=0", b"thickness=0.00000000000000", b"young=0", b"young=0.0",
    b"poisson=0.5", b"poisson=0.50", b"poisson=00.5", b"poisson=0.50000000000000", b"poisson=0.50000000000001", b"poisson=1", b"poisson=123456789012345",
    b"density=1234567890123456", b"density=0000000000000001", b"density=123456789012345.6", b"density=123456789012345.", b"density=1.234567890123456", b"density=0.000000000000001",
    b"density=12345678.12345678",
    b"density=12345678901234567890", b"thickness=0.0000000000000001", b"poisson=0.333333333333333", b"poisson=0.5000000000000000", b"young=2147483648.1234567", b"density=0000000000000000",
]
MODES = (b"label", b"all", b"picture", b"vtk")
MORE_MODES = ([], [b"label"], [b"all"], [b"picture"], [b"vtk"])


def mixed(rng, *lists):
    """All of them in any order."""
    args = [argument for some in lists for argument in some]
    rng.shuffle(args)
    return args


def spare_input(rng):
    """Where files are named, nobody reads it."""
    return rng.choice((b"", b"", good(rng), b"junk"))


# Cases


def one_good(rng):
    mode = rng.choice(MORE_MODES)
    return Case("one wall", mode + mixed(rng, [b"w.vtk"], right_words(rng)), {b"w.vtk": good(rng)}, spare_input(rng))


BOUND_ENDS = [b"density=" + text for text in DENSITY_ENDS] + [b"thickness=" + text for text in THICKNESS_ENDS]


def at_the_bound(rng, turn):
    """Whole coordinates, density and thickness where the bound ends."""
    points, triangles = mesh(rng)
    points = as_whole(rng, points)
    return Case("at the bound", mixed(rng, [b"w.vtk"], [BOUND_ENDS[turn % len(BOUND_ENDS)]]), {b"w.vtk": walls.file(b"Whole", points, turned_left(points, triangles))})


TIES = [word + b"=" + text for word, texts in ((b"thickness", THICKNESS_TIES), (b"density", DENSITY_TIES), (b"young", YOUNG_TIES), (b"poisson", POISSON_TIES)) for text in texts]


def at_a_tie(rng, turn):
    return Case("at a tie", mixed(rng, [b"w.vtk"], [TIES[turn % len(TIES)]]), {b"w.vtk": good(rng)})


def smallest_areas(rng):
    points, triangles = of_smallest(rng)
    data = walls.file(b"Next to nothing", [(x, y, 0.0) for x, y in points], turned_left(points, triangles))
    return Case("smallest areas", rng.choice(([], *MORE_MODES)) + mixed(rng, [b"w.vtk"], right_words(rng)), {b"w.vtk": data})


def large_sums(rng):
    """Areas in mm2 and masses in mg about 2^53 and more: each sum's rounding, and its order, shows in the last decimals."""
    points, triangles = walls.grid(rng.randint(3, 6), rng.randint(3, 5), rng.uniform(1e7, 9e7), rng.uniform(1e7, 9e7))
    points = [(x + rng.uniform(-1e6, 1e6) * (rng.random() < 0.5), y, 0.0) for x, y, _ in points]
    return Case("large sums", mixed(rng, [b"w.vtk"], [b"row=" + rng.choice(wall.SIDES)]), {b"w.vtk": walls.file(b"Large", points, turned_left(points, triangles))})


def far_picture(rng):
    """A difference of coordinates lies next to the middle of two last decimals, and rounds to it."""
    near = lambda: (2 * rng.randint(-40000, 40000) + 1) / 16 + rng.choice((-1e-10, 1e-10))
    points = [(-(2.0**27), 2.0**27, 0.0), *((near(), near(), 0.0) for _ in range(rng.randint(2, 6)))]
    triangles = [tuple(rng.sample(range(len(points)), 3)) for _ in range(rng.randint(1, 4))]
    return Case("far picture", [b"picture", b"w.vtk", b"row=" + rng.choice(wall.SIDES)], {b"w.vtk": walls.file(b"Far", points, turned_left(points, triangles))})


def from_input(rng):
    mode = rng.choice(MORE_MODES)
    data = rng.choice((good, good, rng.choice(DAMAGED)))(rng)
    return Case("standard input", mode + mixed(rng, right_words(rng)), {b"w.vtk": good(rng)}, data)


def odd_input(rng):
    return Case("odd standard input", rng.choice(MORE_MODES) + mixed(rng, right_words(rng)), {}, rng.choice((wall.UNREADABLE, CLOSED, b"")))


def one_damaged(rng, turn):
    mode = rng.choice(MORE_MODES)
    data = DAMAGED[turn % len(DAMAGED)](rng)
    if rng.random() < 0.15:
        return Case("damaged, standard input", mode + mixed(rng, right_words(rng)), {}, data)
    return Case("damaged", mode + mixed(rng, [b"w.vtk"], right_words(rng)), {b"w.vtk": data}, spare_input(rng))


def several(rng):
    files = {}
    for k in range(rng.randint(2, 8)):
        files[b"w%d.vtk" % k] = rng.choice((good, good, rng.choice(DAMAGED)))(rng)
    names = [*files, *rng.choice(([], [b"missing.vtk"], [b"folder"], [b"missing.vtk", b"folder", b"w0.vtk"]))]
    mode = rng.choice(([], [b"label"], [b"all"]))
    return Case("several", mode + mixed(rng, names, right_words(rng)), {**files, b"folder": wall.UNREADABLE}, spare_input(rng))


def in_turn(kind):
    """A whole file in many damaged ways, as many files in one run."""
    def make(rng):
        whole = small_parts(rng)
        data = b"".join(whole)
        files = {b"%04d.vtk" % k: change for k, change in enumerate(kind(rng, whole, data))}
        mode = rng.choice(([], [b"label"], [b"all"]))
        return Case(kind.__doc__, mode + list(files), files)
    return make


def cuts(rng, whole, data):
    """each cut"""
    return [data[:k] for k in range(len(data) + 1)]


def bytes_changed(rng, whole, data):
    """each byte changed"""
    return [data[:k] + bytes([data[k] ^ rng.choice((1, 2, 4, 8, 16, 32, 64, 128, 255))]) + data[k + 1:] for k in range(len(data))]


def bytes_lost(rng, whole, data):
    """each byte lost"""
    return [data[:k] + data[k + 1:] for k in range(len(data))]


def bytes_added(rng, whole, data):
    """a byte more at each place"""
    return [data[:k] + bytes([rng.choice((10, 32, 48, 49, 0, 255))]) + data[k:] for k in range(len(data) + 1)]


def lines_changed(rng, whole, data):
    """each line in each way"""
    ways = []
    for at, lines in ((VERSION, []), (TITLE, []), (BINARY, []), (DATASET, []), (POINTS, POINTS_LINES), (CELLS, CELLS_LINES), (TYPES_LINE, TYPES_LINES)):
        for line in lines + ways_of(whole[at]):
            ways.append(b"".join(whole[:at] + [line] + whole[at + 1:]))
            ways.append(b"".join(whole[:at] + [line]))
    return ways


def titles(rng, whole, data):
    """titles about as long as they may be"""
    return [b"".join([whole[VERSION], b"t" * k, end, *rest]) for k in range(252, 260) for end in (b"", b"\n") for rest in ([], whole[BINARY:])]


EACH = [in_turn(kind) for kind in (cuts, bytes_changed, bytes_lost, bytes_added, lines_changed, titles)]


def wrong_argument(rng, turn):
    args = mixed(rng, [b"w.vtk"] * rng.choice((0, 1, 1, 2)), right_words(rng))
    args.insert(rng.randint(0, len(args)), WRONG[turn % len(WRONG)])
    if rng.random() < 0.2:
        args.insert(rng.randint(0, len(args)), rng.choice(WRONG))
    return Case("a wrong argument", rng.choice(MORE_MODES) + args, {b"w.vtk": good(rng)}, spare_input(rng))


AGAIN = (None, None, None, b"", b"x", b"0", b"9.", b"up", b"5" * 4096)


def said_twice(rng, turn):
    """The second time right, wrong, or too long."""
    word, text = rng.choice(sorted(RIGHT)), AGAIN[turn % len(AGAIN)]
    words = [argument for argument in right_words(rng) if not argument.startswith(word)]
    first = right_word(rng, word)
    args = mixed(rng, [b"w.vtk"] * rng.choice((0, 1, 2)), words, [first])
    args.insert(rng.randint(args.index(first) + 1, len(args)), right_word(rng, word) if text is None else word + b"=" + text)
    return Case("a word said twice", rng.choice(MORE_MODES) + args, {b"w.vtk": good(rng)}, good(rng))


def one_file_wanted(rng):
    files = {b"w%d.vtk" % k: rng.choice((good, nothing))(rng) for k in range(3)}
    names = rng.sample([*files, b"missing.vtk", b"label", b"vtk", b"picture"], rng.randint(2, 4))
    wrong = [rng.choice(WRONG)] if rng.random() < 0.3 else []
    return Case("picture and vtk of several", [rng.choice((b"picture", b"vtk"))] + mixed(rng, names, right_words(rng), wrong), files)


def for_help(rng):
    rest = mixed(rng, rng.choice(([], [b"w.vtk"], [b"missing.vtk", b"w.vtk"])), right_words(rng), rng.choice(([], [rng.choice(WRONG)], [b"help"], [b"density=1", b"density=2"])))
    return Case("help", [b"help"] + rest, {b"w.vtk": good(rng)}, spare_input(rng))


NAMES_TYPED = (
    b"label", b"all", b"picture", b"vtk", b"help", b"standard input", b"refused: x", b"two words.vtk", b"a\nb", b"tab\there", b"\x01\x1f\x7f\x80\xff", b"\xc3\xa9t\xc3\xa9.vtk", b" ", b"~",
    b"a-h", b"n" * 255,
    b"folder/w.vtk", b"folder/../folder/w.vtk", b"./w.vtk", b".//w.vtk", b"Label", b"label ", b"&<>\"'.vtk", b"%s%d", b"*", b"\x1b[31m", b"\x1f\x20\x7e\x7f", b",", b"3.0",
)


def odd_name(rng, turn):
    """Names with odd bytes, in odd places, the five words behind the first argument."""
    name = NAMES_TYPED[turn % len(NAMES_TYPED)]
    first = rng.choice(MORE_MODES[1:] if name in wall.MODES else MORE_MODES)
    data = rng.choice((good, rng.choice(DAMAGED)))(rng)
    there = {} if rng.random() < 0.15 else {os.path.normpath(name): data}
    return Case("an odd name", first + mixed(rng, [name], right_words(rng)), there, good(rng))


def not_to_be_opened(rng):
    files = {b"w.vtk": good(rng), b"folder/w.vtk": good(rng), b"empty": b""}
    odd = {b"w.vtk/": None, b"w.vtk/w.vtk": None, b"missing/w.vtk": None, b"missing\n.vtk": None, b"n" * 256: None, b"n" * 4095: None, b"/dev/null": b""}
    odd.update({folder: wall.UNREADABLE for folder in (b"folder/", b"/", b"..")})
    names = rng.sample(sorted([*odd, b"folder", b".", b"empty", b"w.vtk"]), rng.randint(1, 3))
    mode = rng.choice(MORE_MODES if len(names) == 1 else MORE_MODES[:3])
    return Case("missing, folders and the like", mode + mixed(rng, names, right_words(rng)), files, good(rng), odd)


LONGEST_NAMES = (b"./" * 2045 + b"w.vtk", b"./" * 2046 + b"w.vt")  # 4,095 bytes, and 4,096


def longest_name(rng):
    """A file that is there, and is named at length."""
    files = {b"w.vtk": good(rng), b"w.vt": good(rng)}
    return Case("the longest name", rng.choice(MORE_MODES) + mixed(rng, [rng.choice(LONGEST_NAMES)], right_words(rng)), files)


def too_long_a_file(rng, turn):
    data = too_long(rng, turn)
    mode = rng.choice(MORE_MODES)
    return Case("a long file", mode, {}, data) if rng.random() < 0.3 else Case("a long file", mode + [b"w.vtk"], {b"w.vtk": data})


def at_the_limits(rng):
    """65,536 points and 131,072 triangles, the longest file there is, or one point or triangle less."""
    points, triangles = walls.grid(256, 256, rng.choice((4.0, 0.1, 3906.0)), rng.choice((2.0, 1 / 3)))
    triangles += triangles[:131072 - len(triangles)]
    triangles = triangles[:rng.choice((131072, 131072, 131071))]
    data = walls.file(b"t" * 255, points, triangles)
    return Case("at the limits", rng.choice(MORE_MODES) + [b"w.vtk", b"row=" + rng.choice(wall.SIDES)], {b"w.vtk": data})


# How many of a hundred
SHARES = [
    (one_good, 14), (at_the_bound, 2), (at_a_tie, 3), (smallest_areas, 2), (large_sums, 2), (far_picture, 1), (from_input, 5), (odd_input, 1), (one_damaged, 34), (several, 5), (EACH, 2),
    (wrong_argument, 13), (said_twice, 3), (one_file_wanted, 2), (for_help, 2), (odd_name, 4), (not_to_be_opened, 3), (longest_name, 1), (too_long_a_file, 1),
]


def cases(rng, count):
    """The kinds come in a drawn order, those that have a list of their own go through it in turn; two of a thousand are at the limits."""
    turns = {}
    makers = [maker for maker, share in SHARES for _ in range(share)]
    for k in range(count):
        if k % len(makers) == 0:
            rng.shuffle(makers)
        maker = at_the_limits if k % 500 == 250 else makers[k % len(makers)]
        name = "each" if maker is EACH else maker.__name__
        turn = turns[name] = turns.get(name, -1) + 1
        if maker is EACH:
            yield EACH[turn % len(EACH)](rng)
        elif maker in (one_damaged, wrong_argument, said_twice, odd_name, at_the_bound, at_a_tie, too_long_a_file):
            yield maker(rng, turn)
        else:
            yield maker(rng)
