#!/usr/bin/python3
"""
What the program `wall` must print, byte for byte: docs/WALL.md (the page) written down once more in Python, with the mesh files of docs/01-scope.md 5.9 and 2.6 and the masses of 5.3 (the scope).
Python's floats are the scope's doubles, one operation each; its whole numbers and Fractions are exact. Names and order are the page's.

    wall.py [label|all|picture|vtk|help] [FILE ..] [word=value ..]

prints it for files that are there.
"""
import math
import os
import struct
import sys
from fractions import Fraction

MODES = (b"label", b"all", b"picture", b"vtk", b"help")
SIDES = (b"left", b"right", b"top", b"bottom")
MOST_POINTS = 65536
MOST_TRIANGLES = 131072
MOST_BYTES = 4194681
HELP = b"""\
wall [label|all|picture|vtk|help] [FILE ..] [word=value ..]
Sizes the walls of mesh files, or the wall on standard input: binary VTK, version 3.0, triangles, millimetres.
  label     what it weighs and what its hinge row carries; this where none of the five is said
  all       a line for every point, for a spreadsheet
  picture   an SVG picture, of one file
  vtk       the file with its masses, of one file
  density=1400         kg/m3
  thickness=1.953125   mm
  young=2147.483648    MPa, for what uses it later
  poisson=0.25         for what uses it later
  row=bottom           the hinge row: left, right, top or bottom
An answer that begins with 'refused: ' is a refusal.
"""
UNREADABLE = object()  # in place of the bytes of a file that can be opened and not read, such as a folder


class Refused(Exception):
    """One line of the page, without `refused: ` in front and, for a file, without its name."""

    def __init__(self, line):
        super().__init__(line)
        self.line = line


# Arguments

STOCK = {b"density": 1400.0, b"thickness": 2.0**-9, b"young": 2.0**31, b"poisson": 0.25, b"row": b"bottom"}  # kg/m3, m, Pa, 1
SHIFT = {b"density": Fraction(1), b"thickness": Fraction(1, 1000), b"young": Fraction(10**6), b"poisson": Fraction(1)}  # from the typed unit: mm to m, MPa to Pa
POINT = ord(".")


def wrong_argument(a, character, says):
    return Refused(b"argument %d is wrong at character %d: %s" % (a, character, says))


def first_wrong(text):
    """Where a plain decimal is wrong first, counted from 0: its length where it ends too early, None where it is right."""
    digits = points = 0
    for place, byte in enumerate(text):
        if b"0"[0] <= byte <= b"9"[0] and digits < 15:
            digits += 1
        elif byte == POINT and points == 0 and digits > 0:
            points = 1
        else:
            return place
    return len(text) if digits == 0 or text[-1] == POINT else None


def plain_decimal(text):
    """The Fraction that it says."""
    whole, _, rest = text.partition(b".")
    return Fraction(int(whole + rest), 10 ** len(rest))


def nearest_double(fraction):
    """Python divides whole numbers with one rounding, to nearest and ties to even."""
    return fraction.numerator / fraction.denominator


def value(a, word, text):
    """What `word=text`, argument a, sets."""
    first = len(word) + 2
    if word == b"row":
        if text not in SIDES:
            raise wrong_argument(a, first, b"left, right, top or bottom is wanted")
        return text
    place = first_wrong(text)
    if place is not None:
        raise wrong_argument(a, first + place, b"a decimal of at most 15 digits is wanted, as 1400 or 2.5")
    said = plain_decimal(text)
    if word == b"poisson":
        if not said < Fraction(1, 2):
            raise wrong_argument(a, first, b"a number below 0.5 is wanted")
    elif not said > 0:
        raise wrong_argument(a, first, b"a number above 0 is wanted")
    return nearest_double(said * SHIFT[word])


def look_at(args):
    """The mode, the files' names and what is set; of `help` no more than the mode. Of each argument first its length, then its word, whether that was said before, its value."""
    mode, names, said = b"label", [], {}
    for a, argument in enumerate(args, 1):
        if not 1 <= len(argument) <= 4095:
            raise Refused(b"argument %d is empty or longer than 4095 bytes" % a)
        word, equals, text = argument.partition(b"=")
        if a == 1 and argument in MODES:
            mode = argument
            if mode == b"help":
                break
        elif argument.startswith(b"-") or equals and word not in STOCK:
            raise wrong_argument(a, 1, b"no such word, see wall help")
        elif equals:
            if word in said:
                raise wrong_argument(a, 1, b"this word was said before")
            said[word] = value(a, word, text)
        else:
            names.append(argument)
    if mode in (b"picture", b"vtk") and len(names) > 1:
        raise Refused(mode + b" takes one file")
    return mode, names, {**STOCK, **said}


# A mesh file: 5.9 and 2.6 of the scope


class Misread(Refused):
    """The scope's number 8 with its place."""

    def __init__(self, place, line):
        super().__init__(line)
        self.place = place


class RanOut(Exception):
    """The file ends, and what is there begins something right."""


class IsWrong(Exception):
    """Nothing right begins so."""


class Reader:
    def __init__(self, data):
        self.data = data
        self.at = 0

    def ends_early(self, where):
        return Misread(len(self.data), b"ends early, after %d bytes, %s" % (len(self.data), where))

    def is_wrong(self, place, where, what):
        return Misread(place, b"is wrong at byte %d, %s%s" % (place, where, what))

    def text(self, wanted):
        there = self.data[self.at:self.at + len(wanted)]
        if there != wanted:
            raise RanOut if wanted.startswith(there) else IsWrong
        self.at += len(wanted)

    def count(self, most):
        """In decimal, and it begins with 0 only where it is 0. Digits begin a right count where they are one."""
        digits = b""
        while True:
            byte = self.data[self.at:self.at + 1]
            if byte == b"":
                raise RanOut
            if byte not in b"0123456789":
                break
            digits += byte
            if digits.startswith(b"0") and digits != b"0" or int(digits) > most:
                raise IsWrong
            self.at += 1
        if digits == b"":
            raise IsWrong
        return int(digits)

    def title(self):
        end = self.data.find(b"\n", self.at, self.at + 256)
        if end < 0:
            raise RanOut if len(self.data) - self.at < 256 else IsWrong
        self.at = end + 1

    def points_line(self):
        self.text(b"POINTS ")
        n = self.count(MOST_POINTS)
        self.text(b" double\n")
        return n

    def cells_line(self):
        self.text(b"CELLS ")
        m = self.count(MOST_TRIANGLES)
        self.text(b" %d\n" % (4 * m))
        return m

    def line(self, where, wanted, read, *words):
        """A line, or the newline that closes a block. What is wrong in it is named by where it begins."""
        start = self.at
        try:
            return read(*words)
        except RanOut:
            raise self.ends_early(where) from None
        except IsWrong:
            raise self.is_wrong(start, where, b": " + wanted) from None

    def head_line(self, wanted, read, *words):
        """One of the first five lines. L is 1 and how many newlines stand before the place: no line here goes on past its newline."""
        where = b"in line %d" % (1 + self.data.count(b"\n", 0, self.at))
        return self.line(where, wanted + b" is wanted", read, *words)

    def number(self, where):
        """32 bits, the highest byte first."""
        there = self.data[self.at:self.at + 4]
        if len(there) < 4:
            raise self.ends_early(where)
        self.at += 4
        return int.from_bytes(there, "big")

    def points(self, n):
        block = self.data[self.at:self.at + 24 * n]
        if len(block) < 24 * n:
            raise self.ends_early(b"in point %d" % (len(block) // 24))
        self.at += 24 * n
        return list(struct.iter_unpack(">3d", block))

    def triangle(self, t, n):
        where = b"in triangle %d" % t
        if self.number(where) != 3:
            raise self.is_wrong(self.at - 4, where, b", which is not said to have 3 corners")
        corners = []
        for _ in range(3):
            name = self.number(where)
            if name >= n:
                raise self.is_wrong(self.at - 4, where, b", which names point %d of %d" % (name, n))
            corners.append(name)
        return tuple(corners)

    def type(self, t):
        where = b"in the type of triangle %d" % t
        if self.number(where) != 5:
            raise self.is_wrong(self.at - 4, where, b", which is not 5")

    def end(self):
        if self.at != len(self.data):
            raise IsWrong


def read(data):
    """The points, three doubles each, and the triangles, three names each."""
    r = Reader(data)
    r.head_line(b"'# vtk DataFile Version 3.0'", r.text, b"# vtk DataFile Version 3.0\n")
    r.head_line(b"a title of at most 255 bytes", r.title)
    r.head_line(b"'BINARY'", r.text, b"BINARY\n")
    r.head_line(b"'DATASET UNSTRUCTURED_GRID'", r.text, b"DATASET UNSTRUCTURED_GRID\n")
    n = r.head_line(b"'POINTS n double', n at most 65536,", r.points_line)
    points = r.points(n)
    after_points = b"in the line after the points", b"'CELLS m 4m', m at most 131072, is wanted"
    r.line(*after_points, r.text, b"\n")
    m = r.line(*after_points, r.cells_line)
    triangles = [r.triangle(t, n) for t in range(m)]
    after_triangles = b"in the line after the triangles", b"'CELL_TYPES m' is wanted"
    r.line(*after_triangles, r.text, b"\n")
    r.line(*after_triangles, r.text, b"CELL_TYPES %d\n" % m)
    for t in range(m):
        r.type(t)
    after_types = b"after the types", b"a newline and the end are wanted"
    r.line(*after_types, r.text, b"\n")
    r.line(*after_types, r.end)
    return points, triangles


# Masses: 5.3 of the scope, with the plane area of 3.2


def plane_area(p0, p1, p2):
    return ((p1[0] - p0[0]) * (p2[1] - p0[1]) - (p2[0] - p0[0]) * (p1[1] - p0[1])) * 0.5


def masses(triangles, points, density, thickness):
    """Three for each point: the translation and two rotations."""
    mass = [[0.0, 0.0, 0.0] for _ in points]
    for triangle in triangles:
        area = plane_area(*(points[name] for name in triangle))
        m0 = area / 3.0 * density * thickness
        m1 = area / 3.0 * density * thickness * thickness * thickness / 12.0
        for name in triangle:
            mass[name][0] += m0
            mass[name][1] += m1
            mass[name][2] += m1
    return mass


def added(numbers):
    total = 0.0
    for number in numbers:
        total += number
    return total


# Numbers shown


def shown(number, decimals, power=0):
    """A double times 10^power, the nearest of so many decimals. A power takes it to the unit that is shown, without another rounding."""
    units = round(Fraction(number) * Fraction(10) ** (decimals + power))  # Python rounds a Fraction's tie to the even one
    if abs(units) >= 10**18:
        return b"too large"
    digits = b"%0*d" % (decimals + 1, abs(units))
    return (b"-" if units < 0 else b"") + digits[:-decimals] + b"." + digits[-decimals:]


def mm(number):
    return shown(number, 3)


def kg(mg):
    return shown(mg, 6, -6)


def g(mg):
    return shown(mg, 6, -3)


def m2(mm2):
    return shown(mm2, 6, -6)


# A wall: what is refused of a file that reads well, and what the answers are made of

NAMED = (b"x", b"y", b"z")


class Wall:
    def __init__(self, points, triangles, said):
        self.points, self.triangles, self.said = points, triangles, said
        self.refuse()
        self.x0, self.x1 = min(p[0] for p in points), max(p[0] for p in points)
        self.y0, self.y1 = min(p[1] for p in points), max(p[1] for p in points)
        self.width = self.x1 - self.x0
        self.height = self.y1 - self.y0
        self.area = added(map(self.area_of, triangles))
        self.mass = masses(triangles, points, said[b"density"], said[b"thickness"])
        self.total = added(mass[0] for mass in self.mass)
        self.idle = sum(mass[0] == 0 for mass in self.mass)  # a zero of either sign

    def area_of(self, triangle):
        return plane_area(*(self.points[name] for name in triangle))

    def refuse(self):
        if not self.points:
            raise Refused(b"has no points")
        if not self.triangles:
            raise Refused(b"has no triangles")
        for i, point in enumerate(self.points):
            for name, number in zip(NAMED, point):
                if not -1e9 < number < 1e9:
                    raise Refused(b"the %s of point %d is not between -1000000000 and 1000000000" % (name, i))
        z0 = self.points[0][2]
        for i, (_, _, z) in enumerate(self.points):
            if z != z0:
                raise Refused(b"is not flat: point %d lies at z %s mm, point 0 at z %s mm" % (i, shown(z, 6), shown(z0, 6)))
        for t, triangle in enumerate(self.triangles):
            if self.area_of(triangle) < 0:
                raise Refused(b"triangle %d turns right: its corners, the points %d, %d and %d, run clockwise" % (t, *triangle))

    def row(self):
        axis, end = {b"left": (0, self.x0), b"right": (0, self.x1), b"top": (1, self.y1), b"bottom": (1, self.y0)}[self.said[b"row"]]
        return [i for i, point in enumerate(self.points) if point[axis] == end]

    def is_bounded(self):
        whole = all(number.is_integer() and abs(number) <= 1048576 for point in self.points for number in point[:2])
        return whole and all(2.0**-40 <= self.said[word] <= 2.0**40 for word in (b"density", b"thickness"))


# Good answers

BOUND = b"each mass is within (d + 3)/2^53 of the exact one, d being how many triangles meet there"
NO_BOUND = b"none: it is for whole coordinates up to 1048576, density and thickness from 2^-40 to 2^40"


def label(name, wall, data):
    said, row = wall.said, wall.row()
    lines = [
        (b"file", name),
        (b"version", b"3.0"),
        (b"points", b"%d" % len(wall.points)),
        (b"triangles", b"%d" % len(wall.triangles)),
        (b"width", mm(wall.width) + b" mm"),
        (b"height", mm(wall.height) + b" mm"),
        (b"area", m2(wall.area) + b" m2"),
        (b"density", shown(said[b"density"], 3) + b" kg/m3"),
        (b"thickness", shown(said[b"thickness"], 6, 3) + b" mm"),
        (b"young", shown(said[b"young"], 6, -6) + b" MPa"),
        (b"poisson", shown(said[b"poisson"], 6)),
        (b"mass", kg(wall.total) + b" kg"),
        (b"idle", b"%d points" % wall.idle),
        (b"bound", BOUND if wall.is_bounded() else NO_BOUND),
        (b"row", said[b"row"]),
    ]
    text = [b"%-12s%s\n" % line for line in lines]
    text.append(b"%8s %15s %15s %15s\n" % (b"point", b"x mm", b"y mm", b"mass kg"))
    for i in row:
        x, y, _ = wall.points[i]
        text.append(b"%8d %15s %15s %15s\n" % (i, mm(x), mm(y), kg(wall.mass[i][0])))
    text.append(b"%-41s%15s\n" % (b"together", kg(added(wall.mass[i][0] for i in row))))
    return b"".join(text)


def all_points(name, wall, data):
    text = [b"file\t%s\n" % name, b"point\tx mm\ty mm\tmass g\n"]
    for i, (x, y, _) in enumerate(wall.points):
        text.append(b"%d\t%s\t%s\t%s\n" % (i, mm(x), mm(y), g(wall.mass[i][0])))
    return b"".join(text)


def picture(name, wall, data):
    w, h, x0, y1, total = wall.width, wall.height, wall.x0, wall.y1, wall.total
    e = (w + h) / 16
    place = [(mm(x - x0), mm(y1 - y)) for x, y, _ in wall.points]
    text = [
        b'<svg xmlns="http://www.w3.org/2000/svg" viewBox="%s %s %s %s" font-family="sans-serif" font-size="%s" text-anchor="middle">\n'
        % (mm(-e), mm(-e), mm(w + 2 * e), mm(h + 2 * e), mm(e / 4)),
        b'<path fill="none" stroke="black" stroke-width="%s" stroke-linejoin="round" d="\n' % mm(e / 64),
    ]
    for a, b, c in wall.triangles:
        text.append(b"M%s %sL%s %sL%s %sZ\n" % (*place[a], *place[b], *place[c]))
    text += [b'"/>\n', b'<g fill="red">\n']
    for i in wall.row():
        r = math.sqrt(wall.mass[i][0] / total) * (e / 2) if total > 0 else 0.0
        text.append(b'<circle cx="%s" cy="%s" r="%s"/>\n' % (*place[i], mm(r)))
    text += [
        b"</g>\n",
        b'<text x="%s" y="%s">%s mm</text>\n' % (mm(w / 2), mm(h + e * 0.75), mm(w)),
        b'<text transform="translate(%s %s) rotate(-90)">%s mm</text>\n' % (mm(-(e / 2)), mm(h / 2), mm(h)),
        b'<text x="%s" y="%s" text-anchor="end">%s kg</text>\n' % (mm(w + e * 0.75), mm(-(e / 2)), kg(total)),
        b"</svg>\n",
    ]
    return b"".join(text)


def vtk(name, wall, data):
    n = len(wall.points)
    text = [data, b"POINT_DATA %d\nFIELD masses 3\n" % n]
    for place, title in enumerate((b"mass_mg", b"rotation_x_mg_m2", b"rotation_y_mg_m2")):
        text.append(b"%s 1 %d double\n" % (title, n))
        text += [struct.pack(">d", mass[place]) for mass in wall.mass]
        text.append(b"\n")
    return b"".join(text)


PRINTED = {b"label": label, b"all": all_points, b"picture": picture, b"vtk": vtk}


# A file's answer, and all of them


def shown_name(name):
    return bytes(ord("?") if byte < 32 or byte == 127 else byte for byte in name)


def answer_of_file(mode, said, name, data):
    """data: the file's bytes, UNREADABLE, or None where it cannot be opened."""
    name = shown_name(name)
    try:
        if data is None:
            raise Refused(b"cannot be opened")
        if data is UNREADABLE:
            raise Refused(b"cannot be read")
        if data == b"":
            raise Refused(b"is empty")
        if len(data) > MOST_BYTES:
            raise Refused(b"has more than 4194681 bytes, the most that 65536 points and 131072 triangles take")
        return PRINTED[mode](name, Wall(*read(data), said), data)
    except Refused as refused:
        return b"refused: %s: %s\n" % (name, refused.line)


def answers(args, files, stdin):
    """One for each file. files: by name what answer_of_file takes, or a function that gives it; stdin likewise."""
    try:
        mode, names, said = look_at(args)
    except Refused as refused:
        return [b"refused: %s\n" % refused.line]
    if mode == b"help":
        return [HELP]
    if not names:
        return [answer_of_file(mode, said, b"standard input", stdin() if callable(stdin) else stdin)]
    find = files if callable(files) else files.get
    return [answer_of_file(mode, said, name, find(name)) for name in names]


def answer(args, files, stdin):
    """All that stands on standard output: an empty line between two answers, refusals too."""
    return b"\n".join(answers(args, files, stdin))


# As a program


def load(name):
    try:
        with open(name, "rb", buffering=0) as file:
            return load_open(file)
    except IsADirectoryError:
        return UNREADABLE
    except OSError as error:
        print(f"{os.fsdecode(name)!r}: {error.strerror}", file=sys.stderr)
        return None


def load_open(file):
    data = b""
    try:
        while len(data) <= MOST_BYTES:
            more = file.read(1 << 20)
            if not more:
                break
            data += more
    except OSError:
        return UNREADABLE
    return data


def load_stdin():
    try:
        with open(0, "rb", buffering=0, closefd=False) as file:
            return load_open(file)
    except OSError:
        return UNREADABLE


if __name__ == "__main__":
    sys.stdout.buffer.write(answer([os.fsencode(argument) for argument in sys.argv[1:]], load, load_stdin))
