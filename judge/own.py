"""run --self: the judge's own parts against known answers, and wrong judges that the drawn cases have to tell from the right one."""
import decimal
import itertools
import math
import os
import random
import re
import struct
import sys
import types

import draw
import wall
import walls

ROOT = os.path.dirname(os.path.dirname(os.path.abspath(__file__)))
sys.path.append(os.path.join(ROOT, "meshes"))
import reader  # a reader of mesh files that shares nothing with wall.py's

counts = {True: 0, False: 0}


def check(what, ok):
    counts[bool(ok)] += 1
    if not ok:
        print("FAIL ", what)


def load(*path):
    with open(os.path.join(ROOT, *path), "rb") as file:
        return file.read()


# Numbers


def some_doubles(rng):
    yield from (0.0, -0.0, 0.5, 1.5, 2.5, 0.0005, -0.0005, 0.0015, 0.0625, -0.0625, 0.1875, 41015.625, 0.5e-6, 5e-324, -5e-324, 999999999.9995, 1e9, 2.0**-9, 2.0**31)
    for _ in range(3000):
        small, any_size = rng.uniform(-10, 10), rng.uniform(-1, 1) * 10 ** rng.randint(-20, 8)
        yield rng.choice((small, any_size, rng.randint(-10**7, 10**7) / 16, (rng.randint(-10**6, 10**6) + 0.5) / 1000, float(rng.randint(-10**9, 10**9))))


def without_zero_sign(text):
    return text[1:] if text.startswith("-") and not re.search("[1-9]", text) else text


def numbers(rng):
    exact = decimal.Context(prec=2000, rounding=decimal.ROUND_HALF_EVEN)
    for x in some_doubles(rng):
        for decimals in (3, 6):
            check(f"{x!r} with {decimals} decimals", wall.shown(x, decimals).decode() == without_zero_sign("%.*f" % (decimals, x)))
        for power in (-6, -3, 3):
            if abs(x) * 10.0**power >= 1e11:
                continue
            said = decimal.Decimal(x).scaleb(power, exact).quantize(decimal.Decimal("0.000001"), context=exact)
            check(f"{x!r} times 10^{power}", wall.shown(x, 6, power).decode() == without_zero_sign(f"{said:f}"))
    largest = math.nextafter(1e15, 0)
    check("too large", (wall.mm(1e15), wall.mm(-1e15), wall.mm(largest)) == (b"too large", b"too large", b"999999999999999.875"))
    check("too large in kg", (wall.kg(1e18), wall.kg(math.nextafter(1e18, 0))) == (b"too large", b"999999999999.999872"))
    for _ in range(3000):
        text = draw.decimal(rng)
        check(text, wall.first_wrong(text) is None)
        for word, power in ((b"density", ""), (b"thickness", "e-3"), (b"young", "e6")):
            if wall.plain_decimal(text) > 0:
                check(text, wall.value(1, word, text) == float(text.decode() + power))
    for text, place in ((b"", 0), (b".", 0), (b".5", 0), (b"1.", 2), (b"2,5", 1), (b"1..5", 2), (b"1.5.", 3), (b"-1", 0), (b"1e3", 1)):
        check(f"{text} is wrong at {place}", wall.first_wrong(text) == place)
    for text, place in ((b"1" * 15, None), (b"1" * 16, 15), (b"1." + b"5" * 14, None), (b"1." + b"5" * 15, 16)):
        check(f"{text} is wrong at {place}", wall.first_wrong(text) == place)
    check("thickness=2", wall.value(1, b"thickness", b"2") == 0.002)
    for text, said in ((b"0.9765625", b"0.976562"), (b"2.9296875", b"2.929688"), (b"4.8828125", b"4.882812"), (b"6.8359375", b"6.835938")):
        check(f"a tie: thickness={text}", wall.shown(wall.value(1, b"thickness", text), 6, 3) == said)
    for word, text in ((b"density", b"1400"), (b"thickness", b"1.953125"), (b"young", b"2147.483648"), (b"poisson", b"0.25")):
        check(f"the stock sheet's {word}", wall.value(1, word, text) == wall.STOCK[word])


# Masses: the examples of the scope, section 7

SQUARE = [(0.0, 0.0), (6.0, 0.0), (0.0, 6.0), (6.0, 6.0)]


def masses():
    check("example 1", wall.masses([(0, 1, 2)], SQUARE, 2.0, 1.0) == [[12.0, 1.0, 1.0]] * 3 + [[0.0] * 3])
    check("example 3", [mass[0] for mass in wall.masses([(0, 1, 2), (1, 3, 2)], SQUARE, 2.0, 1.0)] == [12.0, 24.0, 24.0, 12.0])
    check("example 4", wall.masses([], SQUARE, 2.0, 1.0) == [[0.0] * 3] * 4)
    check("example 5", math.sqrt(4.0) == 2.0 and struct.pack(">d", math.sqrt(2.0)).hex() == "3ff6a09e667f3bcd")
    check("example 17", (wall.plane_area((0, 0), (1, 0), (0, 1)), wall.plane_area((0, 0), (0, 1), (1, 0))) == (0.5, -0.5))
    thin = wall.plane_area((0.0, 0.0), (0.0, 1.0), (5e-324, 0.0))
    check("example 18", thin == 0 and math.copysign(1, thin) == -1)
    largest = sys.float_info.max
    check("example 19", wall.plane_area((0.0, 0.0), (0.0, largest), (largest, 0.0)) == -math.inf)
    solid = [(*point, 0.0) for point in SQUARE]
    turned = wall.answer([], {}, walls.file(b"", solid, [(0, 1, 2), (0, 2, 1)]))
    check("example 2", turned == b"refused: standard input: triangle 1 turns right: its corners, the points 0, 2 and 1, run clockwise\n")
    small = lambda x: wall.Wall([(0.0, 0.0, 0.0), (x, 0.0, 0.0), (0.0, 2.0, 0.0), (9.0, 9.0, 0.0)], [(0, 1, 2)], wall.STOCK)
    check("an area of 2^-1074 has no mass", (small(5e-324).area, small(5e-324).idle) == (5e-324, 4))
    check("one of 2^-1073 has", ([mass[0] for mass in small(1e-323).mass], small(1e-323).idle) == ([15e-324] * 3 + [0.0], 1))


# Mesh files: against meshes/reader.py


def place_of(data):
    try:
        points, triangles = wall.read(data)
        return 0, len(points), len(triangles)
    except wall.Misread as wrong:
        return 8, wrong.place


def meshes(rng):
    for name in sorted(os.listdir(os.path.join(ROOT, "meshes", "files"))):
        data = load("meshes", "files", name)
        check(name, place_of(data) == reader.answer(data))
    for _ in range(3):
        whole = draw.small_parts(rng)
        for kind in (draw.cuts, draw.bytes_changed, draw.bytes_lost, draw.bytes_added, draw.lines_changed):
            for data in kind(rng, whole, b"".join(whole)):
                check(f"{kind.__doc__}: {data}", place_of(data) == reader.answer(data))
    for make in draw.DAMAGED * 10:
        data = make(rng)
        check(f"{data}", place_of(data) == reader.answer(data))
    longest = walls.parts(b"t" * 255, [(0, 0, 0)] * wall.MOST_POINTS, [(0, 0, 0)] * wall.MOST_TRIANGLES)
    check("the longest file", sum(map(len, longest)) == wall.MOST_BYTES)


# The page: its examples, its picture filled in by its own formulas, and that each text that is printed stands in it


def block(page, heading):
    """The lines that stand indented below a heading."""
    lines = page.split(f"\n### {heading}\n")[1].splitlines()
    first = next(k for k, line in enumerate(lines) if line.startswith("    "))
    return [line[4:] for line in itertools.takewhile(lambda line: line.startswith("    "), lines[first:])]


def filled(line, names, points=({},)):
    """A line of the page's picture, each formula between brackets by its value. points: what x, y and mass are; of several each has two formulas."""
    pieces = re.split(r"\[([^]]*)\]", line)
    for k in range(1, len(pieces), 2):
        formula, _, other = pieces[k].partition(", ")
        assert other in ("", "0 where the total is not above 0")
        number = 0.0 if other and not names["total"] > 0 else eval(formula, {"sqrt": math.sqrt}, {**names, **points[k // 4 % len(points)]})
        pieces[k] = (wall.kg if formula == "total" else wall.mm)(number).decode()
    return "".join(pieces) + "\n"


def picture_by(lines, sized):
    x0, x1, y0, y1 = (end(p[k] for p in sized.points) for k in (0, 1) for end in (min, max))
    w, h = x1 - x0, y1 - y0
    names = dict(x0=x0, x1=x1, y0=y0, y1=y1, w=w, h=h, e=(w + h) / 16, total=sized.total)
    point = [dict(x=x, y=y, mass=mass[0]) for (x, y, _), mass in zip(sized.points, sized.mass)]
    said = {"M": [[point[i] for i in triangle] for triangle in sized.triangles], "<circle": [[point[i]] for i in sized.row()]}
    printed = []
    for line in lines:
        start = next((start for start in said if line.startswith(start)), None)
        if start:
            printed += [filled(line, names, points) for points in said[start]]
        elif line != "..":
            printed.append(filled(line, names))
    return "".join(printed).encode()


def numbers_by(lines, sized):
    """What the page's vtk adds to the file."""
    arrays = iter(zip(*sized.mass))
    said = lambda line: b"".join(struct.pack(">d", number) for number in next(arrays)) if line == "(8 bytes for each point, and a newline)" else line.encode()
    return b"".join(said(line) + b"\n" for line in lines)


def page(rng):
    page = load("docs", "WALL.md").decode()
    data = walls.file(b"", *walls.grid(9, 5, 300.0, 300.0))
    printed = wall.answer([b"N"], {b"N": data}, b"").decode().splitlines()
    wanted = block(page, "label")
    cut = wanted.index("..")
    check("the page's label", printed[:cut] == wanted[:cut] and printed[-1:] == wanted[cut + 1:])
    printed = wall.answer([b"all", b"N"], {b"N": data}, b"").decode().splitlines()
    check("the page's all", printed[:3] == [line.replace("<tab>", "\t") for line in block(page, "all")])
    check("the page's help", wall.answer([b"help"], {}, b"") == "".join(line + "\n" for line in block(page, "help")).encode())
    check("the page's vtk", wall.answer([b"vtk", b"N"], {b"N": data}, b"") == data + numbers_by(block(page, "vtk"), wall.Wall(*wall.read(data), wall.STOCK)))
    lines = block(page, "picture")
    for _ in range(200):
        points, triangles = draw.mesh(rng)
        said = {**wall.STOCK, b"row": rng.choice(wall.SIDES)}
        made = wall.picture(b"", wall.Wall(points, triangles, said), b"")
        check(f"the page's picture: {points} {triangles} {said}", made == picture_by(lines, wall.Wall(points, triangles, said)))
    check("no bound", f"`bound       {wall.NO_BOUND.decode()}`" in page)
    source = load("judge", "wall.py").decode()
    for text in re.findall(r'b"((?:a (?:decimal|number|title|newline)|no such|this word|left, right|\'|in |, which|after|cannot|has |is empty|ends early)[^"]*)"', source):
        pieces = [piece.strip() for piece in re.split(r"%[ds]", text)]
        check(f"on the page: {text}", all(piece in page for piece in pieces))


# Wrong judges: each edit of wall.py has to show in the drawn cases

LENGTH = '        if not 1 <= len(argument) <= 4095:\n            raise Refused(b"argument %d is empty or longer than 4095 bytes" % a)\n'
PARTS = '        word, equals, text = argument.partition(b"=")\n'
NOTHING_SAID = '    mode, names, said = b"label", [], {}\n'
EACH_NUMBER = "            for name, number in zip(NAMED, point):\n"
IDLE = "sum(mass[0] == 0 for mass in self.mass)"
WRONG = [
    ("area / 3.0 * density * thickness\n", "area * density / 3.0 * thickness\n"),
    ("thickness * thickness * thickness / 12.0", "(thickness * thickness * thickness) / 12.0"),
    ("* 0.5\n", "/ 2 * 1.0000000000000002\n"),
    ("if self.area_of(triangle) < 0:", "if self.area_of(triangle) <= 0:"),
    ("if self.area_of(triangle) < 0:", "if math.copysign(1, self.area_of(triangle)) < 0:"),
    ("if not -1e9 < number < 1e9:", "if not -1e9 <= number <= 1e9:"),
    ("if not -1e9 < number < 1e9:", "if number <= -1e9 or number >= 1e9:"),
    ("if z != z0:", "if abs(z - z0) > 1e-12:"),
    ("if z != z0:", "if struct.pack('d', z) != struct.pack('d', z0):"),
    ("if digits == 0 or text[-1] == POINT else None", "if digits == 0 else None"),
    ("and digits < 15:", "and digits < 16:"),
    ("and digits > 0:", "and True:"),
    ("if not said < Fraction(1, 2):", "if not said <= Fraction(1, 2):"),
    ("elif not said > 0:", "elif not said >= 0:"),
    ("nearest_double(said * SHIFT[word])", "nearest_double(said) * float(SHIFT[word])"),
    ("if not 1 <= len(argument) <= 4095:", "if not 1 <= len(argument) <= 4096:"),
    ("if not 1 <= len(argument) <= 4095:", "if not 1 <= len(argument) <= 4094:"),
    ("if a == 1 and argument in MODES:", "if argument in MODES:"),
    ("            if word in said:", "            if False:"),
    ("byte < 32 or byte == 127", "byte < 32"),
    ("byte < 32 or byte == 127", "byte < 32 or byte >= 127"),
    ("if len(data) > MOST_BYTES:", "if len(data) >= MOST_BYTES:"),
    ("if len(data) > MOST_BYTES:", "if len(data) > MOST_BYTES + 1:"),
    ("< 256 else IsWrong", "<= 256 else IsWrong"),
    ("self.at, self.at + 256)", "self.at, self.at + 257)"),
    ("raise RanOut if wanted.startswith(there) else IsWrong", "raise RanOut if len(there) < len(wanted) else IsWrong"),
    ("raise RanOut if wanted.startswith(there) else IsWrong", "raise IsWrong"),
    ("or int(digits) > most:", "or int(digits) > most + 1:"),
    ('digits.startswith(b"0") and digits != b"0" or ', ""),
    ("if name >= n:", "if name > n:"),
    ("len(block) // 24)", "(len(block) - 1) // 24)"),
    ("units = round(Fraction(number) * Fraction(10) ** (decimals + power))", "units = math.floor(Fraction(number) * Fraction(10) ** (decimals + power) + Fraction(1, 2))"),
    ("units = round(Fraction(number) * Fraction(10) ** (decimals + power))", "units = round(number * 10.0 ** (decimals + power))"),
    ('b"-" if units < 0', 'b"-" if math.copysign(1, number) < 0'),
    (">= 10**18", "> 10**19"),
    ("return [i for i, point in enumerate(self.points) if", "return [i for i, point in enumerate(self.points) if any(i in t for t in self.triangles) and"),
    ("<= 1048576 for", "< 1048576 for"),
    ("<= 1048576 for", "<= 1048577 for"),
    ("2.0**-40 <= self.said[word] <= 2.0**40", "self.said[word] <= 2.0**40"),
    ("2.0**-40 <= self.said[word] <= 2.0**40", "2.0**-40 <= self.said[word] < 2.0**40"),
    ("if total > 0 else 0.0", "if total > 0 else e / 2"),
    ("math.sqrt(wall.mass[i][0] / total) * (e / 2)", "wall.mass[i][0] / total * (e / 2)"),
    ("mm(x - x0)", "mm(x)"),
    ("mm(x - x0)", "mm(Fraction(x) - Fraction(x0))"),
    ("mm(y1 - y)", "mm(y - wall.y0)"),
    ("mm(y1 - y)", "mm(-y)"),
    ("mm(y1 - y)", "mm(Fraction(y1) - Fraction(y))"),
    ("e = (w + h) / 16", "e = max(w, h) / 8"),
    ("mm(w + e * 0.75)", "mm(w)"),
    ("mm(w / 2), mm(h + e * 0.75)", "mm(wall.x0 + w / 2), mm(h + e * 0.75)"),
    ('b"\\n".join(answers', 'b"".join(answers'),
    ('b"\\n".join(answers(args, files, stdin))', 'b"\\n".join(answers(args, files, stdin)).replace(b"\\n\\nrefused: ", b"\\nrefused: ")'),
    ('b"\\n".join(answers(args, files, stdin))', '__import__("re").sub(rb"(refused: .*\\n)\\n(?=refused: )", rb"\\1", b"\\n".join(answers(args, files, stdin)))'),
    ("if mode in (b\"picture\", b\"vtk\") and len(names) > 1:", "if mode == b\"vtk\" and len(names) > 1:"),
    ('(b"left", b"right", b"top", b"bottom")', '(b"left", b"right", b"bottom", b"top ")'),
    ("b\"right\": (0, self.x1)", "b\"right\": (0, self.x0)"),
    ("b\"top\": (1, self.y1)", "b\"top\": (1, self.y0)"),
    ("if not self.points:", "if not self.points and self.triangles:"),
    ("zip(NAMED, point)", "zip(NAMED[:2], point)"),
    ("if not -1e9 < number < 1e9:", "if not -1e9 < number < 1e9 and any(i in t for t in self.triangles):"),
    ("for point in self.points for number in point[:2])", "for i, point in enumerate(self.points) for number in point[:2] if any(i in t for t in self.triangles))"),
    ("max(p[0] for p in points)", "max(points[i][0] for t in triangles for i in t)"),
    ("    for number in numbers:\n        total += number\n", "    total = math.fsum(numbers)\n"),
    ("    for number in numbers:\n", "    for number in reversed(list(numbers)):\n"),
    ("if word in said:", "if word in said and value(a, word, text):"),
    ("            if mode == b\"help\":\n                break\n", ""),
    ("return len(text) if", "return len(text) - 1 if"),
    # Order of tests
    (LENGTH + PARTS, PARTS + "        if argument.startswith(b'-') or equals and word not in STOCK:\n            raise wrong_argument(a, 1, b'no such word, see wall help')\n" + LENGTH),
    (LENGTH + PARTS, PARTS + "        if equals and word in said:\n            raise wrong_argument(a, 1, b'this word was said before')\n" + LENGTH),
    (LENGTH + PARTS, PARTS + "        if equals and word in STOCK and word not in said:\n            value(a, word, text)\n" + LENGTH),
    (NOTHING_SAID, NOTHING_SAID + "    for a, argument in enumerate(args, 1):\n" + LENGTH),
    ('argument.partition(b"=")', '(argument.rpartition(b"=") if b"=" in argument else (argument, b"", b""))'),
    ("            names.append(argument)\n", "            names.append(argument)\n            if mode == b'vtk' and len(names) > 1:\n                raise Refused(mode + b' takes one file')\n"),
    ("        z0 = self.points[0][2]\n", "        z0 = self.points[0][2]\n        if any(self.area_of(triangle) < 0 for triangle in self.triangles):\n            raise Refused(b'turns right')\n"),
    (EACH_NUMBER, "            if -1e9 < point[2] < 1e9 and point[2] != self.points[0][2]:\n                raise Refused(b'is not flat')\n" + EACH_NUMBER),
    ("and digits < 15:", "and (digits < 15 or not text[:place].strip(b'0.')):"),
    # Units, and the place of the point alone
    ("return shown(mg, 6, -6)", "return shown(mg / 1e6, 6)"),
    ("return shown(mg, 6, -3)", "return shown(mg / 1e3, 6)"),
    ("return shown(mm2, 6, -6)", "return shown(mm2 / 1e6, 6)"),
    ('shown(said[b"thickness"], 6, 3)', 'shown(said[b"thickness"] * 1000, 6)'),
    ('shown(said[b"thickness"], 6, 3)', 'shown(math.nextafter(said[b"thickness"], 0), 6, 3)'),
    ('shown(said[b"thickness"], 6, 3)', 'shown(math.nextafter(said[b"thickness"], math.inf), 6, 3)'),
    ('shown(said[b"young"], 6, -6)', 'shown(said[b"young"] / 1e6, 6)'),
    ('shown(said[b"young"], 6, -6)', 'shown(math.nextafter(said[b"young"], math.inf), 6, -6)'),
    ('shown(said[b"density"], 3)', 'shown(math.nextafter(said[b"density"], math.inf), 3)'),
    # Points without a mass, and the smallest areas
    (IDLE, "sum(all(i not in t for t in triangles) for i in range(len(points)))"),
    (IDLE, "sum(not any(i in t and self.area_of(t) > 0 for t in triangles) for i in range(len(points)))"),
    (IDLE, "sum(mass[0] < 2.0**-1022 for mass in self.mass)"),
    (IDLE, 'sum(kg(mass[0]) == b"0.000000" for mass in self.mass)'),
    (IDLE, "sum(self.mass[i][0] == 0 for i in self.row())"),
    ('b"%d points" % wall.idle', 'b"%d point%s" % (wall.idle, b"s"[:wall.idle != 1])'),
    ("        m0 = area", "        area = area if area >= 2.0**-1022 else 0.0\n        m0 = area"),
    ("            mass[name][0] += m0", "            m0 = m0 if m0 >= 2.0**-1022 else 0.0\n            mass[name][0] += m0"),
    ("area / 3.0 * density * thickness\n", "area / 3.0 * (density * thickness)\n"),
    # Columns
    ('b"%8d %15s %15s %15s\\n"', 'b"%8d%16s%16s%16s\\n"'),
    ('b"%-41s%15s\\n"', 'b"%-8s%48s\\n"'),
    # The mesh with its numbers, and help
    ("FIELD masses 3", "FIELD FieldData 3"),
    ('struct.pack(">d", mass[place])', 'struct.pack("<d", mass[place])'),
    ("MPa, for what uses it later", "MPa"),
    ("mass[name][0] += m0", "mass[name][0] = m0 + mass[name][0] if name != triangle[1] or name != triangle[2] else m0"),
]


def judge_with(edit):
    source = load("judge", "wall.py").decode()
    assert edit[0] in source, edit
    module = types.ModuleType("wrong")
    module.__dict__["__name__"] = "wrong"
    exec(compile(source.replace(*edit), "wrong", "exec"), module.__dict__)
    return module


def caught(edit, cases):
    module = judge_with(edit)
    for case, right in cases:
        special = {wall.UNREADABLE: module.UNREADABLE, draw.CLOSED: module.UNREADABLE}
        stand_in = lambda data: special[data] if data in (wall.UNREADABLE, draw.CLOSED) else data
        try:
            if module.answer(case.args, lambda name: stand_in(case.find(name)), stand_in(case.stdin)) != right:
                return True
        except (ValueError, ArithmeticError, IndexError):  # such as a NaN, or a name too far, that was let through
            return True
    return False


def wrong_judges():
    cases = []
    for case in draw.cases(random.Random(1), 1000):
        if case.kind != "at the limits":
            cases.append((case, b"\n".join(case.answers())))
    cases.sort(key=lambda case: sum(len(data) for data in case[0].files.values() if isinstance(data, bytes)))
    check("the right judge is taken for a wrong one", not caught(("", ""), cases))
    for edit in WRONG:
        check(f"not caught by 1,000 cases: {edit[1]}", caught(edit, cases))


def main():
    rng = random.Random(1)
    numbers(rng)
    masses()
    meshes(rng)
    page(rng)
    wrong_judges()
    print(f"{counts[True]} checks passed, {counts[False]} failed")
    return counts[False] != 0
