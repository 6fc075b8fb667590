#!/usr/bin/env python3
"""decimals.py [COUNT] [SEED]: numbers shown and texts read by the crate decimal, each compared with exact fractions.

Proves and builds the two programs of judge/try (Rattle source, kept as text) in a temporary copy of the crates, feeds each COUNT records (100,000 by default), and compares every byte.
"""
import os
import random
import re
import shutil
import struct
import subprocess
import sys
import tempfile
from fractions import Fraction

ROOT = os.path.dirname(os.path.dirname(os.path.abspath(__file__)))
TRIES = ["decimal_show", "decimal_read"]


def built(folder):
    """The programs, proved and built in a copy of the crates."""
    shutil.copytree(os.path.join(ROOT, "crates"), os.path.join(folder, "crates"), ignore=shutil.ignore_patterns("must-fail", "out"))
    crates = [os.path.join(folder, "crates", name) for name in TRIES]
    for name, crate in zip(TRIES, crates):
        os.makedirs(os.path.join(crate, "src"))
        shutil.copy(os.path.join(ROOT, "judge", "try", name, "src", "main.rt.txt"), os.path.join(crate, "src", "main.rt"))
    lines = open(os.path.join(ROOT, "crates.txt")).read()
    open(os.path.join(folder, "crates.txt"), "w").write(lines + "".join("%s: float decimal\n" % name for name in TRIES))
    for crate in crates:
        done = subprocess.run(["rt", "run"], cwd=crate, stdin=subprocess.DEVNULL, capture_output=True, text=True)
        if done.returncode != 0:
            sys.exit(done.stderr)
    return [os.path.join(crate, "out", name) for name, crate in zip(TRIES, crates)]


def bits(x):
    return struct.unpack(">Q", struct.pack(">d", x))[0]


def number(w):
    return struct.unpack(">d", struct.pack(">Q", w))[0]


# ---- what is shown
def units(w, p):
    """x in units of 10^-p, as (negative, n), or words."""
    x = number(w)
    if x != x:
        return b"no number"
    if x in (float("inf"), float("-inf")) or abs(Fraction(x)) * 10**p >= 10**18:
        return b"too large"
    exact = abs(Fraction(x)) * 10**p
    n = exact.numerator // exact.denominator
    over = 2 * (exact - n)
    if over > 1 or (over == 1 and n % 2 == 1):
        n += 1
    return (x < 0 and n > 0, n)


def text(amount, k):
    if isinstance(amount, bytes):
        return amount
    negative, n = amount
    digits = str(n).zfill(k + 1)
    return (("-" if negative else "") + (digits[:-k] + "." + digits[-k:] if k else digits)).encode()


def shown(record):
    w, kind, p, k, width = struct.unpack(">QBBBB", record)
    t = text(units(w, min(p, 9)) if kind == 0 else (kind == 2, w), min(k, 9))
    if len(t) > width:
        return b"#" * width + b"\0"
    return t.rjust(width) + bytes([width - len(t)])


def draw_word(rng, p):
    way = rng.randrange(9)
    if way == 0:
        return rng.getrandbits(64)
    if way == 1:
        return bits(rng.choice([0.0, -0.0, float("inf"), float("-inf"), float("nan"), 5e-324, 2.0**-31, 2.0**-1022, 1.7e308]))
    if way == 2:  # every size that has digits
        return bits(rng.choice([1, -1]) * rng.random() * 2.0 ** rng.randrange(-40, 66))
    if way == 3:  # ties
        return bits(rng.choice([1, -1]) * (2 * rng.getrandbits(rng.randrange(1, 45)) + 1) / 2.0 ** (p + 1))
    if way == 4:  # around the limit
        return bits(float(10 ** (18 - p))) + rng.randrange(-3, 4)
    if way == 5:
        return bits(2.0 ** rng.randrange(-33, -28)) + rng.randrange(-3, 4)
    if way == 6:  # whole numbers and halves
        return bits(rng.choice([1, -1]) * rng.getrandbits(rng.randrange(1, 62)) / 2.0)
    # decimals near ties
    return bits(rng.choice([1, -1]) * (rng.getrandbits(rng.randrange(1, 50)) + 0.5) / 10**p) + rng.randrange(-2, 3)


def draw_shown(rng):
    p = rng.choice(list(range(10)) + [10, 255])
    k = rng.choice([min(p, 9), rng.randrange(10), 12])
    width = rng.choice([24, 24, rng.randrange(41)])
    if rng.randrange(8) == 0:
        return struct.pack(">QBBBB", rng.getrandbits(rng.randrange(1, 65)), rng.choice([1, 2]), 0, k, width)
    return struct.pack(">QBBBB", draw_word(rng, min(p, 9)) % 2**64, 0, p, k, width)


# ---- what is read
def read(record):
    up, down = min(record[0], 8), min(record[1], 8)
    t = record[3 : 3 + record[2]]
    plain = re.fullmatch(rb"([0-9]+)(?:\.([0-9]+))?", t)
    if plain and len(t.replace(b".", b"")) <= 15:
        value = Fraction(int(t.replace(b".", b"")) * 10**up, 10 ** (len(plain.group(2) or b"") + down))
        return b"%016x\n" % bits(value.numerator / value.denominator)
    for i in range(len(t)):
        begun = t[: i + 1]
        if not re.fullmatch(rb"[0-9]+(\.[0-9]*)?", begun) or len(begun.replace(b".", b"")) > 15:
            return b"? %d\n" % i
    return b"? %d\n" % len(t)


def draw_digits(rng, n):
    return "".join(rng.choice("0123456789") for _ in range(n))


def draw_text(rng):
    way = rng.randrange(6)
    if way == 0:
        return "".join(rng.choice("0123456789..-+e x,\0\xff") for _ in range(rng.randrange(20)))
    n = rng.randrange(1, 16) if way < 5 else rng.randrange(14, 19)
    t = draw_digits(rng, n)
    if way != 1:
        at = rng.randrange(n + 1)
        t = t[:at] + "." + t[at:]
    if way == 2:
        at = rng.randrange(len(t) + 1)
        t = t[:at] + rng.choice("./:-e \n") + t[at + rng.randrange(2) :]
    return t


def draw_read(rng):
    t = draw_text(rng).encode("latin-1")[:32]
    return bytes([rng.choice([0, 0, rng.randrange(9), 9, 255]), rng.choice([0, 0, rng.randrange(9), 9, 255]), len(t)]) + t.ljust(32, b"7")


def compare(program, records, expected):
    got = subprocess.run([program], input=b"".join(records), capture_output=True, check=True).stdout
    differ, at = 0, 0
    for record, want in zip(records, expected):
        have = got[at : at + len(want)]
        at += len(want)
        if have != want:
            differ += 1
            if differ < 10:
                print(record, "gives", have, "and not", want)
    print("%s: %d records, %d differ" % (os.path.basename(program), len(records), differ))
    return differ == 0 and at == len(got)


def main():
    count = int(sys.argv[1]) if len(sys.argv) > 1 else 100000
    rng = random.Random(int(sys.argv[2]) if len(sys.argv) > 2 else 1)
    with tempfile.TemporaryDirectory() as folder:
        show, reader = built(folder)
        numbers = [draw_shown(rng) for _ in range(count)]
        texts = [draw_read(rng) for _ in range(count)]
        fine = compare(show, numbers, [shown(r) for r in numbers])
        answers = [read(r) for r in texts]
        fine = compare(reader, texts, answers) and fine
        print("%d of the texts are numbers" % sum(not a.startswith(b"?") for a in answers))
    sys.exit(0 if fine else 1)


main()
