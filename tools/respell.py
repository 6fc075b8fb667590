#!/usr/bin/env python3
"""Respells the repository's own definitions and lemmas: words in snake case; types, facts and modules keep their capitals.

usage: tools/respell.py [--list]      at the top, once, after the kit's port.py; --list prints each old name and its new one and writes nothing

A name that begins with a small letter and that specs/ or proofs/ declare turns wherever it stands as a word in crates/: areaOf into area_of, fold-append into fold_append. A bound name in
camel case turns too, and so does a label behind a dot that is a function's or a variable's name of src/ with dashes. A name brought in as Items·line is named by its module, Items.line.
Functions of src/, comments, strings, inputs and outputs stay. A lemma that would get a definition's name ends in _lem; OWN names what the rules would spell otherwise than the source does.
"""
import collections
import os
import re
import sys

WORD = r"[^\s(){}.;,@\"«»]+"
DECLARES = re.compile(rf"^\s*(?:(?:pub|abbrev|unfoldable)\s+)*({WORD})(?:\s+[({{].*?)?\s:\s")
# names that a Rattle proof file gives to what the check makes: they are not the repository's
MADE = re.compile(r"-(?:requires|ensures|init|preserved|given|prefix)(?:-|$)|-\d+$|^(?:loop|invariant|decreases|returns|overflow)-")
CAMEL = re.compile(r"(?<![\w'·◌.-])([a-z][a-z0-9]*[A-Z]\w*(?:-[\w'-]+)?)")
OWN = {
    "dNdrOf": "dndr_of",
    "dcoeffERtOf": "dcoeff_e_rt_of",
    "deRt01Of": "de_rt_01_of",
    "deSt20Of": "de_st_20_of",
}
# a definition of one file alone, whose name an imported definition gets
HERE = {
    ("crates/skin/proofs/Young.antt", "late_of"): "late_rows",
    ("crates/mesh_masses/proofs/Lists.antt", "point_at"): "point_there",
}


def texts():
    for folder, dirs, files in os.walk("crates"):
        dirs[:] = sorted(d for d in dirs if d != "out")
        for f in sorted(files):
            if f.endswith((".rt", ".antt")):
                yield os.path.join(folder, f)


def read(path):
    with open(path, encoding="utf-8") as f:
        return f.read()


def snake(name):
    name = re.sub(r"([a-z0-9])([A-Z])", r"\1_\2", name)
    name = re.sub(r"([A-Z])([A-Z][a-z])", r"\1_\2", name)
    return name.replace("-", "_").lower()


def table():
    found = collections.defaultdict(set)
    for p in texts():
        if not p.endswith(".antt"):
            continue
        for l in read(p).splitlines():
            if l.lstrip().startswith("--") or l.startswith(("use ", "pub use ", "mod ", "pub mod ")):
                continue
            m = DECLARES.match(l)
            if m and re.match(r"[a-z]", m[1]):
                found[m[1]].add(p)
            for w in CAMEL.findall(re.sub(r"(^|\s)--.*", "", l)):
                if "-" not in w:
                    found[w].add(p)
    rows = {}
    for name, files in found.items():
        if re.search(r"[A-Z]", name) and "-" not in name:
            rows[name] = OWN.get(name, snake(name))
    taken = set(rows.values()) | {n for n in found if not re.search(r"[A-Z-]", n)}
    for name, files in sorted(found.items()):
        if "-" not in name or (MADE.search(name) and all("/proofs/" in f and f.endswith("/Proof.antt") for f in files)):
            continue
        new = snake(name)
        rows[name] = new + "_lem" if new in taken else new
    return rows


def labels():
    """Names of functions and variables of src/ that have an underscore, written with dashes."""
    names = set()
    for p in texts():
        if p.endswith(".rt"):
            names |= {w for w in re.findall(r"[a-z]\w*", re.sub(r"//.*", "", read(p))) if "_" in w}
    return {n.replace("_", "-"): n for n in names}


def turn(text, rows, behind):
    def word(m):
        w = m[0]
        if m.start() and text[m.start() - 1] == "." and not re.search(r"(?:^|[\s({,])[A-Z][\w.]*\.$", text[max(0, m.start() - 80) : m.start()]):
            d = re.match(r"(.*?)(\d*)$", w)
            return behind[w] if w in behind else behind[d[1]] + d[2] if d[1] in behind else rows.get(w, w)
        return rows.get(w, w)

    return re.sub(WORD, word, text)


def antt(text, rows, behind):
    return "\n".join((lambda m: turn(l[: m.start()], rows, behind) + l[m.start() :] if m else turn(l, rows, behind))(re.search(r"(?:^|(?<=\s))--(?=\s|$)", l)) for l in text.split("\n"))


def rt(text, rows):
    """Only ghost items and clauses turn; a name of a module in front of a middle dot becomes a path."""
    out, ghost, deep = [], 0, 0
    modules = set()
    for l in text.split("\n"):
        code = l.split("//")[0] if not l.lstrip().startswith("//") else ""
        is_use = code.startswith("ghost use ") or ghost == 2
        if is_use:
            ghost = 0 if ";" in code else 2
        is_clause = bool(re.match(r"\s*(?:requires|ensures)\*?\s*(?:\w+\s*)?\{", code)) or ghost == 1
        if is_clause:
            deep = (deep if ghost == 1 else 0) + code.count("{") - code.count("}")
            ghost = 1 if deep > 0 else 0
        if is_use or is_clause:
            l = turn(l, rows, {})
        if is_use:
            for m in re.finditer(r"(?:, )?([\w']+) as ([A-Z]\w*)·[\w']+", l):
                modules.add((re.search(r"ghost use (Rattle\.\w+\.specs\.\w+)", l)[1], m[2]))
            l = re.sub(r"(, )?closed as Mesh·closed", r"\1closed", l)
            l = re.sub(r"(?:, )?[\w']+ as [A-Z]\w*·[\w']+", "", l).replace("{, ", "{")
            if re.search(r"\.\{\};", l):
                continue
        out.append(l)
    text = "\n".join(out).replace("Mesh·closed", "closed")
    modules = {p for p, m in modules if m != "Mesh"}
    text = re.sub(r"\b([A-Z]\w*)·(\w+)", r"\1.\2", text)
    for p in sorted(modules):
        text = re.sub(r"(?m)^(ghost use Rattle\.\w+\.specs\..*)$", rf"ghost use {p};\n\1", text, count=1)
    return text


def main():
    rows, behind = table(), labels()
    if "--list" in sys.argv:
        for a, b in sorted(rows.items()):
            print(a, b)
        return
    n = 0
    for p in texts():
        old = read(p)
        mine = dict(rows)
        new = old
        for (path, name), to in HERE.items():
            if path == p:
                new = re.sub(rf"(?<![\w'.-]){name}(?![\w'-])", to, new)
        new = antt(new, mine, behind) if p.endswith(".antt") else rt(new, mine)
        if new != old:
            n += 1
            with open(p, "w", encoding="utf-8") as f:
                f.write(new)
    print(f"{n} files, {len(rows)} names")


if __name__ == "__main__":
    main()
