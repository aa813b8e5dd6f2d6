#!/usr/bin/env python3
"""Respells this repository's own definitions and lemmas: words in snake case, `'` for a prime. Types keep their camel case.

usage: tools/respell.py          at the top of a checkout in which port.py has run: rewrites crates/ in place
       tools/respell.py --list   prints what would be respelled, and which names would fall together

A name is this repository's own where a file of specs/ or proofs/ declares it: a definition, a lemma, a field of a record or a constructor.
Names of src/, of the library and of what Rattle generates keep their spelling, so a token behind a dot is respelled only where it is a
field of this repository's own. In comments a name is respelled where it stands between backticks.
"""

import glob
import re
import subprocess
import sys

WORD = r"[^\s(){}.;,@\"«»\[\]\\:]+"
TOKEN = re.compile(r"--[^\n]*|//[^\n]*|\"(?:[^\"\\\n]|\\.)*\"|" + WORD)
HEAD = re.compile(r"^(?P<in> *)(?:(?:unfoldable|abbrev|private|pub|mutual) )*(?P<what>(?:data|record) )?(?P<name>" + WORD + r")(?: *\([^)]*\)| *\{[^}]*\})* ?:(?: |$)")
RECORD = re.compile(r"^(?P<in> *)(?:pub )?(?:record|data) ")

OWN = re.compile(r"Rattle\.(?!(?:std|core|io|libc|os)\.)")

# Lemmas that port.py spelled as the functions that they speak of are spelled here.
LEMMAS = {"own_line": "own_line_lem", "short_row": "short_row_lem"}


def snake(name):
    name = name.replace("\u2032", "'")
    if name[:1].isupper():
        return name.replace("-", "_")
    name = re.sub(r"(?<=[a-z0-9])([A-Z])", lambda m: "_" + m.group(1).lower(), name)
    return name.replace("-", "_")


def read(path):
    with open(path, encoding="utf-8", newline="") as f:
        return f.read()


def proved(path):
    """A file that answers for one function: crates/NAME/proofs/F/.. and deeper."""
    return path.split("/")[2] == "proofs" and path.count("/") > 3


def declared(text, answers):
    """The names that a file declares and, of these, the fields."""
    names, fields, inside = set(), set(), None
    for line in text.split("\n"):
        if not line.strip() or line.lstrip().startswith("--"):
            continue
        depth = len(line) - len(line.lstrip(" "))
        if inside is not None and depth <= inside[0]:
            inside = None
        m = HEAD.match(line)
        if not m:
            if RECORD.match(line):
                inside = (depth, line.split("pub ")[-1].split()[0] + " ")
            continue
        name = m.group("name")
        if not re.match(r"[A-Za-z]", name):
            continue
        if answers and re.search(r": tie\.(Need|invariant|decreases)|statement", line):
            continue
        names.add(name)
        if inside and inside[1] == "record " and line.lstrip().startswith("pub "):
            fields.add(name)
        if m.group("what"):
            inside = (depth, m.group("what"))
    return names, fields


def collect():
    names, fields = set(), set()
    for path in sorted(glob.glob("crates/*/specs/**/*.antt", recursive=True) + glob.glob("crates/*/proofs/**/*.antt", recursive=True)):
        n, f = declared(read(path), proved(path))
        names |= n
        fields |= f
    old = {n for n in names if snake(n) != n}
    new = {n: snake(n) for n in old}
    # A lemma that would have its function's name gets `_lem`.
    taken = {n for n in names if n not in old} | {new[n] for n in old if "-" not in n}
    new.update((n, new[n] + "_lem") for n in old if "-" in n and new[n] in taken)
    return new, {n for n in fields if n in old}


def not_own(text):
    """What a file brings in from the library: these names keep their spelling there."""
    out = set()
    for m in re.finditer(r"(?m)^ *(?:ghost )?(?:pub )?use ([^{\n;]+)\.\{([^}]*)\}", text):
        if not OWN.match(m.group(1)):
            out |= {w for w in TOKEN.findall(m.group(2))}
    return out


def modules(text):
    """The names by which a file calls modules of this repository."""
    return set(re.findall(r"(?m)^ *use " + OWN.pattern + r"[\w.+]* as (\w+)", text)) | set(re.findall(r"(?m)^ *use " + OWN.pattern + r"[\w.+]*\.(\w+)$", text))


def respell(text, names, fields):
    names = {n: new for n, new in names.items() if n not in not_own(text)}
    own = modules(text)

    def one(m):
        t = m.group(0)
        if t.startswith(("--", "//")):
            return re.sub(r"`([^`\n]+)`", lambda q: "`" + respell(q.group(1), names, fields) + "`", t)
        if t.startswith('"') or t not in names:
            return t
        before = text[: m.start()]
        base = re.search(r"(\w+)\.$", before)
        return t if base and base.group(1) not in own and t not in fields else names[t]

    return TOKEN.sub(one, text)


def paths():
    return sorted(
        p
        for pattern in ("crates/*/src/**/*.rt", "crates/*/specs/**/*.antt", "crates/*/proofs/**/*.antt", "crates/*/must-fail/*.edit")
        for p in glob.glob(pattern, recursive=True)
    )


def together(names):
    """The names that fall together: in one file, with each other or with a name that is there already."""
    out = []
    for path in paths():
        tokens = set(TOKEN.findall(read(path)))
        by = {}
        for t in tokens:
            if t in names:
                by.setdefault(names[t], set()).add(t)
        for new, olds in sorted(by.items()):
            if len(olds) > 1 or new in tokens:
                out.append(f"{path}: {new} <- {' '.join(sorted(olds))}{' and ' + new if new in tokens else ''}")
    return out


def main(argv):
    names, fields = collect()
    if argv == ["--list"]:
        for old in sorted(names):
            print(old, names[old], "(field)" if old in fields else "")
        print("\n".join(together(names)))
        return 0
    if argv:
        print(__doc__)
        return 2
    changed = 0
    for path in paths():
        old = read(path)
        new = respell(old, names | LEMMAS if path.endswith(".antt") else names, fields)
        if new != old:
            with open(path, "w", encoding="utf-8", newline="") as f:
                f.write(new)
            changed += 1
    for crate in sorted(glob.glob("crates/*/")):
        subprocess.run(["rt", "fmt"], cwd=crate, stdout=subprocess.DEVNULL, check=True)
    print(f"respell: {len(names)} names in {changed} files")
    return 0


if __name__ == "__main__":
    raise SystemExit(main(sys.argv[1:]))
