#!/usr/bin/env python3
"""Respells the repository's own definitions, lemmas and fields of records: words in snake case, types in camel case.

usage: python3 tools/respell.py          at the top of the repository, once, after the scripts of the kit
       python3 tools/respell.py --list   lists the old and the new names, and writes nothing

Names of src/ keep their spelling, and so do the names that Rattle makes (goals, steps, arms). It stops, and writes
nothing, where two names would fall together.
"""

import glob
import re
import sys

TOKEN = re.compile(r"[\w'-]+")
DEFINED = re.compile(r"^ *(?:abbrev |unfoldable |pub |record |data )*([A-Za-z][\w'-]*)(?= +:|\s*[({][^=]*:| where)")
FIELD = re.compile(r"^  (?:pub )?([A-Za-z][\w'-]*) :")
MADE = re.compile(r"^(?:abbrev )?(?:pub )?([\w'-]+) : (?:\w+ )*(?:goal|given)\.")
KEPT = {"join-sizes": "join_sizes_lem", "long_L": "long_l", "Plane-box": "IsPlaneBox", "ink-at": "ink_at_lem", "plane-bytes": "plane_bytes_lem", "row-bytes": "row_bytes_lem"}


def files():
    for ending in ("antt", "rt"):
        yield from sorted(glob.glob(f"crates/*/**/*.{ending}", recursive=True))


def read(path):
    with open(path, encoding="utf-8") as f:
        return f.read()


def new_name(name):
    if name in KEPT:
        return KEPT[name]
    name = name.replace("getD", "get_or")
    if name[0].isupper():
        return "".join(w[:1].upper() + w[1:] for w in name.split("-"))
    name = name.replace("-", "_")
    return re.sub(r"(?<=[a-z0-9_])([A-Z])", lambda m: ("" if m.string[m.start() - 1] == "_" else "_") + m[1].lower(), name)


def own_names(texts):
    names, fields, made = set(), set(), set()
    for path, text in texts.items():
        if not path.endswith(".antt"):
            continue
        for line in text.splitlines():
            if m := MADE.match(line):
                made.add(m[1])
            elif line.strip():
                if m := DEFINED.match(line):
                    names.add(m[1])
                if m := FIELD.match(line):
                    fields.add(m[1])
    return (names | fields) - made, fields


def main(argv):
    texts = {p: read(p) for p in files() if "/out/" not in p}
    names, fields = own_names(texts)
    turned = {n: new_name(n) for n in names}
    turned = {n: m for n, m in turned.items() if n != m}
    words = {p: set(TOKEN.findall(t)) for p, t in texts.items()}
    clashes = 0
    for n, m in sorted(turned.items()):
        both = [p for p in texts if n in words[p] and m in words[p]]
        twice = [o for o, k in turned.items() if k == m and o != n]
        if both or twice:
            clashes += 1
            print(f"falls together: {n} -> {m}: {both[:3]} {twice}")
    if "--list" in argv:
        for n, m in sorted(turned.items()):
            print(n, m)
    if clashes:
        return 1
    if "--list" in argv:
        return 0
    for p, t in texts.items():
        u = TOKEN.sub(lambda m: m[0] if t[m.start() - 1] == "." and m[0] not in fields and not t[: m.start()].endswith("..") else turned.get(m[0], m[0]), t)
        if u != t:
            with open(p, "w", encoding="utf-8") as f:
                f.write(u)
    print(f"respell: {len(turned)} names")
    return 0


if __name__ == "__main__":
    raise SystemExit(main(sys.argv[1:]))
