#!/usr/bin/env python3
"""Respells this repository's own definitions and lemmas as today's Rattle spells names: words in snake case, types in camel
case. Run at the top, after the kit's port.py: it tells of names that fall together, and with --turn it writes. Strings,
comments and the names that Rattle makes stay as they are.
"""
import collections
import os
import re
import sys

# Lemmas named by the two functions of their left side keep the dash between them.
KEEP = {"length-flat", "length-flats", "reverse-map"}
NAMED = {
    "reverseAux-map": "reverse_aux-map",
    "sameKind-path": "same_kind_path",
    "all-differ": "none_alike",
    "find-blank": "blank_found",
    # the test of two homes of the rules is same_home
    "sameHome": "same_instance",
}
# Names of code: a string, a comment, or a word of antt.
PARTS = re.compile(r'"(?:\\.|[^"\\])*"|--[^\n]*|[^\s(){}\[\];,.«»λ"]+|.', re.S)
RUST = re.compile(r'"(?:\\.|[^"\\])*"|//[^\n]*|[^\s(){}\[\];,.«»λ"]+|.', re.S)
SIGNATURE = re.compile(r"^\s*(?:pub |abbrev |unfoldable )*([^\s:(){}]+(?: [^\s:(){}]+)*) : (.*)")
NOMINAL = re.compile(r"^\s*(?:pub )?(?:abbrev )?(?:record|data)(?: pub)? (\S+)")
CAMEL = re.compile(r"(?<=[a-z0-9])[A-Z]")
HUMPED = re.compile(r"[a-z][a-z0-9_]*[A-Z]")
MADE = re.compile(r"^(c|goal|h|w|l|need)$")


def sources():
    for folder, dirs, names in os.walk("crates"):
        dirs[:] = sorted(d for d in dirs if d not in ("out", "target"))
        for name in sorted(names):
            if name.endswith((".antt", ".rt")):
                yield os.path.join(folder, name)


def declared():
    found = collections.defaultdict(set)
    for path in sources():
        if not path.endswith(".antt"):
            continue
        with open(path, encoding="utf-8") as f:
            for line in f:
                nominal, signature = NOMINAL.match(line), SIGNATURE.match(line)
                if nominal:
                    found[nominal.group(1)].add(path)
                elif signature and not signature.group(2).startswith("goal."):
                    for name in signature.group(1).split():
                        found[name].add(path)
    return found


def respelled(name):
    if name in NAMED:
        return NAMED[name]
    if name[0].isupper():
        return "".join(p[0].upper() + p[1:] for p in name.split("-"))
    return CAMEL.sub(lambda m: "_" + m.group(0).lower(), name.replace("-", "_"))


def main():
    names = [n for n in declared() if n not in KEEP and n[0].isalpha() and ("-" in n or HUMPED.match(n))]
    names = [n for n in names if n not in NAMED.values()]
    turned = {n: respelled(n) for n in names}
    seen = set()
    made = collections.Counter()
    for path in sources():
        with open(path, encoding="utf-8") as f:
            text = f.read()
        parts = (PARTS if path.endswith(".antt") else RUST).findall(text)
        seen.update(parts)
        for i, p in enumerate(parts):
            if p in turned and i > 1 and parts[i - 1] == "." and MADE.match(parts[i - 2]):
                made[p, path] += 1
    counts = collections.Counter(turned.values())
    for old, new in sorted(turned.items()):
        if counts[new] > 1:
            print("falls together:", old, new)
        if new in seen:
            print("stands already:", old, new)
    for (name, path), n in sorted(made.items()):
        print("behind a made name:", name, path, n)
    if "--turn" not in sys.argv:
        return
    for path in sources():
        with open(path, encoding="utf-8") as f:
            text = f.read()
        parts = (PARTS if path.endswith(".antt") else RUST).findall(text)
        new = "".join(turned.get(p, p) for p in parts)
        if new != text:
            with open(path, "w", encoding="utf-8") as f:
                f.write(new)


if __name__ == "__main__":
    main()
