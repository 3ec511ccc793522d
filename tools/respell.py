#!/usr/bin/env python3
"""Brings the definitions and lemmas of specs/ and proofs/ to one spelling: types and facts in CamelCase, all else in snake_case.

usage: python3 tools/respell.py            at the top of the repository, once; it prints each name that it respells
       python3 tools/respell.py --dry      prints the names and writes nothing

A dash stays where it joins the names of two definitions, as in `length-turned`. Names that Rattle makes, as those of goals and
steps, and the names of functions, types and fields of src/ stay as they are. Where two names would fall together it stops.
"""

import os
import re
import sys

TOKEN = re.compile(r"[A-Za-z0-9_'+·◌≤<∙-]+")
SIGNATURE = re.compile(r"^( *)((?:abbrev |unfoldable |pub )*)([A-Za-z][A-Za-z0-9_'-]*) :(?: |$)(.*)")
DECLARED = re.compile(r"^ *(?:pub )?(?:record|data) ([A-Za-z][A-Za-z0-9_'-]*)")
STD = {"length", "take", "drop", "append", "map", "reverse", "set", "get_or", "slice_get", "replicate", "min", "remove", "concat", "option_to_list", "cond", "sum"}
# names of the library that look like names of ours
LIBRARY = {"word_Row"}
# lemmas that would fall together with a definition
CHOSEN = {"next-in": "next_on_chain", "prev-in": "prev_on_chain", "same_place": "same_index", "getD-turned": "get_or-turned", "get_d_replicate": "get_or_replicate"}


def files(root, ends):
    for folder, dirs, names in os.walk(os.path.join(root, "crates")):
        dirs[:] = sorted(d for d in dirs if d != "out")
        for name in sorted(names):
            if name.endswith(ends):
                yield os.path.join(folder, name)


def read(path):
    with open(path, encoding="utf-8") as f:
        return f.read()


def answers(path):
    return os.path.basename(path) in ("Answers.antt", "Invariants.antt")


def own_names(texts):
    """The names that the files define, and those of them that stand for values or facts of specs/."""
    own, words = set(), set()
    for path, text in texts.items():
        imported = set()
        for line in text.splitlines():
            if line.startswith("use "):
                imported |= set(TOKEN.findall(line))
                continue
            declared = DECLARED.match(line)
            if declared:
                own.add(declared.group(1))
                words.add(declared.group(1))
                continue
            signed = SIGNATURE.match(line)
            if not signed or "--" in signed.group(3):
                continue
            name, goal = signed.group(3), signed.group(4)
            if answers(path) and re.match(r"(?:goal|Goals|Given)\.", goal):
                continue
            own.add(name)
            if "/specs/" in path:
                words.add(name)
    return own, words


def imported_from_library(texts):
    names = set()
    for text in texts.values():
        for line in text.splitlines():
            line = line.strip()
            if re.match(r"(ghost )?use Rattle\.std\.|use borrow\.|use denote\.|use Prim\.", line):
                names |= set(re.findall(r"[A-Za-z0-9_'+·-]+", line[line.find("{"):]))
    return names


def snake(word):
    return re.sub(r"(?<=[a-z0-9])([A-Z])", lambda m: "_" + m.group(1).lower(), word)


def respelled(name, words, functions):
    if name in CHOSEN:
        return CHOSEN[name]
    if name[0].isupper():
        return "".join(p[:1].upper() + p[1:] for p in re.split(r"[-_]", name))
    parts = name.split("-")
    out = ("-" if all(p in words for p in parts) else "_").join(snake(p) for p in parts)
    return out + "_lem" if len(parts) > 1 and out in functions else out


def table(root):
    texts = {p: read(p) for p in files(root, ".antt")}
    sources = {p: read(p) for p in files(root, ".rt")}
    own, defined = own_names(texts)
    library = imported_from_library({**texts, **sources})
    functions = {m for text in sources.values() for m in re.findall(r"\bfn (\w+)", text)}
    vocabulary = set()
    for text in texts.values():
        # a path is no name in scope: what it opens stands behind it, in braces
        vocabulary |= set(TOKEN.findall(re.sub(r"(?m)^use [^{\n]*", "", text)))
    camel = {t for t in vocabulary if re.match(r"^[a-z][A-Za-z0-9_]*[A-Z][A-Za-z0-9_]*$", t)}
    names = {n for n in own | camel if n not in library and n not in LIBRARY}
    words = {n for n in defined if "-" not in n} | STD
    turned = {n: respelled(n, words, functions) for n in sorted(names)}
    turned = {n: t for n, t in turned.items() if n != t}
    clashes, seen = [], {}
    for n, t in turned.items():
        if (t in vocabulary and t not in turned) or t in seen:
            clashes.append(f"{n} and {seen.get(t, t)} fall together as {t}")
        seen[t] = n
    return turned, clashes, texts, sources


def main(argv):
    root = os.getcwd()
    turned, clashes, texts, sources = table(root)
    for n, t in turned.items():
        print(f"{n} -> {t}")
    if clashes:
        print("\n".join("CLASH: " + c for c in clashes))
        return 1
    if "--dry" in argv:
        return 0
    for path, text in {**texts, **sources}.items():
        new = TOKEN.sub(lambda m: turned.get(m.group(0), m.group(0)), text)
        if new != text:
            with open(path, "w", encoding="utf-8") as f:
                f.write(new)
    return 0


if __name__ == "__main__":
    raise SystemExit(main(sys.argv[1:]))
