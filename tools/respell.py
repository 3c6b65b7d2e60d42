#!/usr/bin/env python3
"""Respells the repository's own definitions and lemmas as today's Rattle spells names. It was run once, right after
the kit's port.py (docs/PORT.md), and is kept so that the step can be made again beside the commit from which it began.

usage: tools/respell.py            at the top of the repository
       tools/respell.py --list     prints what would be renamed, and changes nothing

A definition in camel case gets snake case: numbersFrom becomes numbers_from. In the name of a lemma the dashes stay where all that
they join are names, as in length-map, and are underscores elsewhere, as in is_sound. Names from src/, file names, strings and what the
boards and the C side hold stay as they are. A lemma that would get the name of a definition gets _lem behind it.
"""
import glob
import re
import sys

# Lemmas that port.py gave the name that a definition in their file gets: by their crate.
APART = {("madt", "map_of"): "map_of_lem", ("text", "has_room"): "has_room_lem"}

# what is spelled so already beside a lemma that would get the name
PLACES = {"places_of"}

NAME = r"[A-Za-z0-9_][\w'\-]*"
DEFINES = re.compile(r"\s*(?:(?:pub|abbrev|unfoldable) )*(" + NAME + r")(?: \{[^}]*\})*(?: \([^)]*\))* : ")
CALLED = re.compile(r"\s*(?:pub )?(?:record|data) (" + NAME + ")")
IMPORTS = re.compile(r"use ([^\n{]*)\{([^}]*)\}")


def texts(*ends):
    for end in ends:
        yield from sorted(f for f in glob.glob("**/*" + end, recursive=True) if "/out/" not in f)


def without_remarks(text, mark):
    return re.sub(mark + r".*", "", text)


def snake(name):
    name = re.sub(r"([a-z0-9])([A-Z])", r"\1_\2", name)
    name = re.sub(r"([A-Z])([A-Z][a-z])", r"\1_\2", name)
    name = re.sub(r"([a-z])([0-9])", r"\1_\2", name)
    return re.sub(r"([0-9])([a-z])", r"\1_\2", name.lower()) if re.search("[A-Z]", name) else name.lower()


def is_camel(name):
    return re.match(r"[a-z][A-Za-z0-9]*[A-Z]", name) is not None


def laws():
    """The files of definitions and laws: all but the proofs of functions."""
    for f in texts(".antt"):
        if not f.endswith(("/Proof.antt", "/Invariants.antt", "/Answers.antt")):
            yield f


def defined():
    names = set()
    for f in laws():
        for line in without_remarks(open(f).read(), "--").split("\n"):
            m = DEFINES.match(line)
            if m:
                names.add(m.group(1))
    return names


def camel_words():
    """Every word in camel case of definitions, laws and proofs: arguments and local names too."""
    words = set()
    for f in texts(".antt"):
        text = re.sub(r'"[^"]*"', "", without_remarks(open(f).read(), "--"))
        words |= {w for w in re.findall(r"(?<![\w'\-])[a-z][A-Za-z0-9]*", text) if is_camel(w)}
    return words


def known_names():
    """The definitions of specs/, and what is imported of the library."""
    known = set()
    for f in texts(".antt"):
        if "/specs/" in f:
            known |= {snake(n) for n in re.findall(r"(?m)^(?:abbrev |unfoldable )?pub (\w+)(?: \{[^}]*\})* : ", open(f).read())}
    for f in texts(".antt"):
        for path, names in IMPORTS.findall(open(f).read()):
            if path.startswith("Rattle.") and not path.startswith("Rattle.std."):
                continue
            known |= {n.strip() for n in names.split(",") if "-" not in n and "◌" not in n}
    return known


def joined(name, known):
    """The name with its dashes where they join known names alone, and else with underscores."""
    parts = [snake(p) if is_camel(p) else p for p in name.split("-")]
    return ("-" if all(p in known for p in parts) else "_").join(parts)


def renamings():
    definitions = defined()
    known = known_names()
    new = {w: snake(w) for w in camel_words()}
    taken = set(new.values()) | PLACES
    for n in definitions:
        if "-" in n:
            name = joined(n, known)
            new[n] = name + "_lem" if name in taken else name
    return {old: name for old, name in new.items() if old != name}


def pages_words(definitions):
    words = {w for f in texts(".md") for w in re.findall(r"(?<![\w'\-])[a-z][A-Za-z0-9]*", open(f).read()) if is_camel(w)}
    return {w: snake(w) for w in words if snake(w) in definitions}


def clashes(new):
    """Names that would fall together, or be taken already."""
    there = {}
    for f in texts(".antt", ".rt"):
        text = without_remarks(open(f).read(), "--" if f.endswith(".antt") else "//")
        for w in set(re.findall(r"(?<![\w'\-])" + NAME, text)):
            there.setdefault(w, set()).add(f)
    by_new = {}
    for old, name in new.items():
        by_new.setdefault(name, []).append(old)
    for name, olds in sorted(by_new.items()):
        files = [there.get(o, set()) for o in olds]
        if len(olds) > 1:
            yield f"{name}: from {olds}, together in {sorted(set.intersection(*files))[:3]}"
        laws_of_name = {f for f in there.get(name, set()) if f.endswith(".antt")}
        if laws_of_name & set.union(*files):
            yield f"{name}: from {olds}, stands already in {sorted(laws_of_name & set.union(*files))[:4]}"


def respelled(text, new):
    """Behind a dot stands a field or what a call ensures, so no lemma."""

    def name(m):
        to = new.get(m.group(0), m.group(0))
        return to[: -len("_lem")] if to.endswith("_lem") and text[m.start() - 1] == "." else to

    return re.sub(r"(?<![\w'\-])" + NAME, name, text)


def main():
    new = renamings()
    if "--list" in sys.argv:
        for old, name in sorted(new.items()):
            print(old, name)
        for line in clashes(new):
            print("clash:", line, file=sys.stderr)
        return
    camel = {o: n for o, n in new.items() if "-" not in o}
    # port.py turns no page: names that it respelled stand there in camel case
    said_of_port = pages_words(defined())
    for f in texts(".antt", ".rt", ".edit", ".md"):
        text = open(f).read()
        if f.endswith(".antt"):
            own = {old: name for (crate, old), name in APART.items() if f.startswith(f"crates/{crate}/")}
            said = respelled(text, {**new, **own})
        elif f.endswith(".md"):
            quoted = lambda m: respelled(respelled(m.group(0), new), said_of_port)
            said = "\n\n".join(p if "```" in p else re.sub(r"`[^`]*`", quoted, p) for p in text.split("\n\n"))
        else:
            said = respelled(text, camel)
        if said != text:
            open(f, "w").write(said)


main()
