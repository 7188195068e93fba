#!/usr/bin/env python3
"""Brings the repository's own definitions and lemmas to today's spelling.

usage: python3 tools/respell.py [--list]     at the top of the repository, once, after the library's own names were turned

Words are in snake case: `placeOf` is `place_of`. A dash joins a definition and one of the library's operations, as in
`blocks-append`; a plain word is added with an underscore, so `past-here` is `past_here`. A lemma that would have a definition's name
gets `_lem`. Types, modules and variants keep their camel case, and functions of src/,
strings, inputs and outputs keep their names. A name that another project's module gives is left alone. With --list the names are
printed, and nothing is written. Names that would fall together are left as they were, and said.
"""

import pathlib
import re
import sys

WORD = re.compile(r"(?<![\w'-])[a-z](?:[\w']|-(?=[\w']))*")
CAMEL = re.compile(r"^[a-z][a-z0-9]*(?:[A-Z][a-z0-9]*)+'*$")
DEFINED = re.compile(r"^(?P<pub>pub )?(?P<mark>abbrev |unfoldable )?(?:pub )?(?:mutual )?(?P<name>[^\s:(){}=,]+) :")
HEAD = re.compile(r"^(?:pub )?(?:data|record) (?P<name>[^\s:(){}]+)")
FIELD = re.compile(r"^\s+(?:pub )?(?P<name>[^\s:(){}=,]+(?: [^\s:(){}=,]+)*) : ")
USED = re.compile(r"^\s*(?:ghost |pub )?use ([\w.'◌+-]+)\.\{([^}]*)\}", re.M)
# what may stand behind the dash besides the repository's definitions: the library's operations on lists and numbers
STD = {"append", "cons", "nil", "drop", "take", "length", "map", "set", "sets", "get_or", "sum", "reverse", "replicate", "cond"}

# names that would fall together with a definition's new spelling, and the files that have them
FIRST = [
    ("instructions/proofs/Marks instructions/proofs/Listings stand/proofs/Laws", {f"is{dash}{kind}": f"as_{kind}" for kind in ("block", "loop", "rep", "lb", "jmp", "njmp") for dash in "-_"}),
    ("translation/proofs/Tested", {"is_loop": "is_loop_lem"}),
    ("grammar/proofs/Heads grammar/proofs/Ways", {"goes_on": "goes_on_lem"}),
]
# definitions whose new spelling is a name of another crate alone
APART = {"goesOn"}


def snake(name):
    return re.sub(r"(?<=[a-z0-9])([A-Z])", lambda m: "_" + m.group(1).lower(), name)


def files(root):
    for suffix in ("*.antt", "*.rt", "*.edit"):
        yield from sorted((root / "crates").rglob(suffix))
    yield from sorted((root / "docs").glob("*.md"))


def lemma_file(path):
    return path.suffix == ".antt" and path.parent.name in ("specs", "proofs")


def own_names(root):
    """Every name that a file of specs/ or of lemmas gives, and those among them that are definitions."""
    names, definitions, words = set(), set(), set()
    for path in sorted((root / "crates").rglob("*")):
        if path.suffix not in (".antt", ".rt"):
            continue
        text = path.read_text()
        words |= set(WORD.findall(text))
        if not lemma_file(path):
            continue
        for line in text.splitlines():
            m = DEFINED.match(line)
            if m:
                names.add(m["name"])
                if m["mark"]:
                    definitions.add(m["name"])
            for pattern in (HEAD, FIELD):
                m = pattern.match(line)
                if m:
                    names |= set(m["name"].split())
    return names, definitions, words


def others(root):
    """Names that come from modules of no crate of this repository."""
    crates = {p.name for p in (root / "crates").iterdir()}
    given = set()
    for path in (root / "crates").rglob("*"):
        if path.suffix not in (".antt", ".rt"):
            continue
        for module, names in USED.findall(path.read_text()):
            parts = module.split(".")
            if parts[0] == "Rattle" and len(parts) > 1 and parts[1] in crates:
                continue
            for item in names.split(","):
                given |= {w.strip() for w in re.split(r"\bas\b", item)[:1]}
    return given


def plan(root):
    names, definitions, words = own_names(root)
    given = others(root)
    known = {snake(d) for d in definitions if "-" not in d} | STD
    to = {}
    for word in sorted(words):
        if CAMEL.match(word) and word not in given:
            to[word] = snake(word)
    for name in sorted(names):
        if "-" not in name or name in given or not re.match(r"^[a-z]", name):
            continue
        parts = [snake(p) if CAMEL.match(p) else p for p in name.split("-")]
        if any(re.search(r"[A-Z]", p) for p in parts):
            continue
        new = parts[0]
        for part in parts[1:]:
            new += ("-" if new in known and part in STD else "_") + part
        if new != name:
            to[name] = new
    # a name whose new spelling is taken already keeps its own
    taken, left = {}, []
    rusts = set()
    for path in (root / "crates").rglob("*.rt"):
        rusts |= set(re.findall(r"\bfn (\w+)", path.read_text()))
    for old in sorted(to, key=lambda n: ("-" in n, n)):
        new = to[old]
        if (new in taken or new in names) and "-" in old:
            new += "_lem"
        if new in given or new in taken or new in names and old not in APART:
            left.append((old, new))
            continue
        taken[new] = old
        to[old] = new
    for old, new in left:
        del to[old]
    return to, left, sorted(n for n in to.values() if n in rusts)


def turned(text, to, generated):
    def one(m):
        word = m.group(0)
        if word not in to:
            return word
        if generated and "-" in word and text[m.start() - 1 : m.start()] == ".":
            return word
        return to[word]

    return WORD.sub(one, text)


def main(argv):
    root = pathlib.Path(".")
    if argv != ["--list"]:
        for paths, first in FIRST:
            for path in paths.split():
                file = root / "crates" / (path + ".antt")
                file.write_text(turned(file.read_text(), first, False))
    to, left, also = plan(root)
    if argv == ["--list"]:
        print("\n".join(f"{old} {to[old]}" for old in sorted(to)))
    else:
        for path in files(root):
            text = path.read_text()
            generated = path.suffix == ".antt" and not lemma_file(path)
            new = turned(text, to, generated)
            if new != text:
                path.write_text(new)
    for old, new in left:
        print(f"left: {old}, since {new} is another name", file=sys.stderr)
    print(f"respelled: {len(to)} names, {len(left)} left; as a function of src/ is called too: {' '.join(also)}", file=sys.stderr)
    return 0


if __name__ == "__main__":
    raise SystemExit(main(sys.argv[1:]))
