#!/usr/bin/env python3
"""Spells the repository's own definitions and lemmas as today's library spells its names.

Run once, at the top. A word goes from `ledger-read` to `ledger_read`, a type or a fact from
`Names-a-piece` to `NamesAPiece`. Names of functions in src/, strings, comments and the names that
the toolchain makes for goals and steps stay. `--list` prints the names and changes nothing.
"""
import glob
import re
import sys

CRATES = [line.split(":")[0].split()[0] for line in open("crates.txt") if line.strip() and line[0] != "#"]
NAME = r"[A-Za-z][A-Za-z0-9_']*(?:-[A-Za-z0-9_']+)+"
DECLARED = re.compile(r"^\s*(?:(?:abbrev|unfoldable|pub|record|data|ruleset|let) )*((?:[^\s:,(){}]+, )*[^\s:,(){}]+)(?: [({][^=]*?)? :(?: |$)")
BOUND = re.compile(r"(?:[({]|λ |let |; )([^\s:(){}λ]+(?: [^\s:(){}λ]+)*) :")


def definitions():
    files = []
    for crate in CRATES:
        files += glob.glob(f"crates/{crate}/specs/*.antt") + glob.glob(f"crates/{crate}/proofs/*.antt")
    return sorted(files)


def answers():
    files = []
    for crate in CRATES:
        files += glob.glob(f"crates/{crate}/proofs/*/**/*.antt", recursive=True)
    return sorted(files)


def sources():
    files = []
    for crate in CRATES:
        files += glob.glob(f"crates/{crate}/src/**/*.rt", recursive=True)
    return sorted(files)


def code(line, comment):
    """The line up to its comment."""
    at = line.find(comment)
    return line if at < 0 else line[:at]


def outside_names():
    """Every name that a file brings in from the library."""
    names = set()
    for f in definitions() + answers():
        for root, crate, listed in re.findall(r"^(?:pub )?use ([A-Za-z]+)\.?([a-z_]*)[\w.+'-]*\.\{([^}]*)\}", open(f).read(), re.M):
            if root != "Rattle" or crate not in CRATES:
                for name in listed.split(","):
                    names.update(name.split(" as "))
    return {n.strip() for n in names}


def own_names():
    outside = outside_names()
    names = set()
    for f in definitions():
        for line in open(f).read().split("\n"):
            if line.startswith("use ") or line.startswith("pub use "):
                continue
            for name in re.findall(NAME, code(line, "-- ")):
                names.add(name)
    for f in answers():
        for line in open(f).read().split("\n"):
            line = code(line, "-- ")
            found = DECLARED.match(line)
            listed = found.group(1).split(", ") if found and not re.search(r": goal\.\S+$", line) else []
            for group in BOUND.findall(line):
                listed += group.split()
            names.update(n for n in listed if re.fullmatch(NAME, n))
    for f in sources():
        names.update(re.findall(rf" as ({NAME})[,}}]", open(f).read()))
    return names - outside


def spelled(name):
    if name[0].isupper():
        return "".join(part[0].upper() + part[1:] for part in name.split("-"))
    return re.sub(r"([a-z])([A-Z])", lambda m: f"{m.group(1)}_{m.group(2).lower()}", name).replace("-", "_")


def main():
    own = own_names()
    new = {n: spelled(n) for n in own}
    if "--list" in sys.argv:
        for n in sorted(new):
            print(n, new[n])
        return
    # pages and edits may still have the old form of a name that stands in its new one already
    words = set()
    for f in definitions():
        words.update(re.findall(r"[A-Za-z][A-Za-z0-9_']*", open(f).read()))
    token = re.compile(r"(?<![A-Za-z0-9_'-])" + NAME + r"(?![A-Za-z0-9_'-])")

    def turn(text, made, standing=False):
        def one(m):
            before = text[:m.start()]
            if standing and m.group(0) not in new and spelled(m.group(0)) in words:
                return spelled(m.group(0))
            if made and re.search(r"\b(?:goal|Goals|c|w|l)(?:\.[\w'+-]+)*\.$", before):
                return m.group(0)
            return new.get(m.group(0), m.group(0))
        return token.sub(one, text)

    def rewrite(f, each):
        old = open(f).read()
        text = "\n".join(each(line) for line in old.split("\n"))
        if text != old:
            open(f, "w").write(text)

    def antt(line, made):
        said = code(line, "-- ")
        return turn(said, made) + line[len(said):]

    def rust(line):
        said = code(line, "//")
        parts = re.split(r'("(?:[^"\\]|\\.)*")', said)
        return "".join(p if p.startswith('"') else turn(p, False) for p in parts) + line[len(said):]

    def edit(line):
        return turn(line, False, True) if re.match(r"(old|new): ", line) else line

    def page(line):
        return re.sub(r"`[^`]+`", lambda m: turn(m.group(0), False, True), line)

    for f in definitions():
        rewrite(f, lambda line: antt(line, False))
    for f in answers():
        rewrite(f, lambda line: antt(line, True))
    for f in sources():
        rewrite(f, rust)
    for crate in CRATES:
        for f in glob.glob(f"crates/{crate}/must-fail/*.edit"):
            rewrite(f, edit)
    for f in ["README.md"] + glob.glob("docs/*.md"):
        rewrite(f, page)


if __name__ == "__main__":
    main()
