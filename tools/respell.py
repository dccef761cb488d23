#!/usr/bin/env python3
"""Brings the repository's own definitions and lemmas to today's spelling, once, after the kit's port.py.

usage: tools/respell.py          at the top of the repository, with everything committed

port.py respells a part of these names. This takes the rest:
  - a function, a lemma, a field, a constructor and a local signature whose name is in camel case gets snake case
    (`bufferAfter` is `buffer_after`, `closedIn-append` is `closed_in-append`); types, facts and modules keep theirs;
  - `specs/Contracts.antt` is `specs/Promised.antt`, since Rattle makes a module of the first name;
  - the constructor `result` of `Outcome` is `granted`, since `result` is what a clause calls the returned value, and the clauses
    that port.py left with a λ for that reason lose it.
The names of functions of src/, exported names, strings, inputs and outputs stay. It tells names that fall together.
"""

import pathlib
import re
import sys

ROOT = pathlib.Path(__file__).resolve().parent.parent
CRATES = ROOT / "crates"
SIGNATURE = re.compile(r"^\s*(?:abbrev pub |abbrev |pub |unfoldable pub |unfoldable )?([^\s(){}:,;]+)(?: [({].*)?\s:(?: |$)")
# A name of a `ghost use .. as`, which no signature shows.
ALIASES = {"clampZ": "clamp_z"}
# Lemmas that would have the name of a definition.
LEMMAS = {"line_after": "line_after_lem", "is_open": "is_open_lem", "run_length": "run_length_lem"}
# What a part of a name is now called where plain splitting would not say it.
PARTS = {"getD": "get_or"}
WORD = r"(?<![\w'\-]){}(?![\w'\-])"


def snake(part):
    """A part of a name in snake case; a part that begins with a capital is a type's or a fact's, and stays."""
    if part in PARTS:
        return PARTS[part]
    if not re.match(r"[a-z]", part) or not re.search(r"[A-Z]", part):
        return part
    return re.sub(r"(?<=[a-z0-9])([A-Z])", lambda m: "_" + m[1].lower(), part).lower()


def respelled(name):
    return "-".join("_".join(snake(p) for p in piece.split("_")) for piece in name.split("-"))


def texts(*endings):
    return sorted(p for e in endings for p in CRATES.rglob("*" + e) if "out" not in p.relative_to(CRATES).parts[1:2])


def names():
    found = dict(ALIASES)
    for path in texts(".antt"):
        for line in path.read_text(encoding="utf-8").splitlines():
            m = SIGNATURE.match(line)
            if m and not line.lstrip().startswith(("--", "use ", "data ", "record ")):
                name = m[1]
                if name[0].islower() and respelled(name) != name and not name.startswith(("invariant", "measure")):
                    found[name] = respelled(name)
    return found


def told(found, words):
    """Names that fall together: two old names of one new one, or a new name that some text already has."""
    back = {}
    for old, new in found.items():
        back.setdefault(new, []).append(old)
    for new, olds in sorted(back.items()):
        if len(olds) > 1 or new in words:
            print(f"look: {' and '.join(sorted(olds))} -> {new}{', which stands already' if new in words else ''}")


def main():
    found = names()
    files = texts(".antt", ".rt", ".edit")
    whole = {p: p.read_text(encoding="utf-8") for p in files}
    told(found, set(re.findall(r"[\w'\-]+", "\n".join(whole.values()))))
    every = re.compile(WORD.format("(" + "|".join(sorted(map(re.escape, found), key=len, reverse=True)) + ")"))
    lemma = re.compile(r"(?<!\.)" + WORD.format("(" + "|".join(LEMMAS) + ")"))
    for path, text in whole.items():
        if path.suffix == ".antt":
            text = lemma.sub(lambda m: LEMMAS[m[1]], text)
        text = every.sub(lambda m: found[m[1]], text)
        text = re.sub(r"(specs\.)Contracts(?![\w'\-])", r"\1Promised", text)
        if path.name == "Lib.antt":
            text = re.sub(r"(?m)^((?:pub )?mod )Contracts$", r"\1Promised", text)
        if path.suffix == ".edit":
            text = re.sub(r"(?m)^(file: specs/)Contracts(\.antt)$", r"\1Promised\2", text)
        text = granted(path, text)
        path.write_text(text, encoding="utf-8")
    for path in CRATES.glob("*/specs/Contracts.antt"):
        path.rename(path.with_name("Promised.antt"))
    print(f"respell: {len(found)} names")


def granted(path, text):
    """`result`, where it is the constructor of Outcome: not behind a dot, in a comment, or as what a clause returns."""
    word = re.compile(r"(?<![\w'\-.`])result(?![\w'\-])")
    if path.suffix == ".antt":
        return "".join(line if line.lstrip().startswith("--") else word.sub("granted", line) for line in text.splitlines(keepends=True))
    if path.suffix == ".rt" and "ensures* " in text:
        if re.search(r"(?m)^ghost use Rattle\.gate\.specs\.Outcome\..*\bresult\b", text):
            text = "".join(line if line.lstrip().startswith("//") else word.sub("granted", line) for line in text.splitlines(keepends=True))
        text = plain(text)
    return text


def plain(text):
    """`ensures* { λ r. ⌜ P ⌝ }` as `ensures { P }`, with `result` for r."""
    def clause(m):
        name, fact = m[2], m[3].strip()
        if name != "_":
            fact = re.sub(WORD.format(re.escape(name)), "result", fact)
        return f"ensures{m[1]} {{ {fact} }}"

    return re.sub(r"ensures\*((?: \w+)?) \{ λ (\w+)\. ⌜((?:(?!⌜).)*?)⌝ \}", clause, text, flags=re.S)


if __name__ == "__main__":
    sys.exit(main())
