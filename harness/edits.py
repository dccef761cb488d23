"""The must-fail edits as changes: what harness/attacks.py, .ci/refusals and .ci/names read.

An edit file, crates/CRATE/must-fail/LABEL.edit, is tried by one check of its crate. It has one or more changes. To
rt a head is a comment, as every line that begins with '#', and what follows the heads is one edit:

    # change: NAME      what follows, up to the next head, is one wrong program
    # same: NAME        or one that means the same as the code, and must not be told from it
    # why               comments
    file: src/lib.rt    where
    old: TEXT           a text that stands there once, in one line
    new: TEXT           what takes its place; another pair may follow

A change is of one function, in src/, or of definitions, in specs/, some with a theorem of theirs, in proofs/. A
constant counts with the function that names it, where just one does. The changes of one file are of different functions, so each has a refusal of its
own to show; one of definitions stands alone.
"""

import pathlib
import re
from typing import NamedTuple, Optional

ROOT = pathlib.Path(__file__).resolve().parent.parent
CRATES = ROOT / "crates"
# The line that heads a change.
HEAD = re.compile(r"# (change|same): (\S+)")
# A function: the line that begins it, at the left margin, or four columns in where it is a type's method, to the brace that ends it there.
FUNCTION = re.compile(r'^( {4})?(?:pub )?(?:extern "C" )?fn (?P<name>\w+)[(<].*?^(?(1) {4})\}$', flags=re.M | re.S)
# What has the methods of a type.
METHODS = re.compile(r"^impl (?P<name>\w+) \{$.*?^\}$", flags=re.M | re.S)
# A constant or a static, likewise, to the semicolon that ends it.
CONSTANT = re.compile(r'^(?:pub )?(?:const|static) (?P<name>\w+): .*?;$', flags=re.M | re.S)


class Pair(NamedTuple):
    file: str
    old: str
    new: str


class Change(NamedTuple):
    crate: str
    label: str  # the file that it stands in
    name: str
    same: bool
    pairs: list

    @property
    def title(self):
        return f"{self.crate}/{self.name}"


def changes_of(path):
    """The changes of one edit file, in order, its lines read as rt reads them."""
    found, file, old = [], None, None
    for line in path.read_text(encoding="utf-8").splitlines():
        word, _, rest = line.partition(": ")
        if head := HEAD.fullmatch(line):
            found.append(Change(path.parent.parent.name, path.stem, head[2], head[1] == "same", []))
        elif word == "file":
            file = rest
        elif word == "old":
            old = rest
        elif line.startswith("new:") and found:
            found[-1].pairs.append(Pair(file, old, line[4:].removeprefix(" ")))
            old = None
    return found


def all_changes():
    return [change for path in sorted(CRATES.glob("*/must-fail/*.edit")) for change in changes_of(path)]


def source(crate, file):
    return (CRATES / crate / file).read_text(encoding="utf-8")


def functions(text):
    """The functions of a source, each with its name; a method's has its type in front."""
    types = list(METHODS.finditer(text))
    for m in FUNCTION.finditer(text):
        of = next((f"{t['name']}::" for t in types if t.start() < m.start() < t.end()), "")
        yield of + m["name"], m


def constants(text):
    for m in CONSTANT.finditer(text):
        yield m["name"], m


def item_at(items, text, old) -> Optional[str]:
    """Which of the functions or the constants of a source a text stands in."""
    at = text.index(old)
    return next((name for name, m in items(text) if m.start() <= at < m.end()), None)


def function_at(text, old) -> Optional[str]:
    """The function of a source that a text stands in, or that alone names the constant which it stands in."""
    constant = item_at(constants, text, old)
    if not constant:
        return item_at(functions, text, old)
    naming = [name for name, m in functions(text) if re.search(rf"\b{constant}\b", m[0])]
    return naming[0] if len(naming) == 1 else None


def functions_of(change):
    """The functions that a change of code is of, with their module in front; None stands for what is in no function."""
    names = set()
    for pair in change.pairs:
        name, module = function_at(source(change.crate, pair.file), pair.old), pathlib.Path(pair.file).stem
        names.add(name if name is None or module == "lib" else f"{module}::{name}")
    return names


def function_of(change) -> Optional[str]:
    """The function that a change is of; none for definitions."""
    return functions_of(change).pop() if change.pairs[0].file.startswith("src/") else None


def edited(text, pairs):
    for pair in pairs:
        text = text.replace(pair.old, pair.new)
    return text


def faults(change):
    """What is wrong with a change by itself."""
    folders = {pair.file.split("/")[0] for pair in change.pairs if pair.file}
    if not change.pairs or folders not in ({"src"}, {"specs"}, {"specs", "proofs"}):
        return ["it is not of files in src/ alone, or of specs/, and proofs/ beside it"]
    stale = [f"'{pair.old}' does not stand once in {pair.file}" for pair in change.pairs
             if not pair.old or source(change.crate, pair.file).count(pair.old) != 1]
    if stale or "specs" in folders:
        return stale
    functions = functions_of(change)
    return [] if len(functions) == 1 and None not in functions else ["it is not of one function"]


def misfits():
    """What is wrong with the edit files themselves."""
    wrong, titles = [], set()
    for path in sorted(CRATES.glob("*/must-fail/*")):
        place, changes = path.relative_to(CRATES), changes_of(path) if path.suffix == ".edit" else []
        if not changes or sum(len(change.pairs) for change in changes) != path.read_text(encoding="utf-8").count("\nold: "):
            wrong.append(f"{place}: not a list of changes, each with its pairs of 'old:' and 'new:'")
        unsound = [f"{change.title}: {why}" for change in changes for why in faults(change)]
        wrong += unsound + [f"{change.title}: stands twice" for change in changes if change.title in titles]
        titles |= {change.title for change in changes}
        functions = [] if unsound else [function_of(change) for change in changes]
        if len(functions) > 1 and (None in functions or len(set(functions)) < len(functions)):
            wrong.append(f"{place}: its changes are not of different functions")
    return wrong
