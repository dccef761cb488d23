"""Tries must-fail changes, for .ci/refusals: checks of their crates with the changes made, in scratch copies of the repository, side by side.

What the checker says of a try stands in target/must-fail/CRATE/NAME.log. NAME is that of the file of changes, or FILE+CHANGE where a change is tried
alone. Each try begins with what a check of the crate as it stands has proved, the seed, so that only what
changed is checked. A try of functions checks these and what they call, one of definitions the whole crate.

The names of a function's goals and steps come from its code: `returns-then-len-lt6` is asked where its test is len < 6. A change of a test renames
them, and the function's answers would speak of what is not there, which says nothing of the change. So in the scratch copy its answers get the names
of the changed code, where this has as many of each kind as the code as it stands; where it has not, they stay.
"""

import itertools
import json
import os
import pathlib
import queue
import re
import shutil
import subprocess
import tempfile
import threading
import time
from typing import NamedTuple

import edits

LOGS = edits.ROOT / "target" / "must-fail"
# A check's own last line, or the words for a limit of the checker: without one of these it was cut off.
ENDED = re.compile(r"^(?:logic=|only=|rattle: no verdict)", flags=re.M)
# What goals and steps are named by: tests, arms, calls and locals.
FIRST = -1000
NAMING = re.compile(r"\b(?:if|while|match)\b([^{]*)|(.*?)=>|\b(\w+)\(|\blet (?:mut )?(\w+)")


class Try(NamedTuple):
    crate: str
    name: str
    changes: list
    fitted: bool  # whether the answers get the names of the changed code

    @property
    def texts(self):
        """The changed files, by their paths in the crate."""
        texts = {}
        for pair in [pair for change in self.changes for pair in change.pairs]:
            texts[pair.file] = edits.edited(texts.get(pair.file) or edits.source(self.crate, pair.file), [pair])
        return texts

    @property
    def path(self):
        return LOGS / self.crate / f"{self.name}.log"

    @property
    def log(self):
        """What the checker said. A message may go on in lines that are set in: they follow after a tab."""
        return re.sub(r"\n +", "\t", self.path.read_text(encoding="utf-8")).splitlines() if self.path.is_file() else []


def together(changes):
    """The try of the changes of one file. Asking for names takes seconds, so it is done where one is likely to have changed."""
    pairs = [pair for change in changes for pair in change.pairs if pair.file.startswith("src/")]
    return Try(changes[0].crate, changes[0].label, changes, any(NAMING.findall(pair.old) != NAMING.findall(pair.new) for pair in pairs))


def alone(change):
    return Try(change.crate, f"{change.label}+{change.name}", [change], True)


def names_by_kind(of_function):
    """Today's names of a function's goals, places, steps and loops."""
    places = of_function["places"]
    return [[need[1] for need in of_function["needs"]], of_function["places_by_name"], [place[2][1] for place in places],
            [loop[0][1] for loop in of_function["loops"]]]


def renamed(text, before, after):
    """A proof's text with the names of the changed code, all at once; as it is where these are not as many."""
    kinds = list(zip(names_by_kind(before), names_by_kind(after)))
    if any(len(was) != len(now) for was, now in kinds):
        return text
    new = {}
    for one, other in [pair for was, now in kinds for pair in zip(was, now)]:
        new.setdefault(one, other)
    new = {one: other for one, other in new.items() if one and one != other}
    words = "|".join(map(re.escape, sorted(new, key=len, reverse=True)))
    # A loop's name stands in those of its invariant and its measure too, and a goal's before that of a clause.
    whole = rf"(?<![\w-])((?:the-)?(?:invariant-|decreases-)?)({words})(?!\w|-(?!clause-))"
    return re.sub(whole, lambda m: m[1] + new[m[2]], text) if new else text


def linked(folder, to):
    """A copy of kept work, by links: a check puts a new file in the place of one that it makes anew."""
    shutil.rmtree(to, ignore_errors=True)
    shutil.copytree(folder, to, copy_function=lambda one, other: (os.link if one.endswith(".oantt") else shutil.copy2)(one, other))


class Room:
    """A scratch copy of the repository's crates."""

    def __init__(self, at, seeds):
        self.at, self.seeds = at, seeds
        shutil.copytree(edits.CRATES, at / "crates", ignore=shutil.ignore_patterns("out", "must-fail"))
        shutil.copy2(edits.ROOT / "crates.txt", at)

    def rt(self, crate, *flags):
        """What `rt check` says; once more where it was cut off."""
        for _ in range(2):
            ran = subprocess.run(["rt", "check", *flags], cwd=self.at / "crates" / crate, stdin=subprocess.DEVNULL, stdout=subprocess.PIPE,
                                 stderr=subprocess.STDOUT, encoding="utf-8", errors="replace")
            if ENDED.search(ran.stdout) or "--generated" in flags and ran.returncode == 0:
                break
        return ran.stdout

    def names(self, crate):
        """The names of goals and steps, by function, of the crate as it stands in this room; none where rt does not say."""
        with tempfile.TemporaryDirectory(dir=self.at) as out:
            self.rt(crate, "--generated", out, "--old-names")
            path = pathlib.Path(out) / "names.json"
            return json.loads(path.read_text(encoding="utf-8")) if path.is_file() else {}

    def prove(self, crate):
        """Checks the crate as it stands, keeps that as the seed of its tries, and says whether it is proved."""
        said = self.rt(crate, "--jobs", "1")
        (LOGS / crate).mkdir(parents=True, exist_ok=True)
        (LOGS / crate / "as-it-stands.log").write_text(said, encoding="utf-8")
        is_proved = bool(re.search(r"^logic=proved ", said, flags=re.M))
        if is_proved:
            linked(self.at / "crates" / crate / "out" / "incremental", self.seeds / crate)
        return is_proved

    def fit(self, tried, before):
        """The proof files that get other names, as texts by their paths in the crate."""
        texts, after = {}, self.names(tried.crate)
        for change in tried.changes:
            *modules, name = (edits.function_of(change) or "").split("::")
            key_of = re.compile(rf"Rattle-{tried.crate}-proofs\.{''.join(f'{it}[.]' for it in modules)}(?:{name}\.Lts|(\+\w+)\.Lts-{name})")
            for key, folder in [(key, "/".join(["proofs", *modules, m[1] or name])) for key in before if (m := key_of.fullmatch(key))]:
                for path in sorted((edits.CRATES / tried.crate / folder).glob("*.antt")) if key in after else []:
                    was = path.read_text(encoding="utf-8")
                    now = renamed(was, before[key], after[key])
                    if now != was:
                        texts[f"{folder}/{path.name}"] = now
        return texts

    def write(self, crate, texts):
        for path, text in texts.items():
            (self.at / "crates" / crate / path).write_text(text, encoding="utf-8")

    def make(self, tried, names):
        """Makes a try, and leaves the copy as it was. names: gives those of the crate as it stands."""
        crate, texts = tried.crate, tried.texts
        functions = [edits.function_of(change) for change in tried.changes]
        only = [] if None in functions else [word for it in functions for word in ("--only", f"{crate}::{it}")]
        linked(self.seeds / crate, self.at / "crates" / crate / "out" / "incremental")
        try:
            before = names(self, crate) if tried.fitted and only else {}
            self.write(crate, texts)
            if before:
                texts.update(self.fit(tried, before))
                self.write(crate, texts)
            said = self.rt(crate, "--jobs", "1", *only)
        finally:
            self.write(crate, {path: edits.source(crate, path) for path in texts})
            shutil.rmtree(self.at / "crates" / crate / "out" / "incremental", ignore_errors=True)
        tried.path.write_text(said, encoding="utf-8")


class Bench:
    """Makes tries, as many at once as there are processors, each in a room of its own."""

    def __init__(self, changes, told):
        """told: is told of each try that was made, and gives those that are to follow; also of one whose crate is not proved as it stands."""
        self.told, self.files, self.known = told, {}, {}
        for change in changes:
            self.files.setdefault(change.crate, {}).setdefault(change.label, []).append(change)
        self.jobs, self.number, self.error, self.one_at_a_time = queue.PriorityQueue(), itertools.count(), None, threading.Lock()
        self.count, self.seconds = 0, 0.0

    def put(self, rank, job, what):
        self.jobs.put((rank, next(self.number), job, what))

    def names(self, room, crate):
        """The names of a crate as it stands, asked for once."""
        if crate not in self.known:
            self.known[crate] = room.names(crate)
        return self.known[crate]

    def begin(self, room, crate):
        """Proves a crate as it stands. Its tries come after all crates, those of many changes first, since they take longest."""
        is_proved = room.prove(crate)
        with self.one_at_a_time:
            for tried in [together(changes) for changes in self.files[crate].values()]:
                if is_proved:
                    self.put(-len(tried.changes), self.make, tried)
                else:
                    self.told(tried)

    def make(self, room, tried):
        """Makes a try; those that follow it come next."""
        began = time.monotonic()
        room.make(tried, self.names)
        with self.one_at_a_time:
            self.count, self.seconds = self.count + 1, self.seconds + time.monotonic() - began
            for more in self.told(tried):
                self.put(FIRST, self.make, more)

    def work(self, at, seeds):
        room = None
        while True:
            _, _, job, what = self.jobs.get()
            try:
                room = room or Room(at, seeds)
                if not self.error:
                    job(room, what)
            except Exception as error:
                self.error = error
            finally:
                self.jobs.task_done()

    def run(self):
        """Proves the crates, lower ones first, and makes their tries and what follows."""
        order = re.findall(r"^(\w+)(?: \w+)*:", (edits.ROOT / "crates.txt").read_text(encoding="utf-8"), flags=re.M)
        for crate in sorted(self.files, key=order.index):
            shutil.rmtree(LOGS / crate, ignore_errors=True)
            self.put(FIRST, self.begin, crate)
        with tempfile.TemporaryDirectory(prefix="refusals-") as at:
            rooms = pathlib.Path(at)
            (rooms / "seeds").mkdir()
            for number in range(os.cpu_count() or 1):
                threading.Thread(target=self.work, args=(rooms / str(number), rooms / "seeds"), daemon=True).start()
            self.jobs.join()
        if self.error:
            raise self.error
