"""Tries the edits of crates/NAME/edits/, many in one check. Each is a wrong body that the prover must refuse.

An edit has the form of one in must-fail/: `file: PATH`, and then pairs of `old: TEXT` and `new: TEXT`.

A proof stands on the contracts of what a function calls, not on their bodies. So one check can try an edit in each of
many functions: a round. Such an edit is refused where the prover reports a goal of the edited function itself as open;
that a function which it calls isn't proved doesn't count. What isn't refused so is tried again:
  - an edit that showed no open goal in its function, as where the prover waits for the proof of a function below it,
    with others of the kind, and alone once a round shows nothing more;
  - a round in which a function without an edit has an open goal, by halves;
  - an edit that changes anything but the body of one function, as a constant, alone.
An edit alone is refused where the crate isn't proved and a goal is open. Otherwise it is told as let through.
"""
import os
import re
import shutil
import signal
import subprocess
import sys
import tempfile
import time
from collections import defaultdict, namedtuple

# The body of a function: where it lies in the text of its file, and how its reports begin.
Body = namedtuple("Body", "start end type_name trait_name name")
# A report on one function; the goals in it that are open; an answer that doesn't prove its goal. The functions of a ring of
# calls have one folder of answers, whose name begins with +, and their goals begin with the function's name.
FUNCTION = re.compile(r"^fn (\S+): (?!proved)(.*)$", re.M)
OPEN_GOALS = re.compile(r"expected answers in (?:\./)?proofs/(\S+)/\w+\.antt; `search` did not prove ((?:`[^`]+`(?:, | and )?)+)")
WRONG_ANSWER = re.compile(r"^(?:\./)?proofs/(\S+?)(?:/(?:Answers|Invariants|Proof))?\.antt:\d+:\d+: error: (.*)$", re.M)
# What the prover says where a proof names what an edit took away: that shows nothing of the contract.
TAKEN_AWAY = re.compile(r"has no field|is not in scope|has no `|was not admitted")
ERROR = re.compile(r"^\S+:\d+:\d+: error.*$", re.M)


class BadEdit(Exception):
    """An edit that can't be applied."""


class Edit:
    """One wrong body: the texts of the files that it changes, and the function whose body it changes, if it is one."""

    def __init__(self, path, folder):
        self.name = os.path.basename(path)[: -len(".edit")]
        self.before, self.after = {}, {}
        with open(path, encoding="utf-8") as lines:
            self.apply(lines.read().split("\n"), folder)
        self.file = next(iter(self.after)) if len(self.after) == 1 else None
        self.body = self.changed_body() if self.file else None

    def apply(self, lines, folder):
        file = old = None
        for line in lines:
            word, _, text = line.partition(":")
            text = text[1:] if text.startswith(" ") else text
            if word == "file":
                file = text.strip()
            elif word == "old":
                old = text
            elif word == "new" and file and old:
                if file not in self.after:
                    with open(f"{folder}/{file}", encoding="utf-8") as source:
                        self.before[file] = self.after[file] = source.read()
                if self.after[file].count(old) != 1:
                    raise BadEdit(f"an `old:` text stands in {file} {self.after[file].count(old)} times")
                self.after[file] = self.after[file].replace(old, text)
                old = None
        if not self.after:
            raise BadEdit("it has no pair of `old:` and `new:`")

    def changed_body(self):
        """Returns the body that holds all that the edit changes, or None."""
        before, after = self.before[self.file], self.after[self.file]
        start = len(os.path.commonprefix([before, after]))
        same = len(os.path.commonprefix([before[start:][::-1], after[start:][::-1]]))
        end = len(before) - same
        return next((it for it in bodies(before) if it.start <= start and end <= it.end), None)

    def key(self):
        return self.file, self.body.start

    def new_body(self):
        added = len(self.after[self.file]) - len(self.before[self.file])
        return self.after[self.file][self.body.start : self.body.end + added]


def bodies(text):
    """Yields the body of each function of a source file in the layout of `rt fmt`, where an item ends at its own indent."""
    impl = re.compile(r"^( *)impl(?:<[^>]*>)? (?:(\w+)\S* for )?(\w+)", re.M)
    owners = [(it.start(), closing(text, it[1], it.end()), it[3], it[2]) for it in impl.finditer(text)]
    heads = [*re.finditer(r"^( *)(?:pub(?:\([^)]*\))? )?(?:const |final |unsafe )*fn (\w+)", text, re.M)]
    for found, after in zip(heads, [*(it.start() for it in heads[1:]), len(text)]):
        # a contract stands between the head and a line that is a brace alone; without one the head ends in a brace
        opens = re.compile(rf"^{found[1]}(?:\S.*)?\{{$", re.M).search(text, found.start(), after)
        owner = [it[2:] for it in owners if it[0] < found.start() < it[1]] or [(None, None)]
        if opens:
            yield Body(opens.end(), closing(text, found[1], opens.end()), *owner[-1], found[2])


def closing(text, indent, start):
    found = re.compile(rf"^{indent}\}}", re.M).search(text, start)
    return found.start() if found else len(text)


def is_of(path, edit):
    """Returns whether a reported function is the edited one, or a closure in it."""
    body, parts = edit.body, path.split("::")
    module = [it for it in edit.file[len("src/") : -len(".rt")].split("/") if it not in ("lib", "main", "mod")]
    while "fn" in parts:
        # a closure: CRATE::MODULE::fn::[TYPE::]NAME::CLOSURE
        at = parts.index("fn")
        parts = parts[:at] + parts[at + 1 : -1]
    if parts[-1] != body.name:
        return False
    if body.type_name:
        # methods are reported below their type, which may stand in another module
        owner = body.type_name + (body.trait_name or "")
        return len(parts) > 2 and (parts[-2].startswith(owner) if body.trait_name else parts[-2] == owner)
    return parts[1:-1] == module


class Trial:
    """A copy of a crate, beside the built libraries below it, on which rounds of edits are checked."""

    def __init__(self, crate, below, room):
        self.folder = f"{room}/crates/{crate}"
        for name in below:
            shutil.copytree(f"crates/{name}", f"{room}/crates/{name}", copy_function=link, ignore=skipped("incremental"))
        shutil.copytree(f"crates/{crate}", self.folder, ignore=skipped("rlib"))
        with open("crates.txt", encoding="utf-8") as lines, open(f"{room}/crates.txt", "w", encoding="utf-8") as kept:
            kept.writelines(it for it in lines if re.match(r"\w*", it)[0] in (crate, *below))

    def check(self, texts):
        """Returns what `rt check` says of the crate with these texts in place of its own."""
        own = {}
        for file, text in texts.items():
            with open(f"{self.folder}/{file}", encoding="utf-8") as source:
                own[file] = source.read()
            write(f"{self.folder}/{file}", text)
        ran = subprocess.run(["rt", "check"], cwd=self.folder, stdin=subprocess.DEVNULL, stdout=subprocess.PIPE, stderr=subprocess.STDOUT, errors="replace")
        for file, text in own.items():
            write(f"{self.folder}/{file}", text)
        return ran.stdout

    def try_together(self, edits):
        """Tries a round. Returns the open goal of each edit that is refused in it, by the edit's name, or None where
        a function without an edit has an open goal, so that the round tells nothing."""
        texts = {}
        for edit in sorted(edits, key=Edit.key, reverse=True):
            text = texts.get(edit.file, edit.before[edit.file])
            texts[edit.file] = text[: edit.body.start] + edit.new_body() + text[edit.body.end :]
        said = self.check(texts)
        found = open_goals(said) if re.search(r"^logic=not-proved", said, re.M) else {}
        if any(not any(is_of(path, it) for it in edits) for path in found):
            return None
        return {it.name: goal for it in edits for path, goal in found.items() if is_of(path, it)}

    def try_alone(self, edit):
        """Tries one edit. Returns whether it is refused, and what there is to say."""
        said = self.check(edit.after)
        found = open_goals(said)
        if re.search(r"^logic=not-proved", said, re.M) and found:
            own = [it for it in found if edit.body and is_of(it, edit)]
            return True, " ".join([*own, *found][:1]) + ": " + [*map(found.get, own), *found.values()][0]
        if re.search(r"^logic=proved", said, re.M):
            return False, "LET THROUGH: the crate is still proved"
        # the text can't be read, or a proof names what the edit took away
        error = ERROR.search(said)
        return False, f"BAD EDIT: no goal is open: {(error[0] if error else said.strip())[:300]}"


def open_goals(said):
    """Returns the first open goal of each function that has one of its own, by the function's name in the report."""
    unproved, found = dict(FUNCTION.findall(said)), {}

    def add(folder, goal, text):
        ring = os.path.basename(folder).startswith("+")
        name = re.split(r"[-`]", goal.strip("`"))[0].split("::")[-1]
        own = [it for it in unproved if (it.split("::")[-1] == name if ring else it.partition("::")[2] == folder.replace("/", "::"))]
        for path in own or [folder]:
            found.setdefault(path, text)

    for folder, text in WRONG_ANSWER.findall(said):
        if not TAKEN_AWAY.search(text):
            add(folder, text, text[:120])
    for text in unproved.values():
        for folder, goals in OPEN_GOALS.findall(text):
            for goal in re.findall(r"`[^`]+`", goals):
                add(folder, goal, goal)
    return found


def rounds_of(edits):
    """Returns lists of edits, at most one a function in each."""
    by_function = defaultdict(list)
    for edit in edits:
        by_function[edit.key()].append(edit)
    most = max(map(len, by_function.values()), default=0)
    return [[it[number] for it in by_function.values() if number < len(it)] for number in range(most)]


def try_rounds(trial, edits, told):
    """Tries edits of bodies together, and tells of those that are refused. Returns the others, and the rounds."""
    groups, again, left, rounds = rounds_of(edits), [], [], 0
    while groups:
        group = groups.pop(0)
        refused = {}
        if len(group) > 1:
            rounds, refused = rounds + 1, trial.try_together(group)
        if refused is None:
            half = len(group) // 2
            groups = [group[:half], group[half:], *groups]
        else:
            for name, goal in refused.items():
                told(name, f"refused: {goal}")
            # a round that shows nothing shows no more the next time
            (again if refused else left).extend(it for it in group if it.name not in refused)
        if not groups:
            groups, again = rounds_of(again), []
    return left, rounds


def try_crate(crate, below):
    """Tries the edits of a crate. Returns how many were tried, how many of them weren't refused, and the rounds."""
    folder, edits, failed, start = f"crates/{crate}", [], 0, time.time()

    def told(name, what):
        print(f"{crate}/{name}: {what}", flush=True)

    for file in sorted(it for it in os.listdir(f"{folder}/edits") if it.endswith(".edit")):
        try:
            edits.append(Edit(f"{folder}/edits/{file}", folder))
        except (BadEdit, OSError) as error:
            failed += 1
            told(file, f"BAD EDIT: {error}")
    # over what the crate's own check keeps, a round proves little more than the edited functions
    if subprocess.run(["rt", "check"], cwd=folder, stdout=subprocess.DEVNULL, stderr=subprocess.DEVNULL).returncode:
        print(f"{crate}: it isn't proved as it stands, so no edit is tried", flush=True)
        return len(edits) + failed, len(edits) + failed, 0
    begun = time.time()
    with tempfile.TemporaryDirectory(prefix="edits-") as room:
        trial = Trial(crate, below, room)
        left, rounds = try_rounds(trial, [it for it in edits if it.body], told)
        for edit in [*left, *(it for it in edits if not it.body)]:
            is_refused, why = trial.try_alone(edit)
            rounds, failed = rounds + 1, failed + (not is_refused)
            told(edit.name, ("refused, alone: " if is_refused else "") + why)
    took = f"{time.time() - begun:.0f} s, after a check of {begun - start:.0f} s"
    print(f"{crate}: {len(edits)} edits in {rounds} rounds, {failed} not refused, {took}", flush=True)
    return len(edits), failed, rounds


def crates_and_below():
    """Returns the crates of crates.txt, each with the crates that it stands on."""
    rows = {}
    with open("crates.txt", encoding="utf-8") as lines:
        for line in lines:
            head, _, names = line.partition("#")[0].partition(":")
            if head.strip():
                rows[head.split()[0]] = names.replace(",", " ").split()

    def below(crate):
        own = [it for it in rows[crate] if it in rows]
        return {*own, *(deep for it in own for deep in below(it))}

    return {it: sorted(below(it)) for it in rows}


def link(file, to):
    """Copies a file that no check writes to, as a second name of it where that can be."""
    try:
        os.link(file, to)
    except OSError:
        shutil.copy2(file, to)


def skipped(part):
    """Leaves out what a check of a copy doesn't read: edits, and one part of what is kept in out/."""
    return lambda at, names: [it for it in names if it in ("must-fail", "edits", part) or os.path.basename(at) == "out" and it not in ("rlib", "incremental")]


def write(file, text):
    with open(file, "w", encoding="utf-8") as to:
        to.write(text)


def main(names):
    # so that a copy goes, and its check ends, also where this is told to stop
    signal.signal(signal.SIGTERM, lambda number, _: sys.exit(128 + number))
    crates = crates_and_below()
    unknown = [it for it in names if it not in crates]
    if unknown:
        sys.exit(f"no crate is named {' or '.join(unknown)}")
    chosen = [it for it in crates if os.path.isdir(f"crates/{it}/edits") and (not names or it in names)]
    figures = [try_crate(it, crates[it]) for it in chosen]
    tried, failed, rounds = (sum(it[at] for it in figures) for at in range(3))
    print(f"{tried} edits in {rounds} rounds, {failed} not refused")
    return 1 if failed else 0


if __name__ == "__main__":
    sys.exit(main(sys.argv[1:]))
