"""Which functions take the time of proofs, by what the prover writes on its way.

While it checks a crate, the prover writes a file for each module that it has checked into a folder of its own below TMPDIR. A check with
one job does one module after the other, so what lies between two files is what the later one took. A function has several:
  - `steps`: what it does from each place to the next, with all that is known there. It grows with the length of the function and with
    what is alive in it, by more than the one or the other, so that two functions take less than one that is as long as both;
  - `goals`: its goals, by search or by the answers that are written for them;
  - `rest`: its types and its contract.
What belongs to no function are definitions and lemmas. Nothing else rests on these files: where there are none, nothing is told.
"""
import os
import re
from collections import Counter, defaultdict

STEPS, GOALS, REST = "steps", "goals", "rest"
PARTS = {"Lts": STEPS, "Tie": STEPS, "Proof": GOALS, "Answers": GOALS, "Goals": GOALS, "Given": GOALS, "Invariants": GOALS}
WORDS = "|".join((*PARTS, "Layout", "Named", "Reads", "Kinds", "Code", "Symbol", "Key", "Met", "Statement", "View"))
MODULE = re.compile(rf"Rattle-\w+-(?:proofs|specs\.contracts)\.(.+?)\.({WORDS})(?:-(\w+))?(?:\.|$)")
FOLDER = re.compile(r"rattle-logic-built-\w+-(\d+)-\d+$")
LEAST, MOST = 8, 20  # so many seconds a function that is told takes at least, and so many are told


class Functions:
    """When each module of the checks that run below a folder was written, by crate."""

    def __init__(self, folder):
        self.folder, self.written = folder, defaultdict(dict)

    def look(self, crate_of):
        """Notes what was written since the last look. `crate_of` gives the crate that a process checks, or None."""
        for folder in os.scandir(self.folder):
            found = FOLDER.match(folder.name)
            crate = crate_of(int(found[1])) if found else None
            if not crate:
                continue
            known = self.written[crate]
            try:
                with os.scandir(folder.path) as modules:
                    known.update({it.name: it.stat().st_mtime for it in modules if it.name.endswith(".oantt") and it.name not in known})
            except OSError:
                pass  # the check has ended

    def seconds(self):
        """Returns the seconds of each function of each crate, by their parts."""
        found = defaultdict(Counter)
        for crate, modules in self.written.items():
            times = sorted((time, name[: -len(".oantt")]) for name, time in modules.items())
            for (before, _), (time, name) in zip(times, times[1:]):
                module = MODULE.match(name)
                if module:
                    function = ".".join(filter(None, (module[1], module[3])))
                    found[crate, function][PARTS.get(module[2], REST)] += time - before
        return found

    def table(self):
        """Returns the lines that tell the dearest functions, the dearest first, or none where nothing was seen."""
        rows = sorted(self.seconds().items(), key=lambda it: -sum(it[1].values()))
        dear = [it for it in rows if sum(it[1].values()) >= LEAST][:MOST]
        if not dear:
            return []
        lines = [f"{'seconds of a function':64}" + "".join(f"{it:>8}" for it in (STEPS, GOALS, REST, "all"))]
        for (crate, function), parts in dear:
            numbers = [*(parts[it] for it in (STEPS, GOALS, REST)), sum(parts.values())]
            lines.append(f"{f'{crate} {function}':64}" + "".join(f"{it:8.1f}" for it in numbers))
        return lines
