"""Runs `rt ci`, passes on what it says, and measures what each crate costs it.

    python3 .ci/seconds.py FOLDER

FOLDER gets two files: `last`, the last line, and `seconds`, a table of processor seconds: crate by crate those of its
proof, of its tests (they are proved with the crate once more, and run) and of its must-fail edits, the dearest first; and
behind it the dearest functions, as functions.py tells them, where FOLDER is also where checks write (TMPDIR). Where
processors share what they work with, among themselves or with other machines, the same work takes more of their seconds. So
a loop that is the same each time runs every ten seconds, and a last line says how long it took at its fastest and in the mean.
The status is that of `rt ci`. It says nothing of the kind itself, so its checks are looked at twice a second in /proc.
Told to stop, this ends the checks that run, and waits until `rt ci` has put back what it had set aside.
"""
import glob
import os
import re
import signal
import subprocess
import sys
import threading
import time

sys.dont_write_bytecode = True  # (nothing is left beside these)
from functions import Functions  # noqa: E402

TICKS = os.sysconf("SC_CLK_TCK")
PARTS = ("proof", "tests", "edits")
LOOKS = 20  # so many looks, of half a second, from one loop that is measured to the next
MODULES = 4  # so many from one look at what proofs have written to the next


def loop_milliseconds():
    """Returns the processor milliseconds of a loop that is the same each time."""
    begun, table = time.thread_time(), {}
    for number in range(30_000):
        table[number * 7919 % 65_521] = number
    return (time.thread_time() - begun) * 1000


def speed(loops, seconds):
    """Returns the line that says how fast the processors were, and what these seconds would be at their fastest."""
    fastest, mean = min(loops), sum(loops) / len(loops)
    at_fastest = f"{seconds:.0f} seconds would be {seconds * fastest / mean:.0f} where it always took as long as at its fastest"
    return f"a loop took {fastest:.1f} ms at its fastest and {mean:.1f} in the mean of {len(loops)}: {at_fastest}"


class Process:
    """A process as /proc tells of it: its seconds with those of its children that have ended."""

    def __init__(self, number):
        with open(f"/proc/{number}/stat", encoding="utf-8", errors="replace") as it:
            fields = it.read().rpartition(")")[2].split()
        self.number, self.started = number, int(fields[19])
        self.seconds = sum(map(int, fields[11:15])) / TICKS

    def words(self):
        with open(f"/proc/{self.number}/cmdline", encoding="utf-8", errors="replace") as it:
            return it.read().split("\0")[:-1]

    def folder(self):
        return os.path.basename(os.readlink(f"/proc/{self.number}/cwd"))


def children(number):
    """Returns the processes that a process has started, by its threads, as /proc lists them."""
    found = []
    for thread in glob.glob(f"/proc/{number}/task/*/children"):
        try:
            with open(thread, encoding="utf-8") as it:
                numbers = it.read().split()
        except OSError:
            continue
        for child in map(int, numbers):
            try:
                found.append(Process(child))
            except (OSError, IndexError, ValueError):
                pass  # it has ended
    return found


def whole(process):
    """Returns the seconds of a process and of all that it has started."""
    return process.seconds + sum(map(whole, children(process.number)))


def part_of(process):
    """Returns the crate and the part of its cost that a process which `rt ci` has started belongs to, or None."""
    try:
        words, folder = process.words(), process.folder()
    except OSError:
        return None
    if words and os.path.basename(words[0]) == "rattle" and "--crate-name" in words:
        crate = words[words.index("--crate-name") + 1]
        # an edit is checked on a copy of the crate, and the tests are built by a command of their own
        return crate, "edits" if folder.startswith("rt-edit-") else "tests" if "--test" in words else "proof"
    runs = [re.search(r"/(\w+)_tests$", it) for it in words]
    return next(((it[1], "tests") for it in runs if it), None)


class Costs:
    """The seconds of each process that `rt ci` has started, by what it was for."""

    def __init__(self, started):
        self.started, self.begun, self.of_process, self.parts, self.ended = started, time.time(), {}, {}, {}

    def look(self):
        for it in children(self.started):
            key = it.number, it.started
            # (a check is another program for the moment in which it starts)
            self.parts[key] = self.parts.get(key) or part_of(it)
            if self.parts[key]:
                self.of_process[key] = whole(it)
                self.ended[self.parts[key][0]] = time.time() - self.begun

    def crate_of(self, number):
        """Returns the crate that is proved by the process of this number, or None."""
        parts = (part for (other, _), part in self.parts.items() if part and other == number)
        return next((crate for crate, part in parts if part == "proof"), None)

    def table(self):
        """Returns the lines of the table, the dearest crate first."""
        crates = {}
        for key, seconds in self.of_process.items():
            crate, part = self.parts[key]
            crates.setdefault(crate, dict.fromkeys(PARTS, 0))[part] += seconds
        rows = sorted(crates.items(), key=lambda it: -sum(it[1].values()))
        rows.append(("all", {part: sum(it[part] for it in crates.values()) for part in PARTS}))
        lines = [f"{'processor seconds':18}" + "".join(f"{it:>8}" for it in (*PARTS, "all")) + "   ended after"]
        for crate, costs in rows:
            ended = self.ended.get(crate, max(self.ended.values(), default=0))
            numbers = [*(costs[it] for it in PARTS), sum(costs.values())]
            lines.append(f"{crate:18}" + "".join(f"{it:8.0f}" for it in numbers) + f"{ended / 60:10.1f} min")
        return lines


def end(running):
    """Ends the checks of `rt ci`, so that it stops soon and puts back what it had set aside."""
    for it in (signal.SIGINT, signal.SIGTERM, signal.SIGHUP):
        signal.signal(it, signal.SIG_IGN)
    threading.Thread(target=running.stdout.read, daemon=True).start()
    running.send_signal(signal.SIGINT)
    while running.poll() is None:
        for it in children(running.pid):
            if part_of(it):
                try:
                    os.kill(it.number, signal.SIGKILL)
                except OSError:
                    pass
        time.sleep(0.1)


def main(folder):
    def told_to_stop(number, _):
        raise SystemExit(128 + number)

    # (set first, so that `rt ci` doesn't start with a signal ignored)
    for it in (signal.SIGINT, signal.SIGTERM, signal.SIGHUP):
        signal.signal(it, told_to_stop)
    how = {"stdin": subprocess.DEVNULL, "stdout": subprocess.PIPE, "stderr": subprocess.STDOUT, "start_new_session": True}
    running = subprocess.Popen(["rt", "ci"], text=True, errors="replace", **how)
    stop, costs, functions = threading.Event(), Costs(running.pid), Functions(folder)
    last, loops = "", [loop_milliseconds()]

    def look():
        looks = 0
        while not stop.wait(0.5):
            costs.look()
            looks += 1
            if looks % MODULES == 0:
                functions.look(costs.crate_of)
            if looks % LOOKS == 0:
                loops.append(loop_milliseconds())

    looking = threading.Thread(target=look, daemon=True)
    looking.start()
    try:
        for last in running.stdout:
            print(last, end="", flush=True)
        status = running.wait()
    except SystemExit:
        stop.set()
        end(running)
        raise
    stop.set()
    looking.join()
    with open(f"{folder}/last", "w", encoding="utf-8") as it:
        it.write(last)
    with open(f"{folder}/seconds", "w", encoding="utf-8") as it:
        it.writelines(line + "\n" for line in (*costs.table(), *functions.table()))
        it.write(speed(loops, sum(costs.of_process.values())) + "\n")
    return status if status >= 0 else 128 - status


if __name__ == "__main__":
    sys.exit(main(sys.argv[1]))
