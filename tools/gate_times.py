#!/usr/bin/env python3
"""Tells where the time of the gate goes: gate_times.py [COMMAND..]

Runs the command, which is `rt ci` where none is given, and looks twice a second at the processes of the checker that it
starts. At the end it prints, for each crate, the seconds from the first to the last process and the processor seconds of
its proof, of its tests and of its must-fail edits, and then the sums. It ends with the command's status.
"""

import os
import pathlib
import subprocess
import sys
import threading
import time

TICKS = os.sysconf("SC_CLK_TCK")
KINDS = ("proof", "tests", "edits")


def kind_of(words, folder):
    """What a process of the checker does: it tries an edit in a copy of the crate, or proves a crate or its tests."""
    if "/rt-edit-" in folder:
        return "edits"
    return "tests" if "--test" in words else "proof"


def fields_of(place):
    """The fields of a process behind its name: its state, its parent, and further on its times."""
    return (place / "stat").read_text().rsplit(")", 1)[1].split()


def own_processes():
    """The folders of the processes below this one, so that nothing is counted that others run meanwhile."""
    parents = {}
    for place in pathlib.Path("/proc").glob("[0-9]*"):
        try:
            parents[int(place.name)] = int(fields_of(place)[1])
        except (OSError, IndexError, ValueError):
            continue
    for process in parents:
        above = process
        while above in parents and above != os.getpid():
            above = parents[above]
        if above == os.getpid() and process != above:
            yield pathlib.Path("/proc", str(process))


def checkers():
    """The processes of the checker: what names each, the crate, what it does, and its processor seconds so far."""
    for place in own_processes():
        try:
            words = (place / "cmdline").read_bytes().decode().split("\0")
            if os.path.basename(words[0]) != "rattle" or "--crate-name" not in words:
                continue
            crate = words[words.index("--crate-name") + 1]
            fields = fields_of(place)
            key = (place.name, fields[19])
            seconds = sum(map(int, fields[11:15])) / TICKS
            yield key, crate, kind_of(words, os.readlink(place / "cwd")), seconds
        except (OSError, IndexError, ValueError):
            continue


class Watch:
    """What was seen of each process: its crate, what it did, its processor seconds, and when it was seen first and last."""

    def __init__(self):
        self.seen = {}
        self.over = threading.Event()

    def look(self):
        now = time.monotonic()
        for key, crate, kind, seconds in checkers():
            first = self.seen[key][3] if key in self.seen else now
            self.seen[key] = (crate, kind, seconds, first, now)

    def run(self):
        while not self.over.wait(0.5):
            self.look()

    def table(self):
        """For each crate and kind the seconds from the first process to the last, and the processor seconds."""
        rows = {}
        for crate, kind, seconds, first, last in self.seen.values():
            start, end, sum_of = rows.get((crate, kind), (first, last, 0))
            rows[crate, kind] = (min(start, first), max(end, last), sum_of + seconds)
        return {key: (end - start, seconds) for key, (start, end, seconds) in rows.items()}


def print_table(table):
    print("| Crate | " + " | ".join(f"{kind}: wall, processor" for kind in KINDS) + " |")
    print("|---|" + "---|" * len(KINDS))
    for crate in sorted({crate for crate, _ in table}):
        cells = [table.get((crate, kind)) for kind in KINDS]
        print(f"| `{crate}` | " + " | ".join(f"{it[0]:.0f} s, {it[1]:.0f} s" if it else "" for it in cells) + " |")
    for kind in KINDS:
        print(f"{kind}: {sum(it[1] for key, it in table.items() if key[1] == kind) / 60:.0f} processor minutes")


def main(words):
    if words in (["-h"], ["--help"]):
        print(__doc__.strip())
        return 0
    watch = Watch()
    thread = threading.Thread(target=watch.run)
    thread.start()
    start = time.monotonic()
    try:
        status = subprocess.run(words or ["rt", "ci"]).returncode
    finally:
        watch.over.set()
        thread.join()
    print_table(watch.table())
    print(f"{(time.monotonic() - start) / 60:.1f} minutes in all")
    return status


if __name__ == "__main__":
    sys.exit(main(sys.argv[1:]))
