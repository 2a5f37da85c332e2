#!/usr/bin/env python3
"""Runs the built program on each input, checks each answer, and prints a table of times and peak memory.

    run.py

It asserts nothing: an answer that is no certificate, as that of `straighten`, is refused by `check`, and this is the
verdict that is printed. `./whitehead` builds the program.
"""

import math
import os
import pathlib
import resource
import subprocess
import sys
import tempfile
import time

ROOT = pathlib.Path(__file__).parent
PROGRAM = ROOT.parent / "crates" / "wh_main" / "out" / "wh_main"


def words_for(path):
    """The words of the command line: by the name of the file, stabilisers are asked for; moves are to be straightened, and
    two tuples to be decided, with the greatest limit where the level is large."""
    if path.stem.startswith("stabiliser"):
        return ["stabiliser"]
    keywords = [line.split(" ")[0] for line in path.read_text().splitlines()]
    if "moves" in keywords:
        return ["straighten"]
    if keywords.count("tuple") == 1:
        return ["reduce"]
    return ["decide", "--limit", "131072"] if "level" in path.stem else ["decide"]


def told(answer):
    """What the answer tells in short: the number of relators of a stabiliser, or the number of moves of its first line of
    moves, with that of the given ones where a list was straightened, or its verdict."""
    given, of_stabiliser = "", False
    answer.seek(0)
    for line in answer:
        if line == "whitehead 1 stabiliser\n":
            of_stabiliser = True
        if line.startswith("relators "):
            return f"{line.split()[1]} relators"
        if line.startswith("given"):
            given = f"{len(line.split()) - 1} -> "
        if line.startswith(("trace", "moves")) and not of_stabiliser:
            return f"{given}{len(line.split()) - 1} moves"
        if line.startswith(("verdict ", "refused ")) and line != "verdict yes\n":
            return line.removeprefix("verdict ").strip()
    return "nothing"


def run(words, source, answer):
    """Seconds and peak memory in MB of a run that reads a file and writes another. Texts stay in files, since a child counts
    as large as this script until it starts."""
    source.seek(0)
    answer.seek(0)
    answer.truncate()
    begun = time.perf_counter()
    child = subprocess.Popen([PROGRAM, *words], stdin=source, stdout=answer)
    _, _, usage = os.wait4(child.pid, 0)
    return time.perf_counter() - begun, usage.ru_maxrss / 1024


def best(words, source, answer):
    """The fastest of three runs."""
    return min(run(words, source, answer) for _ in range(3))


def peak(megabytes):
    """Peak memory. Less than that of this script can't be told."""
    least = math.ceil(resource.getrusage(resource.RUSAGE_SELF).ru_maxrss / 1024)
    return f"{megabytes:.1f}" if megabytes > least else f"under {least}"


def print_table():
    print("| Input | Time (s) | Peak memory (MB) | Answer | Time to check (s) | Verdict |")
    print("|---|---|---|---|---|---|")
    for path in sorted((ROOT / "inputs").glob("*.txt")):
        print(row(path))


def row(path):
    """The row of an input: its run, and the check of its answer."""
    with path.open() as source, tempfile.TemporaryFile("w+") as answer, tempfile.TemporaryFile("w+") as verdict:
        seconds, megabytes = best(words_for(path), source, answer)
        checking, _ = best(["check"], answer, verdict)
        verdict.seek(0)
        return f"| {path.stem} | {seconds:.3f} | {peak(megabytes)} | {told(answer)} | {checking:.3f} | {verdict.read().strip()} |"


def main(words):
    if words:
        print(__doc__, file=sys.stdout if words == ["--help"] else sys.stderr)
        return 0 if words == ["--help"] else 2
    if not os.access(PROGRAM, os.X_OK):
        print(f"run.py: the program isn't built: there is no {PROGRAM.resolve()}. ./whitehead builds it.", file=sys.stderr)
        return 64
    print_table()
    return 0


if __name__ == "__main__":
    sys.exit(main(sys.argv[1:]))
