"""The table of runs: the cases of crates/wh_tests_rows, and what is told of each.

A case of `stdin` is a head, which has the words of the command line, and an input; `stdout` has the same heads, each with
the status and the text that are told. A head begins with `==`, or with `=|` where the last byte of the input, which ends
its last line, is left out. A text of more than 16,384 bytes is told by their number and their hash (FNV-1a of 64 bits).

The table has three parts: first the problems, then the certificates, which begin with the first case of `check` and end
with the last one, and then the examples.
"""

import pathlib
import re
import sys
import typing

ROOT = pathlib.Path(__file__).parent.parent
ROWS = ROOT / "crates" / "wh_tests_rows"
HEAD = re.compile(rb"^(=[=|].*\n)", re.MULTILINE)

MOST_TOLD = 16384

# Command lines that ask for `check`.
OPTION = r"--(limit|workers)[ =][1-9][0-9]*"
ASKS_CHECK = re.compile(rf"(-- )?({OPTION} )*check( {OPTION})*")


class Case(typing.NamedTuple):
    """The words of a command line, an input, and the status and the text that are told."""

    words: str
    data: bytes
    told: str

    @property
    def head(self):
        """The line before the case."""
        sign = "=|" if self.data and not self.data.endswith(b"\n") else "=="
        return f"{sign} {self.words}".rstrip().encode() + b"\n"

    def stdin(self):
        """The case as `stdin` has it."""
        if re.search(rb"^=[=|]", self.data, re.MULTILINE):
            raise ValueError(f"a line begins like the head of a case in {self.data!r}")
        return self.head + self.data + (b"\n" if self.head.startswith(b"=|") else b"")

    def stdout(self):
        """The case as `stdout` has it."""
        return self.head + self.told.encode("latin1")


def asks_check(words):
    return ASKS_CHECK.fullmatch(words) is not None


def hash_of(data):
    """The hash of bytes, as Fowler, Noll and Vo define it."""
    made = 0xCBF29CE484222325
    for byte in data:
        made = (made ^ byte) * 0x100000001B3 % 2**64
    return made


def told_of(text, status):
    """What the table tells of a status and a text, whose lines are ended."""
    if len(text) > MOST_TOLD:
        text = f"bytes {len(text):016x} hash {hash_of(text.encode()):016x}\n"
    return f"status {status}\n{text}"


def told_by(text, status):
    """What the table tells of a status and a text of one line."""
    return told_of(f"{text}\n", status)


def blocks(name):
    """The heads of a file of the table, each with what follows it."""
    front, *parts = HEAD.split((ROWS / name).read_bytes())
    if front:
        raise ValueError(f"{name} doesn't begin with a head")
    return list(zip(parts[0::2], parts[1::2]))


def cases():
    """All cases of the table."""
    asked, answered = blocks("stdin"), blocks("stdout")
    if [head for head, _ in asked] != [head for head, _ in answered]:
        raise ValueError("the heads of stdin and stdout differ")
    return [
        Case(head[2:].decode().strip(), data[:-1] if head.startswith(b"=|") else data, told.decode("latin1"))
        for (head, data), (_, told) in zip(asked, answered)
    ]


class Parts(typing.NamedTuple):
    """The parts of the table."""

    problems: list
    certificates: list
    examples: list


def parts():
    made = cases()
    of_check = [place for place, case in enumerate(made) if asks_check(case.words)]
    first, last = of_check[0], of_check[-1] + 1
    return Parts(made[:first], made[first:last], made[last:])


def write(parts):
    """Writes the table."""
    made = [*parts.problems, *parts.certificates, *parts.examples]
    (ROWS / "stdin").write_bytes(b"".join(case.stdin() for case in made))
    (ROWS / "stdout").write_bytes(b"".join(case.stdout() for case in made))


def status_of(words, usage, modes):
    """The status of a tool that is called with these words: one is the name of a mode, which tells whether all is well."""
    if words == ["--help"]:
        print(usage)
        return 0
    if len(words) != 1 or words[0] not in modes:
        print(usage, file=sys.stderr)
        return 2
    return 0 if modes[words[0]]() else 1
