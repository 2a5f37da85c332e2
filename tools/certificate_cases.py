#!/usr/bin/env python3
"""Makes the cases of `check` in the table of runs.

    certificate_cases.py write     puts the cases into crates/wh_tests_rows/stdin and stdout, in the place of those that stand there
    certificate_cases.py compare   compares them with those that stand there

The inputs are stored answers, right answers, some of them altered by hand, answers of `stabiliser` of which each line is
altered, answers of the table that have a large level or are of `stabiliser`, and random certificates. Most of the random
ones are altered at random, and so are some answers of `stabiliser`. What is told of an input was written by hand; where it is
altered at random or by its fields, or has a large level, it is what the checker of certificates finds. What is random is the
same each time. The tool stops where the checker finds something else than was written.
"""

import random
import re
import sys
import typing

import altered_answers
import altered_lines
import altered_stabilisers
import table
from check_certificate import found
from random_certificates import altered_at_random, random_certificate

MOST_STORED = 25000
RANDOM_CERTIFICATES = 40
RANDOM_STABILISERS = 40
MOST_TUPLES = 12
LARGE_LEVEL = re.compile(r"^level (\d{4,})$", re.MULTILINE)


class Written(typing.NamedTuple):
    """The words of a command line, an input, and the text that was written for them."""

    words: str
    data: bytes
    text: str


# ---- cases


def check_of(text, told):
    return Written("check", text.encode("latin1"), told)


def altered(answer, old, new):
    if old not in answer:
        raise ValueError(f"{old!r} isn't in the answer")
    return answer.replace(old, new, 1)


def is_unchecked(text):
    return text.startswith("whitehead 1 straighten\n")


def is_stabiliser(text):
    return text.startswith("whitehead 1 stabiliser\n")


def stored_verdict(text):
    """What an answer of the program gets. The fifth line of an answer of `decide` has the verdict, the fourth of one of
    `stabiliser`."""
    if is_unchecked(text):
        return "refused no-certificate line 1"
    if "\nverdict undecided " in text:
        return f"refused no-certificate line {4 if is_stabiliser(text) else 5}"
    return "valid"


def stored_cases():
    """Answers of the program."""
    for path in sorted((table.ROOT / "examples" / "answers").glob("*.txt")):
        text = path.read_text()
        if len(text) <= MOST_STORED:
            yield check_of(text, stored_verdict(text))


def written_cases():
    """Texts whose verdict was written by hand."""
    for answer in altered_answers.RIGHT:
        yield check_of(answer, "valid")
    for answer in altered_answers.STRAIGHT:
        yield check_of(answer, "refused no-certificate line 1")
    for text, told in altered_answers.OTHER_TEXTS:
        yield check_of(text, told)
    for answer, old, new, told in altered_answers.ALTERATIONS:
        yield check_of(altered(answer, old, new), told)
    for words, text, told in altered_answers.WITH_OPTIONS:
        yield Written(words, text.encode(), told)


def line_cases():
    """A line is put in the place of another one, taken out, or doubled."""
    for answer, line, others in altered_answers.NOT_CONTINUED:
        number = answer.splitlines().index(line) + 1
        for other in others:
            yield check_of(altered(answer, f"{line}\n", f"{other}\n"), f"refused bad-line line {number}")
    for times, answers in (0, altered_answers.TAKEN_OUT), (2, altered_answers.DOUBLED):
        for answer, numbers in answers:
            lines = answer.splitlines(keepends=True)
            for k, number in enumerate(numbers):
                text = "".join(lines[:k] + lines[k : k + 1] * times + lines[k + 1 :])
                yield check_of(text, f"refused bad-line line {number}")


def stabiliser_cases():
    """Right answers of `stabiliser`, altered by hand and line by line, and those of the table."""
    for answer in altered_stabilisers.RIGHT:
        yield check_of(answer, "valid")
    for answer, old, new, told in altered_stabilisers.ALTERATIONS:
        yield check_of(altered(answer, old, new), told)
    for answer in altered_stabilisers.IN_TABLE:
        for _, text, told in (*altered_lines.by_lines(answer), *altered_lines.by_fields(answer)):
            yield check_of(text, told)
    for _, text, told in altered_lines.by_counts(altered_stabilisers.CUBE):
        yield check_of(text, told)
    for case in table.parts().problems:
        _, answer = case.told.split("\n", 1)
        if is_stabiliser(answer):
            yield check_of(answer, stored_verdict(answer))


def level_cases():
    """Answers of the table with a large level, and the same without the last tuple of the level."""
    for case in table.parts().problems:
        large = LARGE_LEVEL.search(case.told)
        if large:
            _, answer = case.told.split("\n", 1)
            front, _ = answer.rsplit("at ", 1)
            fewer = altered(front, large.group(), f"level {int(large.group(1)) - 1}") + "done\n"
            yield check_of(answer, "valid")
            yield check_of(fewer, found(fewer.encode())[0])


def altered_case(rng, text, may_be_refused):
    """A text, altered at random. Where the case may not be a refusal, the alteration is made until it isn't."""
    while True:
        other = altered_at_random(rng, text)
        told, _ = found(other.encode())
        if may_be_refused or not told.startswith("refused"):
            return check_of(other, told)


def random_cases():
    """Random certificates are altered. One in four stands unaltered too, and its alteration may be a refusal."""
    rng = random.Random(20)
    for k in range(RANDOM_CERTIFICATES):
        text = random_certificate(rng, MOST_TUPLES)
        if k % 4 == 0:
            yield check_of(text, "valid")
        yield altered_case(rng, text, k % 4 == 0)


def random_stabiliser_cases():
    """Right answers of `stabiliser` are altered at random, so that they aren't refused."""
    rng = random.Random(21)
    for k in range(RANDOM_STABILISERS):
        yield altered_case(rng, altered_stabilisers.SHORT[k % len(altered_stabilisers.SHORT)], False)


def written():
    """All cases, each once."""
    made = [*stored_cases(), *written_cases(), *line_cases(), *stabiliser_cases(), *level_cases()]
    made += [*random_cases(), *random_stabiliser_cases()]
    return list(dict.fromkeys(made))


# ---- the table


def status(case):
    """The status of a case. What is told has to be what the checker finds, where the words ask for it."""
    if not table.asks_check(case.words):
        return 2
    text, status = found(case.data)
    if text != case.text:
        raise ValueError(f"{text}, but {case.text} was written, for {case.data!r}")
    return status


def cases():
    """The cases as the table has them."""
    return [table.Case(case.words, case.data, table.told_by(case.text, status(case))) for case in written()]


def write():
    made = cases()
    table.write(table.parts()._replace(certificates=made))
    print(f"{len(made)} cases written")
    return True


def compare():
    made, stand = cases(), table.parts().certificates
    different = sum(case != other for case, other in zip(made, stand)) + abs(len(made) - len(stand))
    print(f"cases of check made again: {len(made)}, of which {different} stand otherwise in the table")
    return different == 0


if __name__ == "__main__":
    sys.exit(table.status_of(sys.argv[1:], __doc__, {"write": write, "compare": compare}))
