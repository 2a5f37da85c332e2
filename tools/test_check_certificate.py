#!/usr/bin/env python3
"""Runs the checker of certificates on stored answers, on the cases of `check` in the table of runs, on straight lists, and on
answers of `stabiliser`; and the tool that writes automorphisms on the last.

    test_check_certificate.py

Stored answers are those in examples/answers and those in the table of runs (crates/wh_tests_rows). The gate compares what
the program writes with this table. So where the checker finds what the table tells of a case of `check`, the program and
the checker agree on it, and share nothing.

It ends with status 0 exactly where all of these hold:

- the stored answers are valid, but for the undecided ones and those of `straighten`, which are refused;
- the stored answers of `straighten` are valid where straight lists are asked for;
- on each case of `check` the checker finds what the table tells, and has the status that it tells;
- of answers of `straighten`, right ones and altered ones, it finds what was written by hand, whether it writes out images
  or goes by matrices;
- of answers of `stabiliser` of which a line is taken out, doubled, or exchanged with the next one, it finds what follows
  from the keywords of these lines;
- the reference answers the problems of the right ones, but for that of rank 4, with the same generators, and with their
  relators among its own; what it answers is valid;
- the list of moves of each generator fixes the tuple, followed by its inverse it is the identity, and a product of lists by
  the numbers of a relator is the identity; lists of moves are written as automorphisms as was done by hand;
- the greatest number of bytes is read, and one byte more is refused.
"""

import contextlib
import functools
import io
import sys

import alike
import altered_answers
import altered_lines
import altered_stabilisers
import automorphism
import reference
import table
from certificate_cases import altered, stored_verdict
from check_certificate import MOST_BYTES, act, check_straightened, composite, found, read_stabiliser

# ---- tests, each with what is got and what is right


@functools.cache
def found_once(data):
    """What the checker finds. Large answers stand in the table as what is told and as inputs of `check`, and take long."""
    return found(data)


def found_straightened(text):
    return found(text.encode("latin1"), check_straightened)[0]


def stored_answers():
    for path in sorted((table.ROOT / "examples" / "answers").glob("*.txt")):
        yield path.name, path.read_text()
    for place, case in enumerate(table.cases(), 1):
        _, text = case.told.split("\n", 1)
        if text.startswith("whitehead 1 "):
            yield f"answer to case {place} of the table of runs", text


def stored_tests():
    for name, text in stored_answers():
        yield name, found_once(text.encode())[0], stored_verdict(text)
        if text.startswith("whitehead 1 straighten\n"):
            yield f"{name}, as a straight list", found_straightened(text), "valid"


def table_tests():
    for place, case in enumerate(table.cases(), 1):
        if table.asks_check(case.words):
            yield f"case {place} of the table of runs", table.told_by(*found_once(case.data)), case.told


def straightened_tests():
    for k, answer in enumerate(altered_answers.STRAIGHT, 1):
        yield f"right straight list {k}", found_straightened(answer), "valid"
    for k, (answer, old, new, told) in enumerate(altered_answers.STRAIGHT_ALTERATIONS, 1):
        yield f"altered straight list {k}", found_straightened(altered(answer, old, new)), told


def matrix_tests():
    """The same, where no images are written out."""
    most, alike.MOST_WRITTEN = alike.MOST_WRITTEN, 0
    yield from straightened_tests()
    alike.MOST_WRITTEN = most


# ---- stabilisers


def line_tests():
    """One line is altered."""
    for answer in altered_stabilisers.SHORT:
        for alterations in (altered_lines.by_lines, altered_lines.by_counts):
            for name, text, told in alterations(answer):
                yield name, found(text.encode())[0], told


def reference_tests():
    """What the reference answers to the problem of an answer, and to one with a larger level."""
    for answer in altered_stabilisers.RIGHT:
        rank, words = answer.splitlines()[1:3]
        if rank == "rank 4":
            continue
        told, _ = reference.told(["stabiliser"], f"{rank}\n{words}\n".encode())
        (front, relators), (other, others) = (text.split("relators ") for text in (answer, told))
        yield f"the reference for {words!r}", found(told.encode())[0], "valid"
        yield f"the generators for {words!r}", other, front
        yield f"the relators for {words!r}", set(relators.splitlines()[1:]) - set(others.splitlines()), set()
    told, _ = reference.told(["stabiliser"], b"rank 3\ntuple abAB bcBC caCA\n")
    yield "the reference for a large level", found(told.encode())[0], "valid"
    for rank in ("9" * 5000, "\u0663".encode().decode("latin1"), "27", ""):
        yield f"the rank {rank[:9]!r}", reference.told(["reduce"], f"rank {rank}\n".encode("latin1"))[1], 2


# ---- automorphisms

RULES_OF_RELATORS = ("step", "loop", "wide", "identity", "numbers")


def list_tests():
    """The lists of moves of generators, and their products by relators."""
    for answer in altered_stabilisers.RIGHT:
        rank, told = read_stabiliser(answer.encode())
        lists = list(automorphism.generator_lists(answer.encode())[1])
        identity = composite(0, rank, [])
        for number, moves in enumerate(lists, 1):
            name = f"generator {number} for {told.words!r}"
            yield f"{name} fixes the tuple", functools.reduce(act, moves, told.words), told.words
            yield f"{name} and its inverse", composite(0, rank, moves + automorphism.back(moves)), identity
        for relator in told.relators[1]:
            product = [move for number in relator.numbers for move in lists[number - 1]]
            yield f"relator in line {relator.line} for {told.words!r}", composite(0, rank, product), identity
    _, lists = automorphism.generator_lists(altered_stabilisers.PRIMITIVE.encode())
    lists = dict(enumerate(lists, 1))
    for number, text in altered_stabilisers.PRIMITIVE_LISTS.items():
        yield f"the list of generator {number}", lists[number], automorphism.read_words(["2", *text.split()])[1]


def run_automorphism(words, data=b""):
    """What the tool writes, and its status."""
    out, real = io.StringIO(), sys.stdin
    sys.stdin = io.TextIOWrapper(io.BytesIO(data))
    with contextlib.redirect_stdout(out), contextlib.redirect_stderr(io.StringIO()):
        status = automorphism.main(words)
    sys.stdin = real
    return out.getvalue(), status


def automorphism_tests():
    for text, lines in altered_stabilisers.AUTOMORPHISMS:
        yield f"automorphism {text}", run_automorphism(text.split()), ("".join(f"{line}\n" for line in lines), 0)
    for text in altered_stabilisers.NO_LISTS:
        yield f"automorphism {text!r}", run_automorphism(text.split(" ")), ("", 2)
    wide = altered(altered_stabilisers.TORUS, "trace\n", f"trace {altered_stabilisers.WIDE}\n")
    yield "a wide trace", found(wide.encode())[0], "valid"
    yield "generators by a wide trace", run_automorphism(["--generators"], wide.encode()), ("", 2)
    yield "a wide list", run_automorphism(["2", *altered_stabilisers.WIDE.split()]), ("", 2)
    told, status = run_automorphism(["--generators"], altered_stabilisers.PRIMITIVE.encode())
    last = altered_stabilisers.PRIMITIVE_LAST
    yield "the last generator", (told[-len(last) :], status), (last, 0)
    for k, (answer, old, new, verdict) in enumerate(altered_stabilisers.ALTERATIONS, 1):
        has_generators = verdict.split()[-1] in ("valid", *RULES_OF_RELATORS)
        told, status = run_automorphism(["--generators"], altered(answer, old, new).encode("latin1"))
        yield f"the generators of altered answer {k}", (status, told != ""), (0, True) if has_generators else (2, False)


# ---- sizes


def size_tests():
    data = altered_answers.TORUS.encode().ljust(MOST_BYTES, b"#")
    yield "the greatest size", found(data)[0], "valid"
    yield "a greater size", found(data + b"#")[0], f"refused input-too-long {MOST_BYTES}"


def count_passed(tests):
    """How many tests there are, and how many passed. The others are told."""
    total = passed = 0
    for name, got, want in tests:
        total += 1
        if got == want:
            passed += 1
        else:
            print(f"{name}: {got!r}, but {want!r} is right")
    return total, passed


OTHER_TESTS = [
    stored_tests,
    straightened_tests,
    matrix_tests,
    line_tests,
    reference_tests,
    list_tests,
    automorphism_tests,
    size_tests,
]


def main(words):
    if words:
        print(__doc__, file=sys.stdout if words == ["--help"] else sys.stderr)
        return 0 if words == ["--help"] else 2
    agreed = count_passed(table_tests())
    print(f"the checker agrees with {agreed[1]} of {agreed[0]} cases of check in the table of runs")
    counts = [agreed, *(count_passed(tests()) for tests in OTHER_TESTS)]
    total = sum(total for total, _ in counts)
    passed = sum(passed for _, passed in counts)
    print(f"{passed} passed, {total - passed} failed")
    return 1 if passed < total else 0


if __name__ == "__main__":
    sys.exit(main(sys.argv[1:]))
