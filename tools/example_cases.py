#!/usr/bin/env python3
"""Makes the cases of the examples in the table of runs.

    example_cases.py write     puts the examples and their stored answers at the end of crates/wh_tests_rows/stdin and stdout
    example_cases.py compare   compares the examples with the cases that stand there

An example is a problem in examples/NAME.txt, with its answer in examples/answers/NAME.txt. The gate compares what the
program writes with the table. So where the table and the examples agree, the stored answers are what the program writes.
"""

import sys

import table
from reference import status_of

EXAMPLES = table.ROOT / "examples"
LIMITS = {"planes": 1000}
STABILISERS = ("conjugations", "klein", "letter", "mapping_classes")


def words(name, problem):
    """The words of the command line that an example is for: moves are to be straightened, two tuples to be decided, and one
    tuple to be reduced, but for the examples of stabilisers."""
    keywords = [line.split(" ")[0] for line in problem.splitlines()]
    for_one = "stabiliser" if name in STABILISERS else "reduce"
    command = "straighten" if "moves" in keywords else "decide" if keywords.count("tuple") == 2 else for_one
    return f"{command} --limit {LIMITS[name]}" if name in LIMITS else command


def cases():
    for path in sorted(EXAMPLES.glob("*.txt")):
        problem = path.read_text()
        answer = (EXAMPLES / "answers" / path.name).read_text()
        yield table.Case(words(path.stem, problem), problem.encode(), table.told_of(answer, status_of(answer)))


def write():
    made = list(cases())
    table.write(table.parts()._replace(examples=made))
    print(f"{len(made)} examples written")
    return True


def compare():
    made, stand = list(cases()), table.parts().examples
    agree = made == stand
    print(f"{len(made)} examples " + ("stand in the table" if agree else "and the table differ"))
    return agree


if __name__ == "__main__":
    sys.exit(table.status_of(sys.argv[1:], __doc__, {"write": write, "compare": compare}))
