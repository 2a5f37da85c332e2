"""Answers of `stabiliser` of which one line is altered, each with a name of the alteration and what is found of it.

What is found where a line is taken out, doubled or exchanged follows from the keywords of lines. Where a field of a line is
altered, it is what the checker of certificates finds.
"""

import re

from check_certificate import found

# By its keyword, what is found of a line that is exchanged with another one of the keyword: which of the two breaks a rule.
EXCHANGED = {"flow": (1, "flow"), "at": (2, "sorted"), "tree": (1, "tree"), "generator": (1, "generator")}

NUMBER = re.compile("[0-9]+")
LETTER = re.compile("[A-Za-z]")


def keyword(line):
    return line.split()[0]


def last_alike(lines, k):
    """The number of the last line of those that follow line k, counted from 0, and have its keyword, one after the other."""
    others = (number for number in range(k, len(lines)) if keyword(lines[number]) != keyword(lines[k]))
    return next(others, len(lines))


def exchanged_verdict(lines, k):
    """What is found where line k, counted from 0, is exchanged with the next one."""
    first, second = keyword(lines[k]), keyword(lines[k + 1])
    if first != second:
        return f"refused bad-line line {k + 1}"
    if first == "relator":
        return "valid"
    place, rule = EXCHANGED[first]
    return f"invalid line {k + place} {rule}"


def by_lines(answer):
    """Each line is taken out, doubled, and exchanged with the next one."""
    lines = answer.splitlines(keepends=True)
    for k, line in enumerate(lines):
        last = last_alike(lines, k)
        without = "".join(lines[:k] + lines[k + 1 :])
        twice = "".join(lines[:k] + [line] + lines[k:])
        yield f"{line!r} is taken out", without, f"refused bad-line line {last}"
        yield f"{line!r} is doubled", twice, f"refused bad-line line {last + 1}"
    for k, (line, other) in enumerate(zip(lines, lines[1:])):
        exchanged = "".join(lines[:k] + [other, line] + lines[k + 2 :])
        yield f"{line!r} and {other!r} are exchanged", exchanged, exchanged_verdict(lines, k)


def by_counts(answer):
    """Each relator or generator is taken out or doubled, and the number of these lines is the right one."""
    lines = answer.splitlines(keepends=True)
    for counted in ("relator", "generator"):
        places = [k for k, line in enumerate(lines) if keyword(line) == counted]
        first = places[0]
        told = "valid" if counted == "relator" else f"invalid line {first} generators"
        for k in places:
            for times in (0, 2):
                count = f"{counted}s {len(places) - 1 + times}\n"
                text = "".join([*lines[: first - 1], count, *lines[first:k], *lines[k : k + 1] * times, *lines[k + 1 :]])
                yield f"{lines[k]!r} stands {times} times", text, told


def other_lines(line):
    """A line with its first or its last number one greater, and with its last letter behind the keyword turned into its
    inverse."""
    numbers = list(NUMBER.finditer(line))
    for place in numbers[:1] + numbers[1:][-1:]:
        yield f"{line[: place.start()]}{int(place.group()) + 1}{line[place.end() :]}"
    letters = list(LETTER.finditer(line, len(keyword(line))))
    for place in letters[-1:]:
        yield f"{line[: place.start()]}{place.group().swapcase()}{line[place.end() :]}"


def by_fields(answer):
    """Fields of each line are altered."""
    lines = answer.splitlines(keepends=True)
    for k, line in enumerate(lines):
        for other in other_lines(line):
            text = "".join([*lines[:k], other, *lines[k + 1 :]])
            yield f"{other!r} in the place of {line!r}", text, found(text.encode())[0]
