#!/usr/bin/env python3
"""Checks an answer of `whitehead reduce`, `whitehead decide` or `whitehead stabiliser`, and shares nothing with the program.

    check_certificate.py < answer
    check_certificate.py --straightened < answer      checks an answer of `whitehead straighten`; see below

It reads the answer on standard input and writes the very line that `whitehead check` writes, with its exit status:

    valid                      0    every rule holds
    invalid line L RULE        1    line L is the first that breaks a rule, and RULE is the first it breaks
    refused CAUSE              2    the text is no answer that can be checked

A text is refused before any rule is tried. Its size comes first, and then its lines in order; the first refusal is told.

    input-too-long 67108864         The text has more bytes than that.
    bad-byte line L column C        A byte of the line isn't 32 to 126, the leftmost one in column C. This comes before
                                    everything else of the line, and skipped lines are looked at too.
    no-certificate line L           The line is the heading of another command, or an undecided verdict, and so there is
                                    nothing to check. What follows isn't looked at.
    level-rank N                    The line is the rank line of an answer of `decide` or `stabiliser`, and its rank N is
                                    greater than 6 or than 4.
    bad-line line L                 The line doesn't continue an answer in any other way. L is the place past the end
                                    where lines are missing.

The rules are these, and each is broken where its sentence holds. Lines are tried in order, and the rules of one line in
the order in which they stand here.

In the lines of a tuple that is reduced or whose stabiliser is told, and in those of both tuples of a no:

    long      Some tuple on the way of the trace has more than 4,096 letters. This is told in the line `trace`.
    end       The trace doesn't take the tuple to the end. This is told in the line `end`.
    length    The ends are equally long although the verdict is `no length`, or they aren't although it is `no level`;
              this is told in the line of the second end.
    flow      The letter isn't this line's generator, the value isn't its degree in the Whitehead graph of the end, or
              the pairs are no flow of that value from the letter to its inverse.

In the line `moves` of a yes:

    long      Some tuple on the way from the first tuple has more than 4,096 letters.
    moves     The moves don't take the first tuple to the second.

In the line `level`:

    root      The first end stands in no `at` line.

In an `at` line:

    sorted    Its tuple isn't greater than that of the `at` line before.
    height    Its tuple isn't as long as the first end.
    absent    Its tuple is the second end.
    closed    Some swap, inversion or cut takes its tuple to one that is as long and stands in no `at` line.

So a valid trace takes a tuple to its end, and flows show that no cut shortens the end. A valid yes carries the first
tuple onto the second. A valid level shows that moves which keep the length never take the first end to the second.

An answer of `stabiliser` presents the automorphisms that fix a tuple (McCool 1975). Between the line of the rank, which is at
most 4, and `done` it has the lines

    tuple WORDS
    trace MOVES, end WORDS and the lines `flow`, as above
    level N, and N lines at WORDS, as above; these are the vertices 1 to N
    tree V P MOVE           one line for each vertex but that of the end: it is reached from its parent P by MOVE
    generators N            at most 65,536
    generator V MOVE        N lines: the generators 1 to N, by the edges from V by MOVE
    relators N              at most 393,216
    relator V MOVES = NUMBERS       N lines: a way round from V, and the numbers of the generators on it

or, in the place of all behind the tuple, an undecided verdict, which is refused by `no-certificate`. The lines up to those
`at` have the rules above, without `absent`. The edges of the level are the level moves of its vertices, which are the swaps,
inversions and cuts that keep the length of a vertex, but for cuts whose set is the multiplier alone.

In a `tree` line:

    tree        V isn't the next vertex but that of the end, P is none, MOVE is no level move that takes P to V, or the
                parents of V don't lead to the end.

In the line `generators`:

    generators  N isn't the number of edges that aren't in the tree.

In a `generator` line:

    generator   It isn't the next edge that isn't in the tree.

In a `relator` line:

    step        V is no vertex, or a move on the way is no level move.
    loop        The moves don't lead back to V.
    wide        After some move on the way the images of the generators have more than 65,536 letters.
    identity    The moves aren't the identity.
    numbers     The numbers aren't those of the generators on the way, one after the other.

So each generator is an automorphism that fixes the tuple: the trace, the tree's path to V, MOVE, the path to the end of MOVE
back, and the trace back. Together they generate all of these, and the relators hold. The tree may be any that leads to all
vertices, and relators may be missing.

`whitehead check` has no rules for answers of `straighten`, and refuses them. With --straightened they are checked by the
rules that follow, and the answers of all other commands are refused by `no-certificate`. Between the line of the rank and
`done` such an answer has the lines `tuple WORDS`, `given MOVES` with at most 1,024 moves, `moves MOVES` and `end WORDS`.

In the line `given`:

    long      Some tuple on the way of the given list has more than 4,096 letters.

In the line `moves`:

    long      Some tuple on the way of the moves has more than 4,096 letters.
    straight  The lengths of the tuples on the way don't fall at each move, then stay, and then rise at each move.
    alike     The moves and the given list aren't one automorphism up to conjugation. Where images of generators have many
              letters on the way, a difference that is found is there, and that there is none is told with a tiny chance of
              error: `alike` says how.

In the line `end`:

    end       The given list or the moves don't take the tuple to the end.

So the moves of a valid answer do what the given list does, and no tuple on their way is longer than both the first and the
last; where no cut shortens either of these, all have one length.

Letters are numbers here: generator g (from 0) is 2 g and its inverse 2 g + 1, so that x ^ 1 is the inverse of x.
"""

import functools
import itertools
import re
import sys
import typing

from alike import are_alike

MOST_BYTES = 67108864
GREATEST_RANK = 26
GREATEST_LEVEL_RANK = 6
GREATEST_STABILISER_RANK = 4
MOST_TUPLES = 131072
MOST_EDGES = 65536
MOST_RELATORS = 393216
MOST_IMAGE_LETTERS = 65536
MOST_GIVEN = 1024
MOST_LETTERS = 4096
MOST_WORDS = 64
MOST_VALUE = 2**32 - 1
MOST_NUMBER = 2**64 - 1

COMMANDS = ("reduce", "decide", "straighten", "stabiliser", "gen")
BAD_BYTE = re.compile(rb"[^ -~]")
CANONICAL_NUMBER = re.compile("0|[1-9][0-9]{0,19}")


class Refused(Exception):
    """The text is no answer that can be checked, and `cause` tells why."""

    def __init__(self, cause):
        super().__init__(cause)
        self.cause = cause


class InputTooLong(Refused):
    """The text has too many bytes."""

    def __init__(self):
        super().__init__(f"input-too-long {MOST_BYTES}")


class BadByte(Refused):
    """A byte may not stand in a line."""

    def __init__(self, line, column):
        super().__init__(f"bad-byte line {line} column {column}")


class BadLine(Refused):
    """This line doesn't continue an answer."""

    def __init__(self, line):
        super().__init__(f"bad-line line {line}")


class NoCertificate(Refused):
    """This line tells that the answer is of a kind that has nothing to check."""

    def __init__(self, line):
        super().__init__(f"no-certificate line {line}")


class LevelRank(Refused):
    """An answer has this rank, which is too great for its command."""

    def __init__(self, rank):
        super().__init__(f"level-rank {rank}")


class Broken(Exception):
    """A rule is broken."""

    def __init__(self, line, rule):
        super().__init__(line, rule)
        self.line = line
        self.rule = rule


# ---- letters, words and moves


def inverse(x):
    return x ^ 1


def freely_reduced(word):
    kept = []
    for x in word:
        if kept and kept[-1] == inverse(x):
            kept.pop()
        else:
            kept.append(x)
    return kept


def cyclically_reduced(word):
    word = freely_reduced(word)
    while len(word) > 1 and word[0] == inverse(word[-1]):
        word = word[1:-1]
    return word


def first_rotation(word):
    return min((word[k:] + word[:k] for k in range(len(word))), default=[])


def cyclic_word(word):
    """The first rotation of the cyclic reduction."""
    return first_rotation(cyclically_reduced(word))


def image(move, x):
    """The word that a move takes a letter to."""
    kind, *data = move
    if kind == "swap":
        k = data[0] - 1
        return [{k: k + 1, k + 1: k}.get(x // 2, x // 2) * 2 + x % 2]
    if kind == "invert":
        return [inverse(x) if x // 2 == data[0] - 1 else x]
    multiplier, letters = data
    if x // 2 == multiplier // 2:
        return [x]
    before = [inverse(multiplier)] if inverse(x) in letters else []
    behind = [multiplier] if x in letters else []
    return before + [x] + behind


def act(words, move):
    return [cyclic_word([y for x in word for y in image(move, x)]) for word in words]


def length(words):
    return sum(len(word) for word in words)


def images_of(rank, move):
    """The words that a move takes the letters to."""
    return [image(move, x) for x in range(2 * rank)]


def every_move(rank):
    """All swaps, inversions and cuts of a rank, in their order: cuts by their multiplier, and then by their greatest letters."""
    yield from (("swap", k) for k in range(1, rank))
    yield from (("invert", k) for k in range(1, rank + 1))
    letters = range(2 * rank)
    for multiplier in letters:
        others = [x for x in letters if x // 2 != multiplier // 2]
        sets = [(multiplier, *chosen) for size in range(len(others) + 1) for chosen in itertools.combinations(others, size)]
        yield from (("cut", multiplier, frozenset(each)) for each in sorted(sets, key=lambda each: sorted(each, reverse=True)))


@functools.cache
def every_images(rank):
    """The words that each move of a rank takes the letters to."""
    return [images_of(rank, move) for move in every_move(rank)]


def hashed(words):
    return tuple(tuple(word) for word in words)


def taken_by(words, images):
    """What a move, given by its images, takes words to, each in some rotation of its cyclic word."""
    return [cyclically_reduced([y for x in word for y in images[x]]) for word in words]


def leads_out(words, moves, level):
    """Whether some move, given by its images, takes a tuple to one that is as long and isn't in the level."""
    for images in moves:
        taken = taken_by(words, images)
        if length(taken) == length(words) and hashed(map(first_rotation, taken)) not in level:
            return True
    return False


# ---- the Whitehead graph


def edges(words):
    """How many edges join each two letters, by both orders of the pair."""
    count = {}
    for word in words:
        for k, x in enumerate(word):
            y = inverse(word[(k + 1) % len(word)])
            count[x, y] = count.get((x, y), 0) + 1
            count[y, x] = count.get((y, x), 0) + 1
    return count


def degree(graph, x):
    return sum(n for (y, _), n in graph.items() if y == x)


def is_flow(graph, rank, source, value, pairs):
    """Whether the pairs are a flow of this value from a letter to its inverse."""
    sink = inverse(source)
    net = [0] * (2 * rank)
    for (x, y), n in pairs.items():
        if n > graph.get((x, y), 0):
            return False
        net[x] += n
        net[y] -= n
    conserved = all(net[x] == 0 for x in range(2 * rank) if x not in (source, sink))
    return conserved and net[source] == value


# ---- reading


class Reader:
    """The kept lines of a text, which are those that aren't skipped and those with a bad byte: the number of each, the
    column of its leftmost bad byte (or None), and its fields (or None where there is one)."""

    def __init__(self, data):
        if len(data) > MOST_BYTES:
            raise InputTooLong
        lines = data.split(b"\n")
        if lines[-1] == b"":
            lines.pop()
        self.past = len(lines) + 1
        self.rank = 0
        self.words = None
        self.kept = []
        for number, line in enumerate(lines, 1):
            bad = BAD_BYTE.search(line)
            if bad:
                self.kept.append((number, bad.start() + 1, None))
            elif line.strip(b" ") and not line.startswith(b"#"):
                fields = line.decode().split(" ")
                self.kept.append((number, None, [field for field in fields if field]))
        self.at = 0

    def peek(self):
        """The number and the fields of the next kept line."""
        number, column, fields = self.kept[self.at]
        if column is not None:
            raise BadByte(number, column)
        return number, fields

    def is_next(self, keyword):
        """Whether there is a next kept line, and it has this keyword."""
        return self.at < len(self.kept) and self.peek()[1][0] == keyword

    def next(self, keyword):
        """The number and the further fields of the next kept line, which has this keyword."""
        if self.at == len(self.kept):
            raise BadLine(self.past)
        number, fields = self.peek()
        if fields[0] != keyword:
            raise BadLine(number)
        self.at += 1
        return number, fields[1:]

    def end(self):
        if self.at < len(self.kept):
            number, _ = self.peek()
            raise BadLine(number)

    def number(self, line, text, least, most):
        if not CANONICAL_NUMBER.fullmatch(text) or not least <= int(text) <= most:
            raise BadLine(line)
        return int(text)

    def letter(self, line, text):
        if len(text) != 1 or not (text.isascii() and text.isalpha()):
            raise BadLine(line)
        x = 2 * (ord(text.lower()) - ord("a")) + text.isupper()
        if x >= 2 * self.rank:
            raise BadLine(line)
        return x

    def tuple(self, keyword):
        """A line of words, each as its cyclic word. Their letters are counted as they are written."""
        line, fields = self.next(keyword)
        words = [[] if field == "1" else [self.letter(line, c) for c in field] for field in fields]
        if len(words) > MOST_WORDS or length(words) > MOST_LETTERS:
            raise BadLine(line)
        if self.words is None:
            self.words = len(words)
        if len(words) != self.words:
            raise BadLine(line)
        return line, [cyclic_word(word) for word in words]

    def move(self, line, text):
        if text[1:2] == ":":
            return self.cut(line, text)
        if text.startswith("s"):
            return "swap", self.number(line, text[1:], 1, self.rank - 1)
        if text.startswith("i"):
            return "invert", self.number(line, text[1:], 1, self.rank)
        raise BadLine(line)

    def cut(self, line, text):
        """A multiplier and, after a colon, the letters of the set in rising order."""
        multiplier = self.letter(line, text[0])
        letters = [self.letter(line, c) for c in text[2:]]
        rising = all(x < y for x, y in zip(letters, letters[1:]))
        if not rising or multiplier not in letters or inverse(multiplier) in letters:
            raise BadLine(line)
        return "cut", multiplier, frozenset(letters)

    def moves(self, keyword):
        line, fields = self.next(keyword)
        return line, [self.move(line, field) for field in fields]

    def flow(self):
        """A line of a letter, a value and pairs in rising order."""
        line, fields = self.next("flow")
        if len(fields) < 2:
            raise BadLine(line)
        letter = self.letter(line, fields[0])
        value = self.number(line, fields[1], 0, MOST_VALUE)
        pairs = {}
        last = (-1, -1)
        for field in fields[2:]:
            if field[2:3] != ":":
                raise BadLine(line)
            pair = self.letter(line, field[0]), self.letter(line, field[1])
            if pair[0] == pair[1] or pair <= last:
                raise BadLine(line)
            pairs[pair] = self.number(line, field[3:], 1, MOST_VALUE)
            last = pair
        return line, letter, value, pairs


# ---- the answers


def read_side(reader):
    trace = reader.moves("trace")
    end = reader.tuple("end")
    flows = [reader.flow() for _ in range(reader.rank)]
    return trace, end, flows


def check_walk(line, words, moves):
    """The tuple that moves take a tuple to. No tuple on the way is too long."""
    for move in moves:
        words = act(words, move)
        if length(words) > MOST_LETTERS:
            raise Broken(line, "long")
    return words


def check_end(words, side):
    (trace_line, trace), (end_line, end), _ = side
    if check_walk(trace_line, words, trace) != end:
        raise Broken(end_line, "end")


def check_flows(rank, side):
    _, (_, end), flows = side
    graph = edges(end)
    for generator, (line, letter, value, pairs) in enumerate(flows):
        right = letter == 2 * generator and value == degree(graph, letter)
        if not right or not is_flow(graph, rank, letter, value, pairs):
            raise Broken(line, "flow")


def check_side(rank, words, side):
    check_end(words, side)
    check_flows(rank, side)


def check_sides(rank, first, first_side, second, second_side, one_length):
    """The sides of a no. Whether their ends have one length is as the verdict says."""
    check_side(rank, first, first_side)
    check_end(second, second_side)
    _, (_, first_end), _ = first_side
    _, (line, second_end), _ = second_side
    if (length(first_end) == length(second_end)) != one_length:
        raise Broken(line, "length")
    check_flows(rank, second_side)


def read_level(reader):
    line, fields = reader.next("level")
    if len(fields) != 1:
        raise BadLine(line)
    count = reader.number(line, fields[0], 1, MOST_TUPLES)
    return line, [reader.tuple("at") for _ in range(count)]


def check_level(rank, root, absent, level):
    """The level of a root, without a tuple that has to be absent, if there is one."""
    level_line, ats = level
    known = {hashed(words) for _, words in ats}
    if hashed(root) not in known:
        raise Broken(level_line, "root")
    moves = every_images(rank)
    last = None
    for line, words in ats:
        if last is not None and words <= last:
            raise Broken(line, "sorted")
        if length(words) != length(root):
            raise Broken(line, "height")
        if words == absent:
            raise Broken(line, "absent")
        if leads_out(words, moves, known):
            raise Broken(line, "closed")
        last = words


def read_end(reader):
    line, fields = reader.next("done")
    if fields:
        raise BadLine(line)
    reader.end()


def check_reduced(reader):
    _, words = reader.tuple("tuple")
    side = read_side(reader)
    read_end(reader)
    check_side(reader.rank, words, side)


def check_yes(reader, first, second):
    line, moves = reader.moves("moves")
    read_end(reader)
    if check_walk(line, first, moves) != second:
        raise Broken(line, "moves")


def check_no_length(reader, first, second):
    first_side = read_side(reader)
    second_side = read_side(reader)
    read_end(reader)
    check_sides(reader.rank, first, first_side, second, second_side, one_length=False)


def check_no_level(reader, first, second):
    first_side = read_side(reader)
    second_side = read_side(reader)
    level = read_level(reader)
    read_end(reader)
    check_sides(reader.rank, first, first_side, second, second_side, one_length=True)
    _, (_, first_end), _ = first_side
    _, (_, second_end), _ = second_side
    check_level(reader.rank, first_end, second_end, level)


def check_decided(reader):
    _, first = reader.tuple("first")
    _, second = reader.tuple("second")
    line, verdict = reader.next("verdict")
    if verdict == ["yes"]:
        check_yes(reader, first, second)
    elif verdict == ["no", "length"]:
        check_no_length(reader, first, second)
    elif verdict == ["no", "level"]:
        check_no_level(reader, first, second)
    elif len(verdict) == 3 and verdict[0] == "undecided" and verdict[1] in ("length", "level"):
        reader.number(line, verdict[2], 0, MOST_NUMBER)
        raise NoCertificate(line)
    else:
        raise BadLine(line)


# ---- straight lists


def find_way(line, words, moves):
    """Where moves, given by their images, lead from a tuple, and the lengths on the way. No tuple there is too long."""
    lengths = [length(words)]
    for images in moves:
        words = taken_by(words, images)
        lengths.append(length(words))
        if lengths[-1] > MOST_LETTERS:
            raise Broken(line, "long")
    return list(map(first_rotation, words)), lengths


def is_straight(lengths):
    """Whether lengths fall, then stay, and then rise."""
    steps = [(after > before) - (after < before) for before, after in zip(lengths, lengths[1:])]
    return steps == sorted(steps)


def read_given(reader):
    line, moves = reader.moves("given")
    if len(moves) > MOST_GIVEN:
        raise BadLine(line)
    return line, moves


def check_straight(reader):
    _, words = reader.tuple("tuple")
    given_line, given = read_given(reader)
    moves_line, moves = reader.moves("moves")
    end_line, end = reader.tuple("end")
    read_end(reader)
    given, moves = [[images_of(reader.rank, move) for move in each] for each in (given, moves)]
    given_end, _ = find_way(given_line, words, given)
    moves_end, lengths = find_way(moves_line, words, moves)
    if not is_straight(lengths):
        raise Broken(moves_line, "straight")
    if not are_alike(reader.rank, given, moves):
        raise Broken(moves_line, "alike")
    if given_end != end or moves_end != end:
        raise Broken(end_line, "end")


# ---- stabilisers


class TreeLine(typing.NamedTuple):
    """A line `tree`. Vertices count from 0, here and in what follows."""

    line: int
    vertex: int
    parent: int
    move: tuple


class GeneratorLine(typing.NamedTuple):
    """A line `generator`."""

    line: int
    vertex: int
    move: tuple


class RelatorLine(typing.NamedTuple):
    """A line `relator`."""

    line: int
    vertex: int
    moves: list
    numbers: list


class Presentation(typing.NamedTuple):
    """The lines of an answer of `stabiliser`. Those that count generators and relators stand with what they count."""

    words: list
    side: tuple
    level: tuple
    tree: list
    generators: tuple
    relators: tuple


def read_vertex(reader, line, text):
    return reader.number(line, text, 1, MOST_VALUE) - 1


def read_tree(reader):
    line, fields = reader.next("tree")
    if len(fields) != 3:
        raise BadLine(line)
    vertex, parent = (read_vertex(reader, line, field) for field in fields[:2])
    return TreeLine(line, vertex, parent, reader.move(line, fields[2]))


def read_generator(reader):
    line, fields = reader.next("generator")
    if len(fields) != 2:
        raise BadLine(line)
    return GeneratorLine(line, read_vertex(reader, line, fields[0]), reader.move(line, fields[1]))


def read_relator(reader):
    line, fields = reader.next("relator")
    middle = fields.index("=") if "=" in fields else 0
    if middle < 2:
        raise BadLine(line)
    vertex = read_vertex(reader, line, fields[0])
    moves = [reader.move(line, field) for field in fields[1:middle]]
    return RelatorLine(line, vertex, moves, [reader.number(line, field, 1, MOST_VALUE) for field in fields[middle + 1 :]])


def read_counted(reader, keyword, most, read):
    """The number of a line with a count, and so many lines behind it."""
    line, fields = reader.next(keyword)
    if len(fields) != 1:
        raise BadLine(line)
    count = reader.number(line, fields[0], 0, most)
    return line, [read(reader) for _ in range(count)]


def refuse_undecided(reader):
    """Refuses a verdict, if that is the next line."""
    if not reader.is_next("verdict"):
        return
    line, verdict = reader.next("verdict")
    if len(verdict) != 3 or verdict[0] != "undecided":
        raise BadLine(line)
    if verdict[1] in ("length", "level"):
        reader.number(line, verdict[2], 0, MOST_NUMBER)
    elif verdict[1:] not in (["edges", str(MOST_EDGES)], ["relators", str(MOST_RELATORS)]):
        raise BadLine(line)
    raise NoCertificate(line)


def read_presentation(reader):
    _, words = reader.tuple("tuple")
    refuse_undecided(reader)
    side = read_side(reader)
    level = read_level(reader)
    _, ats = level
    tree = [read_tree(reader) for _ in ats[1:]]
    generators = read_counted(reader, "generators", MOST_EDGES, read_generator)
    relators = read_counted(reader, "relators", MOST_RELATORS, read_relator)
    read_end(reader)
    return Presentation(words, side, level, tree, generators, relators)


class Graph:
    """A level as a graph: its tuples are the vertices, the end is the root, and edges are the level moves.

    `edges` has the end of each edge, which is a vertex and a move.
    """

    def __init__(self, rank, root, vertices):
        self.rank = rank
        places = {hashed(words): place for place, words in enumerate(vertices)}
        self.root = places[hashed(root)]
        self.others = [place for place in range(len(vertices)) if place != self.root]
        self.edges = {}
        for place, words in enumerate(vertices):
            for move, images in zip(every_move(rank), every_images(rank)):
                taken = taken_by(words, images)
                if length(taken) == length(words) and not is_identity_cut(move):
                    self.edges[place, move] = places[hashed(map(first_rotation, taken))]


def is_identity_cut(move):
    return move[0] == "cut" and len(move[2]) == 1


def way_to_root(parents, rooted, place):
    """The vertices before the first that is known to lead to the root; None where there is none."""
    way = set()
    while place not in rooted:
        if place in way or place not in parents:
            return None
        way.add(place)
        place, _ = parents[place]
    return way


def check_tree(graph, lines):
    """The parent of each vertex but the root, and the move from there."""
    parents = {place: (told.parent, told.move) for place, told in zip(graph.others, lines)}
    rooted = {graph.root}
    for place, told in zip(graph.others, lines):
        way = way_to_root(parents, rooted, place)
        if told.vertex != place or graph.edges.get(parents[place]) != place or way is None:
            raise Broken(told.line, "tree")
        rooted |= way
    return parents


def check_generators(graph, parents, generators):
    """The numbers of the edges that aren't in the tree."""
    count_line, lines = generators
    off_tree = [edge for edge, end in graph.edges.items() if parents.get(end) != edge]
    if len(lines) != len(off_tree):
        raise Broken(count_line, "generators")
    for told, edge in zip(lines, off_tree):
        if (told.vertex, told.move) != edge:
            raise Broken(told.line, "generator")
    return {edge: number for number, edge in enumerate(off_tree, 1)}


def composite(line, rank, moves):
    """The images of the generators under a list of moves, each reduced. They never have too many letters."""
    words = [[2 * g] for g in range(rank)]
    for move in moves:
        images = images_of(rank, move)
        words = [freely_reduced([y for x in word for y in images[x]]) for word in words]
        if length(words) > MOST_IMAGE_LETTERS:
            raise Broken(line, "wide")
    return words


def find_round(graph, relator):
    """The edges on the way of a relator, which leads back to its vertex."""
    place, passed = relator.vertex, []
    for move in relator.moves:
        edge = place, move
        if edge not in graph.edges:
            raise Broken(relator.line, "step")
        passed.append(edge)
        place = graph.edges[edge]
    if place != relator.vertex:
        raise Broken(relator.line, "loop")
    return passed


def check_relator(graph, numbers, relator):
    passed = find_round(graph, relator)
    if composite(relator.line, graph.rank, relator.moves) != composite(relator.line, graph.rank, []):
        raise Broken(relator.line, "identity")
    if relator.numbers != [numbers[edge] for edge in passed if edge in numbers]:
        raise Broken(relator.line, "numbers")


def check_generated(rank, told):
    """Tries the rules of all lines but those of relators. Returns the graph, its tree, and the numbers of generators."""
    check_side(rank, told.words, told.side)
    _, (_, end), _ = told.side
    check_level(rank, end, None, told.level)
    graph = Graph(rank, end, [words for _, words in told.level[1]])
    parents = check_tree(graph, told.tree)
    return graph, parents, check_generators(graph, parents, told.generators)


def check_presented(reader):
    told = read_presentation(reader)
    graph, _, numbers = check_generated(reader.rank, told)
    _, relators = told.relators
    for relator in relators:
        check_relator(graph, numbers, relator)


# ---- all answers


def read_heading(reader, commands):
    """The command of the first line, which has to be one of these."""
    line, heading = reader.next("whitehead")
    if len(heading) != 2 or heading[0] != "1" or heading[1] not in COMMANDS:
        raise BadLine(line)
    if heading[1] not in commands:
        raise NoCertificate(line)
    return heading[1]


def read_rank(reader, greatest):
    """The rank of the second line, which may be too great for the command."""
    line, fields = reader.next("rank")
    if len(fields) != 1:
        raise BadLine(line)
    rank = reader.number(line, fields[0], 1, GREATEST_RANK)
    if rank > greatest:
        raise LevelRank(rank)
    return rank


# The commands whose answers `whitehead check` judges: the greatest rank, and what checks the lines behind that of the rank.
CHECKED = {
    "reduce": (GREATEST_RANK, check_reduced),
    "decide": (GREATEST_LEVEL_RANK, check_decided),
    "stabiliser": (GREATEST_STABILISER_RANK, check_presented),
}


def check(data):
    """Returns where the answer is valid, and raises Refused or Broken elsewhere."""
    reader = Reader(data)
    greatest, check_lines = CHECKED[read_heading(reader, CHECKED)]
    reader.rank = read_rank(reader, greatest)
    check_lines(reader)


def check_straightened(data):
    """The same for an answer of `straighten`."""
    reader = Reader(data)
    read_heading(reader, ("straighten",))
    reader.rank = read_rank(reader, GREATEST_RANK)
    check_straight(reader)


def read_stabiliser(data):
    """The rank and the lines of an answer of `stabiliser`."""
    reader = Reader(data)
    read_heading(reader, ("stabiliser",))
    reader.rank = read_rank(reader, GREATEST_STABILISER_RANK)
    return reader.rank, read_presentation(reader)


def found(data, checked=check):
    """What is told of a text, and the exit status."""
    try:
        checked(data)
    except Refused as refused:
        return f"refused {refused.cause}", 2
    except Broken as broken:
        return f"invalid line {broken.line} {broken.rule}", 1
    return "valid", 0


def main(words):
    if words not in ([], ["--straightened"]):
        print(__doc__, file=sys.stdout if words == ["--help"] else sys.stderr)
        return 0 if words == ["--help"] else 64
    data = sys.stdin.buffer.read(MOST_BYTES + 1)
    text, status = found(data, check_straightened if words else check)
    print(text)
    return status


if __name__ == "__main__":
    sys.exit(main(sys.argv[1:]))
