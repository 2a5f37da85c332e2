#!/usr/bin/env python3
"""Writes lists of moves as automorphisms: what they take the generators to.

    automorphism.py RANK MOVE ..             writes the automorphism of a list of moves
    automorphism.py --generators < answer    writes that of each generator in an answer of `whitehead stabiliser`

    $ tools/automorphism.py 2 a:ab s1
    a -> b
    b -> ab
    GroupHomomorphismByImages(F, F, [F.1, F.2], [F.2, F.1*F.2])

The last line is for GAP, where F is FreeGroup(RANK). Automorphisms act on the right: of two moves the first acts first. So
lists that follow one another are the product of their automorphisms, in GAP too.

A generator `generator V MOVE` of a stabiliser stands for a list of moves, which fixes the tuple: the trace, the tree's path
to vertex V, MOVE, the path to the vertex after MOVE back, and the trace back. The answer has to keep the rules of
`check_certificate.py`, but for those of relators. Images have at most 65,536 letters on the way.
"""

import sys

from check_certificate import GREATEST_RANK, MOST_BYTES, BadLine, Broken, Reader, Refused
from check_certificate import check_generated, composite, inverse, read_stabiliser


def letter_text(x):
    letter = chr(ord("a") + x // 2)
    return letter.upper() if x % 2 else letter


def gap_letter(x):
    return f"F.{x // 2 + 1}" + "^-1" * (x % 2)


def gap_word(word):
    return "*".join(map(gap_letter, word))


def lines_of(rank, images):
    """The lines that tell what the generators go to."""
    for g, word in enumerate(images):
        yield f"{letter_text(2 * g)} -> {''.join(map(letter_text, word))}"
    generators = ", ".join(gap_letter(2 * g) for g in range(rank))
    yield f"GroupHomomorphismByImages(F, F, [{generators}], [{', '.join(map(gap_word, images))}])"


def undone(move):
    """The inverse of a move."""
    if move[0] != "cut":
        return move
    _, multiplier, letters = move
    return "cut", inverse(multiplier), letters - {multiplier} | {inverse(multiplier)}


def back(moves):
    return [undone(move) for move in reversed(moves)]


# ---- answers of stabiliser


def path_to(graph, parents, vertex):
    """The path from the root of a graph to a vertex, by the parents of a tree."""
    turned = []
    while vertex != graph.root:
        vertex, move = parents[vertex]
        turned.append(move)
    return turned[::-1]


def generator_lists(data):
    """The rank, and for each generator of an answer of `stabiliser` its list of moves."""
    rank, told = read_stabiliser(data)
    graph, parents, numbers = check_generated(rank, told)
    (_, trace), _, _ = told.side

    def path(vertex):
        return trace + path_to(graph, parents, vertex)

    return rank, (path(vertex) + [move] + back(path(graph.edges[vertex, move])) for vertex, move in numbers)


def generators_lines(data):
    """The lines that tell the generators of an answer."""
    rank, lists = generator_lists(data)
    for number, moves in enumerate(lists, 1):
        yield f"generator {number}"
        yield from lines_of(rank, composite(0, rank, moves))


# ---- the command line


def read_words(words):
    """The rank and the moves that words tell."""
    reader = Reader(b"")
    reader.rank = reader.number(0, words[0], 1, GREATEST_RANK)
    return reader.rank, [reader.move(0, word) for word in words[1:]]


def lines_for(words):
    """The lines that words ask for."""
    if words == ["--generators"]:
        return list(generators_lines(sys.stdin.buffer.read(MOST_BYTES + 1)))
    rank, moves = read_words(words)
    return list(lines_of(rank, composite(0, rank, moves)))


def main(words):
    if not words or words == ["--help"]:
        print(__doc__, file=sys.stdout if words else sys.stderr)
        return 0 if words else 64
    try:
        lines = lines_for(words)
    except Broken:
        print("automorphism: the answer has no valid generators, or images have too many letters", file=sys.stderr)
        return 2
    except Refused as refused:
        cause = refused.cause if words == ["--generators"] else "the rank or a move isn't spelled as it should be"
        print(f"automorphism: {cause}", file=sys.stderr)
        return 2
    print(*lines, sep="\n")
    return 0


if __name__ == "__main__":
    sys.exit(main(sys.argv[1:]))
