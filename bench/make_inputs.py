#!/usr/bin/env python3
"""Writes the inputs of the benchmarks, always the same ones, into bench/inputs.

    make_inputs.py
"""

import pathlib
import random
import sys

ROOT = pathlib.Path(__file__).parent
sys.path.insert(0, str(ROOT.parent / "tools"))
from check_certificate import act, cyclic_word, images_of, inverse, length, taken_by
from random_certificates import moves_line


def text(word):
    return "".join(chr((65 if x % 2 else 97) + x // 2) for x in word) or "1"


def spelled(word):
    """The letters of a word."""
    return [2 * (ord(letter.lower()) - ord("a")) + letter.isupper() for letter in word]


def reduced(rng, rank, length):
    """A random freely reduced word."""
    word = []
    while len(word) < length:
        x = rng.randrange(2 * rank)
        if not word or word[-1] != inverse(x):
            word.append(x)
    return word


def random_cut(rng, rank):
    multiplier = rng.randrange(2 * rank)
    others = (x for x in range(2 * rank) if x // 2 != multiplier // 2 and rng.random() < 0.4)
    return "cut", multiplier, frozenset([multiplier, *others])


def primitive(rng, rank, least, most):
    """The image of a generator under random cuts, with at least so many letters."""
    words = [[0]]
    while len(words[0]) < least:
        moved = act(words, random_cut(rng, rank))
        if len(moved[0]) <= most:
            words = moved
    return words[0]


def random_move(rng, rank, words):
    """A swap, an inversion, or a cut: some cuts at random, and others that take the second of two neighbouring letters of a
    tuple away wherever they stand side by side, which shorten as often as not."""
    way = rng.randrange(10)
    if way == 0:
        return rng.choice([("swap", rng.randrange(1, rank)), ("invert", rng.randrange(1, rank + 1))])
    word = rng.choice(words)
    place = rng.randrange(len(word))
    before, multiplier = word[place - 1], inverse(word[place])
    if way < 7 or before // 2 == multiplier // 2:
        return random_cut(rng, rank)
    return "cut", multiplier, frozenset([multiplier, before])


def wandering(rng, rank, words, count, most):
    """So many random moves, each of which changes a tuple, on whose way it has at most so many letters."""
    moves = []
    while len(moves) < count:
        move = random_move(rng, rank, words)
        moved = taken_by(words, images_of(rank, move))
        if moved != words and length(moved) <= most:
            moves.append(move)
            words = moved
    return moves


def write(name, comment, rank, *tuples, moves=None):
    lines = [" ".join(["tuple"] + [text(word) for word in words]) for words in tuples]
    if moves is not None:
        lines.append(moves_line("moves", moves))
    (ROOT / "inputs" / f"{name}.txt").write_text("\n".join([f"# {comment}", f"rank {rank}", *lines]) + "\n")


def surface(genus):
    """The boundary of a surface of this genus with one hole: a product of commutators."""
    return [x for g in range(genus) for x in (4 * g, 4 * g + 2, 4 * g + 1, 4 * g + 3)]


def squares(count):
    """The boundary of a surface with one hole that is glued together of so many projective planes."""
    return [x for g in range(count) for x in (2 * g, 2 * g)]


def main():
    rng = random.Random(20)
    write("short_rank2", "A short word.", 2, [cyclic_word(reduced(rng, 2, 20))])
    write("slow_rank4", "A primitive word that each step shortens by one letter.", 4, [[0] + [2] * 3999])
    for rank in (4, 10, 26):
        write(f"random_rank{rank}", "A random word of 4,000 letters.", rank, [reduced(rng, rank, 4000)])
    for rank in (4, 10, 26):
        write(f"primitive_rank{rank}", "A primitive word of about 4,000 letters.", rank, [primitive(rng, rank, 3000, 4000)])
    write("alphabet_rank26", "The product of all generators.", 26, [[2 * g for g in range(26)]])
    write("many_words_rank6", "64 random words of 60 letters.", 6, [reduced(rng, 6, 60) for _ in range(64)])
    for rank in (4, 6):
        basis = [[2 * g] for g in range(rank)]
        write(f"level_rank{rank}", "A basis and the same in reverse order.", rank, basis, basis[::-1])
    basis = [[2 * g] for g in range(6)]
    write("no_level_rank6", "A basis, and the same with one letter twice.", 6, basis, basis[:5] + basis[4:5])
    write("no_level_rank4", "Surface words of two surfaces.", 4, [surface(2)], [squares(4)])
    write("passed_rank6", "Surface words of two surfaces, whose level is larger than 10,000 tuples.", 6, [surface(3)], [squares(6)])
    for rank in (3, 10, 26):
        write(f"flat_rank{rank}", "64 random words of 64 letters.", rank, [reduced(rng, rank, 64) for _ in range(64)])
    dense = [reduced(rng, 24, 100) for _ in range(15)]
    write("chain_rank26", "2,500 steps of one letter each, beside 24 generators that no cut shortens.", 26, [*dense, [48] + [50] * 2500])
    write("no_level_two_words_rank3", "Surface words of two surfaces, and the two exchanged.", 3, [spelled("abcABC"), squares(3)], [squares(3), spelled("abcABC")])
    write("no_level_two_words_rank4", "A surface word and a curve, and the same with another curve.", 4, *[[spelled("aabbcdcd"), spelled(curve)] for curve in ("ab", "ac")])
    write("no_level_letters_rank5", "A basis, and the same with one letter twice.", 5, *[[[x] for x in letters] for letters in ([0, 2, 4, 6, 8], [0, 2, 4, 6, 6])])
    write("no_level_squares_rank5", "Three words, and the same with another letter.", 5, *[[squares(3), [6, 6], [x]] for x in (8, 0)])
    write("no_level_planes_rank4", "Surface words of two surfaces, the larger level first.", 4, [squares(4)], [surface(2)])
    write("no_level_periodic_rank4", "The same 30 times over: words of 240 letters.", 4, [squares(4) * 30], [surface(2) * 30])
    write("no_level_long_rank6", "Two random words of 240 letters.", 6, *[[reduced(rng, 6, 240)] for _ in range(2)])
    write("words_rank3", "Twenty words of three letters and more, and the same with every generator inverted.", 3, *[[[x ^ flip for x in word] for word in ([0, 2, 4] * (k % 3 + 1) + [2 * (k % 3)] * (k % 4) for k in range(20))] for flip in (0, 1)])
    for rank in (2, 3, 6, 26):
        basis = [[2 * g] for g in range(rank)]
        moves = wandering(rng, rank, basis, 1024, 1000)
        write(f"straighten_rank{rank}", "1,024 random moves, on whose way a basis gets up to 1,000 letters.", rank, basis, moves=moves)
    write("stabiliser_squares_rank3", "Surface words, whose level has 328 tuples and 14,408 edges.", 3, [squares(3)])
    write("stabiliser_basis_rank4", "A basis.", 4, [[2 * g] for g in range(4)])
    words = [spelled(word) for word in ("cc", "Bc", "adaD", "aCaCBB")]
    write("stabiliser_full_rank4", "A level with nearly as many relators as there may be: 392,832.", 4, words)


if __name__ == "__main__":
    if sys.argv[1:]:
        print(__doc__, file=sys.stdout if sys.argv[1:] == ["--help"] else sys.stderr)
        sys.exit(0 if sys.argv[1:] == ["--help"] else 2)
    main()
