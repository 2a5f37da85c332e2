"""Right answers of `stabiliser`, what is found of them where they are altered, and automorphisms.

What is found was written by hand, by the rules that stand in `check_certificate`, and so were the automorphisms. The answers
have some of the relators that the reference writes, of each family some.
"""

from altered_answers import FAR, STABILISER

# ---- parts of answers


def cuts_of(rank):
    """The cuts of a rank in order, but for those whose set is the multiplier alone."""
    letters = "aAbBcCdD"[: 2 * rank]
    for multiplier in letters:
        others = [x for x in letters if x.lower() != multiplier.lower()]
        for number in range(1, 2 ** len(others)):
            chosen = {multiplier, *(x for place, x in enumerate(others) if number >> place & 1)}
            yield f"{multiplier}:{''.join(x for x in letters if x in chosen)}"


def all_moves(rank):
    return " ".join([*(f"s{k}" for k in range(1, rank)), *(f"i{k}" for k in range(1, rank + 1)), *cuts_of(rank)])


def generators(*moves):
    """The lines of generators, by the moves from each vertex."""
    lines = [f"generator {vertex} {move}\n" for vertex, each in enumerate(moves, 1) for move in each.split()]
    return f"generators {len(lines)}\n{''.join(lines)}"


def relators(*lines):
    return f"relators {len(lines)}\n" + "".join(f"relator {line}\n" for line in lines)


# ---- right answers

# No words, one empty word, and the cube of a letter.
NO_WORDS = """whitehead 1 stabiliser
rank 1
tuple
trace
end
flow a 0
level 1
at
generators 1
generator 1 i1
relators 1
relator 1 i1 i1 = 1 1
done
"""
EMPTY_WORD = """whitehead 1 stabiliser
rank 1
tuple 1
trace
end 1
flow a 0
level 1
at 1
generators 1
generator 1 i1
relators 1
relator 1 i1 i1 = 1 1
done
"""
CUBE = STABILISER

# All automorphisms of the free group of rank 2, with a relator of each family of the nine and two of swaps.
ALL = f"""whitehead 1 stabiliser
rank 2
tuple
trace
end
flow a 0
flow b 0
level 1
at
{generators("s1 i1 i2 a:ab a:aB a:abB A:Ab A:AB A:AbB b:ab b:Ab b:aAb B:aB B:AB B:aAB")}{relators(
    "1 a:ab A:Ab = 4 7",
    "1 a:ab a:aB A:AbB = 4 5 9",
    "1 a:ab b:Ab s1 i1 B:aB = 4 11 1 2 13",
    "1 s1 a:ab s1 B:aB = 1 4 1 13",
    "1 i1 b:ab i1 B:AB = 2 10 2 14",
    "1 s1 s1 = 1 1",
    "1 s1 i1 s1 i2 = 1 2 1 3",
    "1 a:abB A:AB A:Ab = 6 8 7",
)}done
"""

# abAB, with a tree of one edge.
TORUS = f"""whitehead 1 stabiliser
rank 2
tuple abAB
trace
end abAB
flow a 2 ab:1 aB:1 bA:1 BA:1
flow b 2 aB:1 AB:1 ba:1 bA:1
level 2
at abAB
at aBAb
tree 2 1 s1
{generators(
    "i1 i2 a:ab a:aB a:abB A:Ab A:AB A:AbB b:ab b:Ab b:aAb B:aB B:AB B:aAB",
    "s1 i1 i2 a:ab a:aB a:abB A:Ab A:AB A:AbB b:ab b:Ab b:aAb B:aB B:AB B:aAB",
)}{relators(
    "1 a:ab b:Ab s1 i1 B:aB = 3 10 16 12",
    "1 s1 s1 = 15",
    "1 s1 a:ab s1 B:aB = 18 15 12",
    "1 i1 a:ab i1 a:ab = 1 18 16 3",
    "2 s1 s1 = 15",
    "2 a:ab A:Ab = 18 21",
)}done
"""

# ab, which a move takes to b. The end is the third vertex.
PRIMITIVE = f"""whitehead 1 stabiliser
rank 2
tuple ab
trace a:aB
end b
flow a 0
flow b 1 bB:1
level 4
at a
at A
at b
at B
tree 1 3 s1
tree 2 1 i1
tree 4 3 i2
{generators(
    "s1 i2 a:ab a:aB a:abB A:Ab A:AB A:AbB b:aAb B:aAB",
    "s1 i1 i2 a:ab a:aB a:abB A:Ab A:AB A:AbB b:aAb B:aAB",
    "i1 a:abB A:AbB b:ab b:Ab b:aAb B:aB B:AB B:aAB",
    "s1 i1 i2 a:abB A:AbB b:ab b:Ab b:aAb B:aB B:AB B:aAB",
)}{relators(
    "1 s1 s1 = 1",
    "1 s1 i1 s1 i2 = 1 22 2",
    "1 A:Ab b:aAb a:ab A:AbB B:aAB = 6 9 3 8 10",
    "2 i1 a:ab i1 a:ab = 12 3 14",
)}done
"""

# A letter beside the other.
LETTERS = f"""whitehead 1 stabiliser
rank 2
tuple a b
trace
end a b
flow a 1 aA:1
flow b 1 bB:1
level 8
at a b
at a B
at A b
at A B
at b a
at b A
at B a
at B A
tree 2 1 i2
tree 3 1 i1
tree 4 3 i2
tree 5 1 s1
tree 6 5 i1
tree 7 5 i2
tree 8 6 i2
{generators(
    "a:abB A:AbB b:aAb B:aAB",
    "s1 i1 i2 a:abB A:AbB b:aAb B:aAB",
    "s1 i1 a:abB A:AbB b:aAb B:aAB",
    "s1 i1 i2 a:abB A:AbB b:aAb B:aAB",
    "s1 a:abB A:AbB b:aAb B:aAB",
    "s1 i1 a:abB A:AbB b:aAb B:aAB",
    "s1 i1 i2 a:abB A:AbB b:aAb B:aAB",
    "s1 i1 i2 a:abB A:AbB b:aAb B:aAB",
)}{relators("1 a:abB A:AbB = 1 2", "2 i1 A:AbB i1 A:AbB = 6 22 19 9", "5 s1 b:aAb s1 A:AbB = 25 3 27")}done
"""

# aabb, with cuts in the tree. Some tuples of the level are reached by cuts alone.
KLEIN_CUTS = "a:ab a:aB a:abB A:Ab A:AB A:AbB b:ab b:Ab b:aAb B:aB B:AB B:aAB"
KLEIN = f"""whitehead 1 stabiliser
rank 2
tuple aabb
trace
end aabb
flow a 2 aA:1 aB:1 bA:1 Bb:1
flow b 2 aB:1 Aa:1 bA:1 bB:1
level 8
at aabb
at aaBB
at abaB
at abAb
at aBAB
at AAbb
at AABB
at AbAB
tree 2 1 i2
tree 3 1 b:Ab
tree 4 1 a:aB
tree 5 2 a:ab
tree 6 1 i1
tree 7 6 i2
tree 8 6 b:ab
{generators(
    "s1 a:abB A:Ab A:AbB b:aAb B:aB B:aAB",
    "s1 i1 i2 a:abB A:AB A:AbB b:ab b:aAb B:AB B:aAB",
    f"s1 i1 i2 {KLEIN_CUTS}",
    f"s1 i1 i2 {KLEIN_CUTS}",
    f"s1 i1 i2 {KLEIN_CUTS}",
    "s1 i1 a:ab a:abB A:AB A:AbB b:aAb B:AB B:aAB",
    "s1 i1 i2 a:aB a:abB A:Ab A:AbB b:Ab b:aAb B:aB B:aAB",
    f"s1 i1 i2 {KLEIN_CUTS}",
)}{relators(
    "1 a:aB A:AB = 40",
    "1 B:aB a:ab s1 i1 A:AB = 6 21 18 34 40",
    "2 b:ab a:abB B:aB b:aAb A:AbB = 14 23 30 15 13",
    "4 s1 b:ab s1 A:Ab = 33 27 1 3",
    "8 b:aAb B:AB B:aB = 94 96 81",
)}done
"""


def all_of_rank(rank, flows, *made):
    """An answer for no words: all moves are edges, and so the number of a move is its place."""
    return f"""whitehead 1 stabiliser
rank {rank}
tuple
trace
end
{flows}level 1
at
{generators(all_moves(rank))}{relators(*made)}done
"""


# The swaps have the numbers 1 and 2, the inversions 3 to 5, and the cuts 6 to 95; in rank 4 the swaps 1 to 3, the inversions
# 4 to 7, and the cuts 8 to 511.
THREE = all_of_rank(
    3,
    "flow a 0\nflow b 0\nflow c 0\n",
    "1 s1 s2 s1 s2 s1 s2 = 1 2 1 2 1 2",
    "1 s2 i1 s2 i1 = 2 3 2 3",
    "1 a:ab a:aB A:AbB = 6 7 23",
    "1 a:ab a:ac A:Abc = 6 9 25",
)
FOUR = all_of_rank(
    4,
    "flow a 0\nflow b 0\nflow c 0\nflow d 0\n",
    "1 s1 s3 s1 s3 = 1 3 1 3",
    "1 i4 i4 = 7 7",
    "1 a:ab A:Ab = 8 71",
    "1 D:aAbBcCD d:aAbBcCd = 511 448",
)

RIGHT = [NO_WORDS, EMPTY_WORD, CUBE, ALL, TORUS, PRIMITIVE, LETTERS, KLEIN, THREE, FOUR]

# Answers of which each line is altered, and those of them that are altered so in the table of runs.
SHORT = [CUBE, TORUS, PRIMITIVE, LETTERS]
IN_TABLE = [CUBE, TORUS]

# ---- alterations

# Moves whose images have 46,368 letters, and back; and the same by images of 75,025 letters. The second list is the first
# with one move more on either way. Their numbers are those of ALL.
NARROW = " ".join(["a:ab b:ab"] * 10 + ["a:ab A:Ab"] + ["B:aB A:Ab"] * 10)
NARROW_NUMBERS = " ".join(["4 10"] * 10 + ["4 7"] + ["13 7"] * 10)
WIDE = " ".join(["a:ab b:ab"] * 11 + ["B:aB A:Ab"] * 11)
WIDE_NUMBERS = " ".join(["4 10"] * 11 + ["13 7"] * 11)

# An answer without what stands between its tuple and its last line.
NOTHING_BEHIND = "whitehead 1 stabiliser\nrank 2\ntuple abAB\nverdict undecided level 5\ndone\n"
VERDICT = "verdict undecided level 5"

# TORUS with another tree, and no relators: of the swap and the inversion that lead to the second vertex, the swap is a
# generator.
TORUS_BY_I1 = TORUS.replace("tree 2 1 s1", "tree 2 1 i1").replace("generator 1 i1\n", "generator 1 s1\n")
TORUS_BY_I1 = f"{TORUS_BY_I1[: TORUS_BY_I1.index('relators ')]}{relators()}done\n"

# PRIMITIVE with another tree, which is one path: the parents of the first two vertices come later.
PRIMITIVE_BY_A_PATH = f"""{PRIMITIVE[: PRIMITIVE.index("tree ")]}tree 1 2 i1
tree 2 4 s1
tree 4 3 i2
{generators(
    "s1 i1 i2 a:ab a:aB a:abB A:Ab A:AB A:AbB b:aAb B:aAB",
    "s1 i2 a:ab a:aB a:abB A:Ab A:AB A:AbB b:aAb B:aAB",
    "s1 i1 a:abB A:AbB b:ab b:Ab b:aAb B:aB B:AB B:aAB",
    "i1 i2 a:abB A:AbB b:ab b:Ab b:aAb B:aB B:AB B:aAB",
)}{relators(
    "1 s1 s1 = 1 22",
    "1 s1 i1 s1 i2 = 1 23 22 3",
    "2 i1 i1 = 2",
)}done
"""

# An answer, what is replaced in it, by what, and what is found.
ALTERATIONS = [
    # ---- lines, fields and bytes
    (CUBE, "whitehead 1 stabiliser\nrank 1", "# a comment\n whitehead  1  stabiliser\n\nrank 1 ", "valid"),
    (CUBE, "done\n", "done", "valid"),
    (CUBE, "tree 2 1 i1", "#\n  tree  2 1   i1 ", "valid"),
    (CUBE, "relator 2 i1 i1 = 1", " relator  2  i1 i1  =  1 ", "valid"),
    (CUBE, "1 stabiliser", "1 reduce", "refused bad-line line 7"),
    (CUBE, "1 stabiliser", "1 decide", "refused bad-line line 3"),
    (CUBE, "1 stabiliser", "1 straighten", "refused no-certificate line 1"),
    (CUBE, "1 stabiliser\nrank 1", "1 gen\n\t", "refused no-certificate line 1"),
    (CUBE, "1 stabiliser", "2 stabiliser", "refused bad-line line 1"),
    (CUBE, "1 stabiliser", "1 stabilizer", "refused bad-line line 1"),
    (CUBE, "rank 1", "rank 0", "refused bad-line line 2"),
    (CUBE, "rank 1", "rank 27", "refused bad-line line 2"),
    (CUBE, "rank 1", "rank 5", "refused level-rank 5"),
    (CUBE, "rank 1\n", "rank 26\n\t", "refused level-rank 26"),
    (CUBE, "rank 1", "rank 4", "refused bad-line line 7"),
    (CUBE, "rank 1", f"rank {'9' * 5000}", "refused bad-line line 2"),
    (CUBE, "tuple aaa", "first aaa", "refused bad-line line 3"),
    (CUBE, "tuple aaa", "tuple aaa 1", "refused bad-line line 5"),
    (CUBE, "tuple aaa", "tuple aaAaa", "valid"),
    (CUBE, "tree", "tree\t", "refused bad-byte line 10 column 5"),
    (CUBE, "i1 i1 = 1\ndone", "i1 i1 = 1\xff\ndone", "refused bad-byte line 15 column 20"),
    (CUBE, "done\n", "done\n\x80", "refused bad-byte line 17 column 1"),
    (CUBE, "done\n", "", "refused bad-line line 16"),
    (CUBE, "done\n", "done\nrelator 1 i1 i1 = 1\n", "refused bad-line line 17"),
    # ---- undecided answers
    (NOTHING_BEHIND, VERDICT, "verdict undecided level 5", "refused no-certificate line 4"),
    (NOTHING_BEHIND, VERDICT, "verdict undecided length 300", "refused no-certificate line 4"),
    (NOTHING_BEHIND, VERDICT, "verdict undecided edges 65536", "refused no-certificate line 4"),
    (NOTHING_BEHIND, VERDICT, "#\nverdict  undecided relators 393216\n\t", "refused no-certificate line 5"),
    (NOTHING_BEHIND, VERDICT, "verdict undecided level 18446744073709551615", "refused no-certificate line 4"),
    (NOTHING_BEHIND, VERDICT, "verdict undecided level 18446744073709551616", "refused bad-line line 4"),
    (NOTHING_BEHIND, VERDICT, "verdict undecided edges 65535", "refused bad-line line 4"),
    (NOTHING_BEHIND, VERDICT, "verdict undecided edges 065536", "refused bad-line line 4"),
    (NOTHING_BEHIND, VERDICT, "verdict undecided edges 393216", "refused bad-line line 4"),
    (NOTHING_BEHIND, VERDICT, "verdict undecided relators 65536", "refused bad-line line 4"),
    (NOTHING_BEHIND, VERDICT, "verdict undecided edges", "refused bad-line line 4"),
    (NOTHING_BEHIND, VERDICT, "verdict undecided time 5", "refused bad-line line 4"),
    (NOTHING_BEHIND, VERDICT, "verdict undecided level 5 5", "refused bad-line line 4"),
    (NOTHING_BEHIND, VERDICT, "verdict yes", "refused bad-line line 4"),
    (NOTHING_BEHIND, VERDICT, "verdict", "refused bad-line line 4"),
    (NOTHING_BEHIND, VERDICT, "verdict undecided level 5\t", "refused bad-byte line 4 column 26"),
    (NOTHING_BEHIND, "rank 2", "rank 5", "refused level-rank 5"),
    (NOTHING_BEHIND, f"{VERDICT}\ndone\n", "", "refused bad-line line 4"),
    (CUBE, "trace", "verdict undecided level 5\ntrace", "refused no-certificate line 4"),
    (CUBE, "end aaa", "verdict undecided level 5\nend aaa", "refused bad-line line 5"),
    # ---- numbers and fields of lines
    (CUBE, "level 2", "level 0", "refused bad-line line 7"),
    (CUBE, "level 2", "level 131073", "refused bad-line line 7"),
    (CUBE, "level 2", "level 1", "refused bad-line line 9"),
    (CUBE, "level 2", "level 3", "refused bad-line line 10"),
    (CUBE, "tree 2 1 i1", "tree 2 1", "refused bad-line line 10"),
    (CUBE, "tree 2 1 i1", "tree 2 1 i1 i1", "refused bad-line line 10"),
    (CUBE, "tree 2 1 i1", "tree 2 0 i1", "refused bad-line line 10"),
    (CUBE, "tree 2 1 i1", "tree 0 1 i1", "refused bad-line line 10"),
    (CUBE, "tree 2 1 i1", "tree 2 01 i1", "refused bad-line line 10"),
    (CUBE, "tree 2 1 i1", "tree 2 1 i2", "refused bad-line line 10"),
    (CUBE, "tree 2 1 i1", "tree 2 1 s1", "refused bad-line line 10"),
    (CUBE, "tree 2 1 i1\n", "", "refused bad-line line 10"),
    (CUBE, "tree 2 1 i1\n", "tree 2 1 i1\ntree 2 1 i1\n", "refused bad-line line 11"),
    (NO_WORDS, "generators 1", "tree 1 1 i1\ngenerators 1", "refused bad-line line 9"),
    (CUBE, "generators 1", "generators", "refused bad-line line 11"),
    (CUBE, "generators 1", "generators 1 1", "refused bad-line line 11"),
    (CUBE, "generators 1", "generators 0", "refused bad-line line 12"),
    (CUBE, "generators 1", "generators 01", "refused bad-line line 11"),
    (CUBE, "generators 1", "generators 2", "refused bad-line line 13"),
    (CUBE, "generators 1", "generators 65536", "refused bad-line line 13"),
    (CUBE, "generators 1", "generators 65537", "refused bad-line line 11"),
    (CUBE, "generator 2 i1", "generator 2", "refused bad-line line 12"),
    (CUBE, "generator 2 i1", "generator 0 i1", "refused bad-line line 12"),
    (CUBE, "generator 2 i1", "generator 2 i1 i1", "refused bad-line line 12"),
    (CUBE, "generator 2 i1", "generator 2 i0", "refused bad-line line 12"),
    (CUBE, "generator 2 i1", "generator i1 2", "refused bad-line line 12"),
    (CUBE, "relators 2", "relators", "refused bad-line line 13"),
    (CUBE, "relators 2", "relators 0", "refused bad-line line 14"),
    (CUBE, "relators 2", "relators 1", "refused bad-line line 15"),
    (CUBE, "relators 2", "relators 3", "refused bad-line line 16"),
    (CUBE, "relators 2", "relators 393216", "refused bad-line line 16"),
    (CUBE, "relators 2", "relators 393217", "refused bad-line line 13"),
    (CUBE, "relator 1 i1 i1 = 1", "relator 1 = 1", "refused bad-line line 14"),
    (CUBE, "relator 1 i1 i1 = 1", "relator 1 =", "refused bad-line line 14"),
    (CUBE, "relator 1 i1 i1 = 1", "relator = 1", "refused bad-line line 14"),
    (CUBE, "relator 1 i1 i1 = 1", "relator", "refused bad-line line 14"),
    (CUBE, "relator 1 i1 i1 = 1", "relator 1 i1 i1 1", "refused bad-line line 14"),
    (CUBE, "relator 1 i1 i1 = 1", "relator 1 i1 i1", "refused bad-line line 14"),
    (CUBE, "relator 1 i1 i1 = 1", "relator 1 i1 = i1 = 1", "refused bad-line line 14"),
    (CUBE, "relator 1 i1 i1 = 1", "relator 1 i1 i1 =1", "refused bad-line line 14"),
    (CUBE, "relator 1 i1 i1 = 1", "relator 0 i1 i1 = 1", "refused bad-line line 14"),
    (CUBE, "relator 1 i1 i1 = 1", "relator i1 i1 = 1", "refused bad-line line 14"),
    (CUBE, "relator 1 i1 i1 = 1", "relator 1 i1 i1 = 0", "refused bad-line line 14"),
    (CUBE, "relator 1 i1 i1 = 1", "relator 1 i1 i1 = i1", "refused bad-line line 14"),
    (CUBE, "relator 1 i1 i1 = 1", "relator 1 i1 i1 = 4294967296", "refused bad-line line 14"),
    # ---- the trace, the end and the flows
    (PRIMITIVE, "trace a:aB", "trace A:Ab", "valid"),
    (PRIMITIVE, "trace a:aB", "trace b:Ab s1", "valid"),
    (PRIMITIVE, "trace a:aB", f"trace {FAR} a:aB", "invalid line 4 long"),
    (KLEIN, "trace\n", f"trace {FAR}\n", "invalid line 4 long"),
    (TORUS, "trace\n", "trace a:ab b:ab\n", "valid"),
    (PRIMITIVE, "trace a:aB", "trace a:ab", "invalid line 5 end"),
    (PRIMITIVE, "trace a:aB", "trace", "invalid line 5 end"),
    (PRIMITIVE, "end b", "end B", "invalid line 5 end"),
    (PRIMITIVE, "flow a 0", "flow a 0 bB:1 Bb:1", "valid"),
    (PRIMITIVE, "flow b 1 bB:1", "flow b 1", "invalid line 7 flow"),
    (TORUS, "flow a 2", "flow a 1", "invalid line 6 flow"),
    (TORUS, "flow b 2", "flow a 2", "invalid line 7 flow"),
    (CUBE, "tuple aaa", "tuple aa", "invalid line 5 end"),
    # ---- the level
    (PRIMITIVE, "at a\n", "at ab\n", "invalid line 9 height"),
    (PRIMITIVE.replace("tree 1 3 s1\n", "tree 1 3 s1\ntree 2 3 s1\n"), "level 4\n", "level 5\nat 1\n", "invalid line 9 height"),
    (PRIMITIVE, "at b\nat B", "at B\nat b", "invalid line 12 sorted"),
    (PRIMITIVE, "at b\n", "at a\n", "invalid line 8 root"),
    (PRIMITIVE, "at B\n", "at b\n", "invalid line 10 closed"),
    (CUBE, "at aaa\nat AAA", "at AAA\nat aaa", "invalid line 9 sorted"),
    (CUBE, "level 2\nat aaa\nat AAA\ntree 2 1 i1", "level 1\nat AAA", "invalid line 7 root"),
    (CUBE, "level 2\nat aaa\nat AAA\ntree 2 1 i1", "level 1\nat aaa", "invalid line 8 closed"),
    (CUBE, "at AAA", "at AAAA", "invalid line 8 closed"),
    (TORUS, "level 2\nat abAB\n", "level 3\nat a\nat abAB\ntree 1 2 s1\n", "refused bad-line line 11"),
    # ---- the tree
    # Another vertex than the next, and one that isn't there.
    (TORUS, "tree 2 1 s1", "tree 1 1 s1", "invalid line 11 tree"),
    (TORUS, "tree 2 1 s1", "tree 3 1 s1", "invalid line 11 tree"),
    (PRIMITIVE, "tree 1 3 s1\ntree 2 1 i1", "tree 2 1 i1\ntree 1 3 s1", "invalid line 13 tree"),
    (PRIMITIVE, "tree 4 3 i2", "tree 3 4 i2", "invalid line 15 tree"),
    # A parent that is no vertex, the vertex itself, or another vertex.
    (TORUS, "tree 2 1 s1", "tree 2 3 s1", "invalid line 11 tree"),
    (TORUS, "tree 2 1 s1", "tree 2 4294967295 s1", "invalid line 11 tree"),
    (TORUS, "tree 2 1 s1", "tree 2 2 a:ab", "invalid line 11 tree"),
    (PRIMITIVE, "tree 4 3 i2", "tree 4 2 i2", "invalid line 15 tree"),
    # A move that stays, an identity cut, and one that changes the length.
    (TORUS, "tree 2 1 s1", "tree 2 1 a:ab", "invalid line 11 tree"),
    (TORUS, "tree 2 1 s1", "tree 2 1 a:a", "invalid line 11 tree"),
    (PRIMITIVE, "tree 1 3 s1", "tree 1 3 a:ab", "invalid line 13 tree"),
    # Parents in a circle. The first line of a vertex that doesn't lead to the end is told, also where another one is wrong.
    (PRIMITIVE, "tree 1 3 s1\ntree 2 1 i1", "tree 1 2 i1\ntree 2 1 i1", "invalid line 13 tree"),
    (PRIMITIVE, "tree 1 3 s1\ntree 2 1 i1\ntree 4 3 i2", "tree 1 3 s1\ntree 2 4 s1\ntree 4 2 s1", "invalid line 14 tree"),
    (PRIMITIVE, "tree 1 3 s1\ntree 2 1 i1", "tree 1 2 i1\ntree 2 9 i1", "invalid line 13 tree"),
    (PRIMITIVE, "tree 2 1 i1", "tree 2 9 i1", "invalid line 14 tree"),
    # Another tree, and by vertices whose own parents come later: then the edges off the tree are others.
    (TORUS, "tree 2 1 s1", "tree 2 1 i1", "invalid line 13 generator"),
    (TORUS_BY_I1, "done", "done", "valid"),
    (TORUS_BY_I1, "relators 0\n", relators("1 i1 i1 = 16", "2 i1 s1 = 16 1"), "invalid line 44 identity"),
    (TORUS_BY_I1, "relators 0\n", relators("1 i1 i1 = 16", "1 s1 s1 = 1 15"), "valid"),
    (PRIMITIVE_BY_A_PATH, "done", "done", "valid"),
    (PRIMITIVE_BY_A_PATH, "relator 2 i1 i1 = 2", "relator 2 i1 i1 =", "invalid line 61 numbers"),
    (PRIMITIVE_BY_A_PATH, "tree 4 3 i2", "tree 4 2 s1", "invalid line 13 tree"),
    (PRIMITIVE, "tree 2 1 i1", "tree 2 4 s1", "invalid line 18 generator"),
    (PRIMITIVE, "tree 1 3 s1\ntree 2 1 i1", "tree 1 2 i1\ntree 2 4 s1", "invalid line 18 generator"),
    # ---- the generators
    (NO_WORDS, "generators 1\ngenerator 1 i1\n", "generators 0\n", "invalid line 9 generators"),
    (CUBE, "generators 1\n", "generators 2\ngenerator 1 i1\n", "invalid line 11 generators"),
    (TORUS, "generators 29\ngenerator 1 i1\n", "generators 28\n", "invalid line 12 generators"),
    (TORUS, "generators 29\n", "generators 30\ngenerator 1 s1\n", "invalid line 12 generators"),
    (TORUS, "generators 29\n", "generators 30\ngenerator 1 i1\n", "invalid line 12 generators"),
    (FOUR, "generators 511\ngenerator 1 s1\n", "generators 510\n", "invalid line 12 generators"),
    # The edge of the tree, one of the same vertex twice, an identity cut, no edge, no vertex, and the order.
    (CUBE, "generator 2 i1", "generator 1 i1", "invalid line 12 generator"),
    (TORUS, "generator 1 i1", "generator 1 s1", "invalid line 13 generator"),
    (TORUS, "generator 1 i2", "generator 1 i1", "invalid line 14 generator"),
    (TORUS, "generator 1 a:ab\n", "generator 1 a:a\n", "invalid line 15 generator"),
    (PRIMITIVE, "generator 1 b:aAb", "generator 1 b:ab", "invalid line 25 generator"),
    (TORUS, "generator 2 s1", "generator 3 s1", "invalid line 27 generator"),
    (TORUS, "generator 2 s1", "generator 1 s1", "invalid line 27 generator"),
    (TORUS, "generator 1 i1\ngenerator 1 i2", "generator 1 i2\ngenerator 1 i1", "invalid line 13 generator"),
    (THREE, "generator 1 C:aAbBC", "generator 1 C:aAbBc", "refused bad-line line 106"),
    (THREE, "generator 1 C:aAbBC", "generator 1 c:aAbBc", "invalid line 106 generator"),
    # ---- the relators: none, and others that hold
    (CUBE, "relators 2\nrelator 1 i1 i1 = 1\nrelator 2 i1 i1 = 1\n", "relators 0\n", "valid"),
    (CUBE, "relator 1 i1 i1 = 1", "relator 1 i1 i1 i1 i1 = 1 1", "valid"),
    (CUBE, "relator 1 i1 i1 = 1", "relator 2 i1 i1 = 1", "valid"),
    (CUBE, "relator 1 i1 i1 = 1", "relator 1 i1 i1 = 65537", "invalid line 14 numbers"),
    (THREE, "relator 1 a:ab a:ac A:Abc = 6 9 25", "relator 1 a:ab a:ac A:Ab A:Ac = 6 9 21 24", "valid"),
    (ALL, "relator 1 a:ab A:Ab = 4 7", "relator 1 b:ab B:aB = 10 13", "valid"),
    # No vertex, no edge, identity cuts, and an edge of another vertex.
    (CUBE, "relator 2", "relator 3", "invalid line 15 step"),
    (TORUS, "relator 2 s1 s1", "relator 4294967295 s1 s1", "invalid line 47 step"),
    (TORUS, "relator 2 s1 s1 = 15", "relator 2 a:a = ", "invalid line 47 step"),
    (ALL, "relator 1 a:ab A:Ab = 4 7", "relator 1 a:ab a:a A:Ab = 4 7", "invalid line 27 step"),
    (PRIMITIVE, "relator 1 s1 s1 = 1", "relator 1 b:ab B:aB = 25 28", "invalid line 59 step"),
    (PRIMITIVE, "relator 1 s1 s1 = 1", "relator 3 b:ab B:aB = 25 28", "valid"),
    (PRIMITIVE, "relator 1 s1 i1 s1 i2", "relator 1 s1 a:ab s1 i2", "invalid line 60 step"),
    # Ways that don't lead back. A step that isn't there comes first.
    (CUBE, "relator 1 i1 i1 = 1", "relator 1 i1 =", "invalid line 14 loop"),
    (TORUS, "relator 1 s1 s1 = 15", "relator 1 s1 =", "invalid line 44 loop"),
    (TORUS, "relator 2 s1 s1 = 15", "relator 2 s1 s1 s1 = 15 15", "invalid line 47 loop"),
    (LETTERS, "relator 1 a:abB A:AbB = 1 2", "relator 1 a:abB A:AbB i2 = 1 2", "invalid line 75 loop"),
    (PRIMITIVE, "relator 1 s1 s1 = 1", "relator 1 s1 a:ab = 1", "invalid line 59 step"),
    # Images with too many letters.
    (ALL, "relator 1 s1 s1 = 1 1", f"relator 1 {NARROW} = {NARROW_NUMBERS}", "valid"),
    (ALL, "relator 1 s1 s1 = 1 1", f"relator 1 {WIDE} = {WIDE_NUMBERS}", "invalid line 32 wide"),
    (ALL, "relator 1 s1 s1 = 1 1", f"relator 1 {WIDE} i1 =", "invalid line 32 wide"),
    (ALL, "relator 1 s1 s1 = 1 1", f"relator 1 {WIDE} a:a =", "invalid line 32 step"),
    # Ways round that are other automorphisms: another letter, a conjugation, and one that the tuple doesn't show.
    (ALL, "relator 1 a:ab A:Ab = 4 7", "relator 1 a:ab A:AB = 4 8", "invalid line 27 identity"),
    (ALL, "relator 1 a:ab A:Ab = 4 7", "relator 1 a:ab = 4", "invalid line 27 identity"),
    (ALL, "relator 1 a:ab A:Ab = 4 7", "relator 1 a:abB = 6", "invalid line 27 identity"),
    (TORUS, "relator 2 a:ab A:Ab = 18 21", "relator 2 a:abB a:abB = 20 20", "invalid line 48 identity"),
    (TORUS, "relator 1 s1 s1 = 15", "relator 1 i1 s1 = 1 15", "invalid line 44 identity"),
    (LETTERS, "relator 1 a:abB A:AbB = 1 2", "relator 1 a:abB = 1", "invalid line 75 identity"),
    (THREE, "relator 1 s1 s2 s1 s2 s1 s2 = 1 2 1 2 1 2", "relator 1 s1 s2 s1 s2 = 1 2 1 2", "invalid line 108 identity"),
    (THREE, "relator 1 s2 i1 s2 i1 = 2 3 2 3", "relator 1 s2 i2 s2 i2 = 2 4 2 4", "invalid line 109 identity"),
    (FOUR, "relator 1 s1 s3 s1 s3 = 1 3 1 3", "relator 1 s1 s2 s1 s2 = 1 2 1 2", "invalid line 525 identity"),
    # A way read the other way round. Some of them are the identity too; then the numbers are others.
    (TORUS, "relator 1 s1 a:ab s1 B:aB = 18 15 12", "relator 1 B:aB s1 a:ab s1 = 12 18 15", "valid"),
    (TORUS, "relator 1 s1 a:ab s1 B:aB", "relator 1 B:aB s1 a:ab s1", "invalid line 45 numbers"),
    (KLEIN, "relator 4 s1 b:ab s1 A:Ab", "relator 4 A:Ab s1 b:ab s1", "invalid line 126 numbers"),
    (ALL, "relator 1 a:ab b:Ab s1 i1 B:aB", "relator 1 B:aB i1 s1 b:Ab a:ab", "invalid line 29 identity"),
    # Numbers: one is left out, one more stands there, two are exchanged, and others.
    (TORUS, "relator 1 s1 a:ab s1 B:aB = 18 15 12", "relator 1 s1 a:ab s1 B:aB = 18 12", "invalid line 45 numbers"),
    (TORUS, "relator 1 s1 a:ab s1 B:aB = 18 15 12", "relator 1 s1 a:ab s1 B:aB =", "invalid line 45 numbers"),
    (TORUS, "relator 1 s1 a:ab s1 B:aB = 18 15 12", "relator 1 s1 a:ab s1 B:aB = 18 15 12 12", "invalid line 45 numbers"),
    (TORUS, "relator 1 s1 a:ab s1 B:aB = 18 15 12", "relator 1 s1 a:ab s1 B:aB = 15 18 12", "invalid line 45 numbers"),
    (TORUS, "relator 1 s1 a:ab s1 B:aB = 18 15 12", "relator 1 s1 a:ab s1 B:aB = 3 15 12", "invalid line 45 numbers"),
    (ALL, "relator 1 a:ab A:Ab = 4 7", "relator 1 a:ab A:Ab = 7 4", "invalid line 27 numbers"),
    (FOUR, "= 511 448", "= 511 449", "invalid line 528 numbers"),
    # The edge of the tree has no number.
    (CUBE, "relator 1 i1 i1 = 1", "relator 1 i1 i1 = 1 1", "invalid line 14 numbers"),
    (TORUS, "relator 1 s1 s1 = 15", "relator 1 s1 s1 = 30 15", "invalid line 44 numbers"),
    (TORUS, "relator 1 s1 s1 = 15", "relator 1 s1 s1 = 15 15", "invalid line 44 numbers"),
    (KLEIN, "relator 1 a:aB A:AB = 40", "relator 1 a:aB A:AB = 39 40", "invalid line 123 numbers"),
    # ---- a refusal comes before every rule, and a line before the next
    (CUBE.replace("tree 2 1 i1", "tree 2 2 i1"), "done\n", "done\n#\t\n", "refused bad-byte line 17 column 2"),
    (CUBE.replace("flow a 3", "flow a 2"), "relator 2 i1 i1 = 1", "relator 2 = 1", "refused bad-line line 15"),
    (CUBE.replace("flow a 3", "flow a 2"), "tree 2 1 i1", "tree 2 2 i1", "invalid line 6 flow"),
    (CUBE.replace("tree 2 1 i1", "tree 2 2 i1"), "generator 2 i1", "generator 1 i1", "invalid line 10 tree"),
    (CUBE.replace("generator 2 i1", "generator 1 i1"), "relator 1 i1 i1 = 1", "relator 3 i1 i1 = 1", "invalid line 12 generator"),
    (CUBE.replace("relator 2 i1 i1", "relator 3 i1 i1"), "relator 1 i1 i1 = 1", "relator 1 i1 i1 = 2", "invalid line 14 numbers"),
]

# ---- automorphisms

# A rank and a list of moves, and the lines that tell its automorphism.
AUTOMORPHISMS = [
    ("1", ["a -> a", "GroupHomomorphismByImages(F, F, [F.1], [F.1])"]),
    ("1 i1", ["a -> A", "GroupHomomorphismByImages(F, F, [F.1], [F.1^-1])"]),
    ("2 a:ab s1", ["a -> b", "b -> ab", "GroupHomomorphismByImages(F, F, [F.1, F.2], [F.2, F.1*F.2])"]),
    ("2 s1 a:ab", ["a -> ba", "b -> a", "GroupHomomorphismByImages(F, F, [F.1, F.2], [F.2*F.1, F.1])"]),
    ("2 i1 s1", ["a -> B", "b -> a", "GroupHomomorphismByImages(F, F, [F.1, F.2], [F.2^-1, F.1])"]),
    ("2 a:abB", ["a -> a", "b -> Aba", "GroupHomomorphismByImages(F, F, [F.1, F.2], [F.1, F.1^-1*F.2*F.1])"]),
    ("2 a:abB A:AbB", ["a -> a", "b -> b", "GroupHomomorphismByImages(F, F, [F.1, F.2], [F.1, F.2])"]),
    ("3 C:AC", ["a -> ca", "b -> b", "c -> c", "GroupHomomorphismByImages(F, F, [F.1, F.2, F.3], [F.3*F.1, F.2, F.3])"]),
]

# The lists of moves of some generators of PRIMITIVE, by their numbers, and what is written of the last one.
PRIMITIVE_LISTS = {1: "a:aB s1 s1 A:AB", 2: "a:aB s1 i2 s1 A:AB", 12: "a:aB s1 i1 i1 s1 A:AB", 22: "a:aB i1 A:AB"}
PRIMITIVE_LAST = """generator 41
a -> Bab
b -> BAbab
GroupHomomorphismByImages(F, F, [F.1, F.2], [F.2^-1*F.1*F.2, F.2^-1*F.1^-1*F.2*F.1*F.2])
"""

# Words of a command line that are no rank with moves of it.
NO_LISTS = ["0", "27", "01", "", "x", "2 s2", "2 i0", "2 a", "2 a:", "2 :a", "2 a:b", "2 a:ac", "2 a:ba", "2  i1"]
NO_LISTS += ["2 \udcff:a", "2 \xe9"]
