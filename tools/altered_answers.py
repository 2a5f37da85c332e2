"""Right answers, and what is found of them where they are altered.

What is found was written by hand, by the rules that stand in `check_certificate`.
"""

# ---- right answers

# abAB, and ab with a trace of one move.
TORUS = """whitehead 1 reduce
rank 2
tuple abAB
trace
end abAB
flow a 2 ab:1 aB:1 bA:1 BA:1
flow b 2 aB:1 AB:1 ba:1 bA:1
done
"""
PRIMITIVE = """whitehead 1 reduce
rank 2
tuple ab
trace a:aB
end b
flow a 0
flow b 1 bB:1
done
"""

# ab is carried onto a. The ends of ab and abAB have different lengths, and those of ab a and a a have one.
YES = """whitehead 1 decide
rank 2
first ab
second a
verdict yes
moves a:aB s1
done
"""
NO_LENGTH = """whitehead 1 decide
rank 2
first ab
second abAB
verdict no length
trace a:aB
end b
flow a 0
flow b 1 bB:1
trace
end abAB
flow a 2 ab:1 aB:1 bA:1 BA:1
flow b 2 aB:1 AB:1 ba:1 bA:1
done
"""
NO_LEVEL = """whitehead 1 decide
rank 2
first ab a
second a a
verdict no level
trace a:aB
end b a
flow a 1 aA:1
flow b 1 bB:1
trace
end a a
flow a 2 aA:2
flow b 0
level 8
at a b
at a B
at A b
at A B
at b a
at b A
at B a
at B A
done
"""

# The level of abAB has two tuples, which are as long as aabb.
COMMUTATOR = """whitehead 1 decide
rank 2
first abAB
second aabb
verdict no level
trace
end abAB
flow a 2 ab:1 aB:1 bA:1 BA:1
flow b 2 aB:1 AB:1 ba:1 bA:1
trace
end aabb
flow a 2 aA:1 aB:1 bA:1 Bb:1
flow b 2 aB:1 Aa:1 bA:1 bB:1
level 2
at abAB
at aBAb
done
"""

# Some tuples of the level of aabb are reached by cuts alone.
KLEIN = """whitehead 1 decide
rank 2
first aabb
second abAB
verdict no level
trace
end aabb
flow a 2 aA:1 aB:1 bA:1 Bb:1
flow b 2 aB:1 Aa:1 bA:1 bB:1
trace
end abAB
flow a 2 ab:1 aB:1 bA:1 BA:1
flow b 2 aB:1 AB:1 ba:1 bA:1
level 8
at aabb
at aaBB
at abaB
at abAb
at aBAB
at AAbb
at AABB
at AbAB
done
"""

# a and aa have different lengths.
POWERS = """whitehead 1 decide
rank 2
first a
second aa
verdict no length
trace
end a
flow a 1 aA:1
flow b 0
trace
end aa
flow a 2 aA:2
flow b 0
done
"""

# Two words of rank 3 that are carried onto another.
WALK = """whitehead 1 decide
rank 3
first abcABC
second aaCBcAcACb
verdict yes
moves a:aBc s1 B:aABc C:aC A:Ac
done
"""

# What flows from a to A may go this way or that way.
FORK = """whitehead 1 reduce
rank 3
tuple abCABBC
trace
end abCABBC
flow a 2 aB:1 aC:1 bA:1 Bb:1 CA:1
flow b 3 aB:1 AC:1 bA:1 bB:1 bc:1 cB:1 Ca:1
flow c 2 aC:1 AC:1 bA:1 Ba:1 cb:1 cB:1
done
"""

# The greatest rank of `reduce`, with moves of the last generators and cuts whose multipliers are s and i.
NO_FLOWS = "".join(f"flow {letter} 0\n" for letter in "abcdefghijklmnopqrstuvwxy")
ALPHABET = f"""whitehead 1 reduce
rank 26
tuple yz
trace y:yZ s:sT i:i s25 s25 i26
end Z
{NO_FLOWS}flow z 1 zZ:1
done
"""

# Empty words, no words, and 64 words.
EMPTY = """whitehead 1 reduce
rank 1
tuple 1
trace
end 1
flow a 0
done
"""
NOTHING = """whitehead 1 reduce
rank 1
tuple
trace
end
flow a 0
done
"""
NOTHING_TWICE = """whitehead 1 decide
rank 1
first
second
verdict yes
moves
done
"""
MANY = f"""whitehead 1 reduce
rank 1
tuple{" a" * 64}
trace
end{" a" * 64}
flow a 64 aA:64
done
"""

# The greatest rank of `decide`. The level has the tuples of a letter and the empty word.
SIX_FLOWS = "flow a 1 aA:1\n" + "".join(f"flow {letter} 0\n" for letter in "bcdef")
SIX_LEVEL = "level 12\n" + "".join(f"at {letter} 1\n" for letter in "aAbBcCdDeEfF")
SIX = f"""whitehead 1 decide
rank 6
first a 1
second 1 a
verdict no level
trace
end a 1
{SIX_FLOWS}trace
end 1 a
{SIX_FLOWS}{SIX_LEVEL}done
"""

# The cubes of the letters, in a level of length 3.
CUBES = """whitehead 1 decide
rank 3
first aaa 1
second 1 aaa
verdict no level
trace
end aaa 1
flow a 3 aA:3
flow b 0
flow c 0
trace
end 1 aaa
flow a 3 aA:3
flow b 0
flow c 0
level 6
at aaa 1
at AAA 1
at bbb 1
at BBB 1
at ccc 1
at CCC 1
done
"""


def powers(n):
    """An answer with a power of a, which the first move makes twice as long."""
    return f"""whitehead 1 reduce
rank 2
tuple {"a" * n}
trace b:ab B:aB
end {"a" * n}
flow a {n} aA:{n}
flow b 0
done
"""


RIGHT = [TORUS, PRIMITIVE, YES, NO_LENGTH, NO_LEVEL, COMMUTATOR, KLEIN, POWERS, WALK, FORK]
RIGHT += [ALPHABET, EMPTY, NOTHING, NOTHING_TWICE, MANY, SIX, CUBES, powers(2048)]

# ---- lines that don't continue an answer

# An answer, one of its lines, and lines that may not stand in its place.
NOT_CONTINUED = [
    (
        YES,
        "whitehead 1 decide",
        [
            "whitehead", "whitehead 1", "whitehead 1 decide 1", "whitehead decide 1", "whitehead 2 decide",
            "whitehead 3 decide", "whitehead 01 decide", "whitehead 1 check", "whitehead 1 solve",
            "whitehead 1 Decide", "Whitehead 1 decide", "whitehead 2 gen", "whitehead 1 gen 1", "straighten", "valid",
            "rank 2", " # no comment",
        ],
    ),
    (
        TORUS,
        "rank 2",
        [
            "rank", "rank 2 2", "rank 0", "rank 27", "rank 02", "rank +2", "rank 2.", "rank two", "rank 4294967298",
            "rank 18446744073709551618", "ranks 2", "tuple abAB",
        ],
    ),
    (YES, "rank 2", ["rank 0", "rank 27", "rank 07", "rank 7 7", "rank"]),
    (
        TORUS,
        "tuple abAB",
        [
            "tuple abABc", "tuple ab-AB", "tuple 11", "tuple 1a", "tuple a1", "tuples abAB", "Tuple abAB",
            "first abAB", "tuple" + " 1" * 65,
        ],
    ),
    (TORUS, "end abAB", ["end", "end abAB 1", "end ab AB", "end abAc", "end 1b", "ends abAB", "tuple abAB"]),
    (
        TORUS,
        "trace",
        [
            "traces", "moves", "trace s", "trace s0", "trace s01", "trace s2", "trace s-1", "trace s4294967297",
            "trace s18446744073709551617", "trace S1", "trace i", "trace i0", "trace i02", "trace i3", "trace i1x",
            "trace a", "trace 1", "trace a:", "trace :a", "trace a:b", "trace a:A", "trace a:aA", "trace a:ba",
            "trace a:aa", "trace a:Ba", "trace a:ac", "trace c:c", "trace c:ac", "trace ab:ab", "trace a:a:b",
            "trace a: ab", "trace s1,i1", "trace i1 i1 x",
        ],
    ),
    (
        TORUS,
        "flow a 2 ab:1 aB:1 bA:1 BA:1",
        [
            "flow", "flow a", "flow 2 a", "flow 1 2", "flow ab 2", "flow c 2", "flow a: 2", "flow a 02", "flow a +2",
            "flow a 4294967296", "flow a 18446744073709551618", "flows a 2", "flow a 2 ab", "flow a 2 ab1",
            "flow a 2 ab=1", "flow a 2 ab11", "flow a 2 ab:", "flow a 2 ab:0", "flow a 2 ab:01",
            "flow a 2 ab:4294967296", "flow a 2 ab:18446744073709551617", "flow a 2 ab: 1", "flow a 2 ab:1:1",
            "flow a 2 :1", "flow a 2 a:1", "flow a 2 aa:1", "flow a 2 AA:1", "flow a 2 abA:1", "flow a 2 ac:1",
            "flow a 2 Cb:1", "flow a 2 ab:1 ab:1", "flow a 2 aB:1 ab:1 bA:1 BA:1", "flow a 2 bA:1 aB:1",
            "flow a 2 Ab:1 aB:1",
        ],
    ),
    (TORUS, "flow b 2 aB:1 AB:1 ba:1 bA:1", ["flow c 2", "flow b 2 aB:1 AB:1 ba:1 bA:1 bB:0"]),
    (TORUS, "done", ["done 1", "done done", "Done", "trace"]),
    (YES, "first ab", ["tuple ab", "first ac", "second ab", "first 12"]),
    (YES, "second a", ["second", "second a 1", "second c", "first a", "verdict yes"]),
    (
        YES,
        "verdict yes",
        [
            "verdict", "verdict no", "verdict maybe", "verdict Yes", "verdict yes yes", "verdict no yes",
            "verdict no length 3", "verdict no level 8", "verdict length", "verdict undecided",
            "verdict undecided level", "verdict undecided length", "verdict undecided 3",
            "verdict undecided level 3 4", "verdict undecided level 03", "verdict undecided level -3",
            "verdict undecided level x", "verdict undecided level 18446744073709551616", "verdict undecided time 3",
            "verdict undecided edges 65536", "verdict undecided relators 393216", "undecided level 3",
        ],
    ),
    (YES, "moves a:aB s1", ["trace a:aB s1", "moves a:aB s2", "moves a:Ba s1", "moves a:aB =", "move a:aB s1"]),
    (
        COMMUTATOR,
        "level 2",
        [
            "level", "level 0", "level 02", "level 2 2", "level -2", "level two", "level 131073", "level 4294967298",
            "level 18446744073709551618", "levels 2", "at abAB",
        ],
    ),
    (COMMUTATOR, "at aBAb", ["at", "at aBAb 1", "at aB Ab", "at aBAc", "end aBAb", "done"]),
]

# Of two answers, the line that is told where the first line is taken out, where the second one is, and so on; and where
# they stand twice.
TAKEN_OUT = [(COMMUTATOR, [1, 2, 3, 4, 5, 6, 7, 9, 9, 10, 11, 13, 13, 14, 16, 16, 17]), (PRIMITIVE, [1, 2, 3, 4, 5, 7, 7, 8])]
DOUBLED = [(COMMUTATOR, [2, 3, 4, 5, 6, 7, 8, 10, 10, 11, 12, 14, 14, 15, 17, 17, 18]), (PRIMITIVE, [2, 3, 4, 5, 6, 8, 8, 9])]

# ---- texts of other kinds

# The cube of a letter. Other answers of `stabiliser` stand in `altered_stabilisers`.
STABILISER = """whitehead 1 stabiliser
rank 1
tuple aaa
trace
end aaa
flow a 3 aA:3
level 2
at aaa
at AAA
tree 2 1 i1
generators 1
generator 2 i1
relators 2
relator 1 i1 i1 = 1
relator 2 i1 i1 = 1
done
"""
GEN = """whitehead 1 gen
rank 2
number 0
letters 1
cuts 0
lengths 1 1
verdict yes
moves 0
done
"""
# Moves that carry a onto a, and not onto b. Lines that are skipped are counted.
SKIPPED_LINES = """# moves that carry a onto a

whitehead 1 decide
rank 2
first a
second b
verdict yes

moves i1 i1
done
"""
OTHER_TEXTS = [
    ("whitehead 1 straighten", "refused no-certificate line 1"),
    ("whitehead 1 straighten\nrank 99\ntuple ?\nmoves a:b s0\n\0\n", "refused no-certificate line 1"),
    ("# a straight list\n\n whitehead  1  straighten \ndone\n", "refused no-certificate line 3"),
    ("whitehead 1 stabiliser", "refused bad-line line 2"),
    ("whitehead 1 stabiliser\nrank 4\n", "refused bad-line line 3"),
    ("whitehead 1 stabiliser\nrank 5\ntuple ?\n", "refused level-rank 5"),
    (STABILISER + STABILISER, "refused bad-line line 17"),
    (GEN, "refused no-certificate line 1"),
    ("", "refused bad-line line 1"),
    ("\n", "refused bad-line line 2"),
    ("# a comment", "refused bad-line line 2"),
    ("\n   \n# a comment\n", "refused bad-line line 4"),
    ("whitehead", "refused bad-line line 1"),
    ("whitehead 1 reduce", "refused bad-line line 2"),
    ("whitehead 1 reduce\n\n", "refused bad-line line 3"),
    ("whitehead 1 gen", "refused no-certificate line 1"),
    ("whitehead 1 decide\nrank 2\n", "refused bad-line line 3"),
    (SKIPPED_LINES, "invalid line 9 moves"),
    ("rank 2\ntuple ab\n", "refused bad-line line 1"),
    ("refused words\n", "refused bad-line line 1"),
    (TORUS + PRIMITIVE, "refused bad-line line 9"),
]

# ---- alterations

# Of the answer NO_LEVEL: the lines of its second end, the flows of an end of its level, its level, and this with the level
# of a A.
SECOND_END = NO_LEVEL[NO_LEVEL.index("end a a") : NO_LEVEL.index("level 8")]
FLOWS = "flow a 1 aA:1\nflow b 1 bB:1\n"
LEVEL = NO_LEVEL[NO_LEVEL.index("level 8") : NO_LEVEL.index("done")]
BOTH_LEVELS = """level 12
at a A
at a b
at a B
at A a
at A b
at A B
at b a
at b A
at b B
at B a
at B A
at B b
"""
KLEIN_LEVEL = KLEIN[KLEIN.index("level 8") : KLEIN.index("done")]
CUBES_LEVEL = CUBES[CUBES.index("level 6") : CUBES.index("done")]

# The level of abAB, and an answer where its line tells one tuple less.
PAIR = "at abAB\nat aBAb\n"
LEVEL_OF_COMMUTATOR = "level 2\n" + PAIR
SHORT_LEVEL = COMMUTATOR.replace("level 2", "level 1")


def places(words):
    """The letters of some words by their places in the order of letters."""
    return [["aAbBcC".index(x) for x in word if x != "1"] for word in words.split(" ")]


def level_of(tuples):
    """The lines of a level with these tuples, in order."""
    return f"level {len(tuples)}\n" + "".join(f"at {words}\n" for words in sorted(tuples, key=places))


def either(letter):
    return letter, letter.upper()


# The tuples of one length that moves lead to from one of them. Some of them could be shortened. With the words exchanged,
# LETTER_AND_TWO is all of them.
COMMUTATORS = ["abAB", "aBAb"]
FOURTH_POWERS = ["aaaa", "AAAA", "bbbb", "BBBB"]
CUBE_AND_LETTER = ["aaab", "aaaB", "AAAb", "AAAB", "abbb", "aBBB", "Abbb", "ABBB"]
CUBES_OF_LETTERS = ["aaa 1", "AAA 1", "bbb 1", "BBB 1", "ccc 1", "CCC 1"]
LETTER_AND_TWO = [f"{x} {y}{z}" for a, b, c in ("abc", "bac", "cab") for x in either(a) for y in either(b) for z in either(c)]
TWO_AND_LETTER = [" ".join(reversed(words.split(" "))) for words in LETTER_AND_TWO]

# Moves that make a word of 2,584 letters of ab, and go back; and the same by words of more than 4,096 letters.
NEAR = " ".join(["a:ab b:ab"] * 7 + ["a:ab A:Ab"] + ["B:aB A:Ab"] * 7)
FAR = " ".join(["a:ab b:ab"] * 9 + ["B:aB A:Ab"] * 9)

# A move that takes b to ba, and back; and lines with words of which it makes 4,096 and 4,097 letters.
THERE_AND_BACK = YES.replace("a:aB s1", "a:ab A:Ab")
MOST = f"first {'b' * 2048}\nsecond {'b' * 2048}\n"
MORE = f"first a{'b' * 2048}\nsecond a{'b' * 2048}\n"

# An answer, what is replaced in it, by what, and what is found.
ALTERATIONS = [
    # ---- lines, fields and bytes
    (COMMUTATOR, "whitehead 1 decide", "# a comment\n\n   \n  whitehead   1 decide ", "valid"),
    (COMMUTATOR, "rank 2", "#\n rank  2  \n#rank 3", "valid"),
    (COMMUTATOR, "done\n", "done", "valid"),
    (COMMUTATOR, "done\n", "  done  ", "valid"),
    (COMMUTATOR, "done\n", "done\n\n# a comment\n  \n#", "valid"),
    (COMMUTATOR, "flow a 2 ab:1 aB:1", "flow  a   2   ab:1  aB:1", "valid"),
    (COMMUTATOR, "level 2", "# ~!\n level 2", "valid"),
    (COMMUTATOR, "first abAB", " # no comment\nfirst abAB", "refused bad-line line 3"),
    (COMMUTATOR, "done\n", "done\n #\n", "refused bad-line line 18"),
    (COMMUTATOR, "done\n", "# done\n", "refused bad-line line 18"),
    (COMMUTATOR, "done\n", "# done", "refused bad-line line 18"),
    (COMMUTATOR, "done\n", "\n\n", "refused bad-line line 19"),
    (COMMUTATOR, "done\n", "", "refused bad-line line 17"),
    (COMMUTATOR, "done\n", "done\n\ndone", "refused bad-line line 19"),
    (COMMUTATOR, "done\n", "done\nlevel 2\n", "refused bad-line line 18"),
    (COMMUTATOR, "rank 2", "#\ta tab\nrank 2", "refused bad-byte line 2 column 2"),
    (COMMUTATOR, "rank 2", "\nrank\t2", "refused bad-byte line 3 column 5"),
    (COMMUTATOR, "rank 2", "ranks 2\t", "refused bad-byte line 2 column 8"),
    (COMMUTATOR, "rank 2", "ranks 2\n\t", "refused bad-line line 2"),
    (COMMUTATOR, "rank 2", "  \t", "refused bad-byte line 2 column 3"),
    (COMMUTATOR, "whitehead 1 decide\n", "whitehead 1 decide\r\n", "refused bad-byte line 1 column 19"),
    (COMMUTATOR, "whitehead", "\xef\xbb\xbfwhitehead", "refused bad-byte line 1 column 1"),
    (COMMUTATOR, "trace", "trace \x1f\x7f", "refused bad-byte line 6 column 7"),
    (COMMUTATOR, "at aBAb", "at aBAb\x7f", "refused bad-byte line 16 column 8"),
    (COMMUTATOR, "done\n", "done\0\n", "refused bad-byte line 17 column 5"),
    (COMMUTATOR, "done\n", "done\xff", "refused bad-byte line 17 column 5"),
    (COMMUTATOR, "done\n", "done\n# \x80\n", "refused bad-byte line 18 column 3"),
    (COMMUTATOR, "done\n", "done\n\r", "refused bad-byte line 18 column 1"),
    # ---- headings and ranks
    (COMMUTATOR, "whitehead 1", "whitehead 3", "refused bad-line line 1"),
    (COMMUTATOR, "1 decide", "1 straighten", "refused no-certificate line 1"),
    (COMMUTATOR, "1 decide", "1 stabiliser", "refused bad-line line 3"),
    (COMMUTATOR, "1 decide", "1 gen", "refused no-certificate line 1"),
    (COMMUTATOR, "whitehead 1 decide", "#\n whitehead  1  gen", "refused no-certificate line 2"),
    (COMMUTATOR, "1 decide\n", "1 straighten\n\t\n", "refused no-certificate line 1"),
    (COMMUTATOR, "1 decide\nrank 2", "1 stabiliser\nrank 9", "refused level-rank 9"),
    (TORUS, "1 reduce", "1 stabiliser", "refused bad-line line 8"),
    (TORUS, "1 reduce\nrank 2", "1 stabiliser\nrank 5", "refused level-rank 5"),
    (COMMUTATOR, "1 decide", "1 gen\t", "refused bad-byte line 1 column 16"),
    (COMMUTATOR, "whitehead 1 decide", "# \x80\nwhitehead 1 gen", "refused bad-byte line 1 column 3"),
    (COMMUTATOR, "rank 2", "rank 7", "refused level-rank 7"),
    (COMMUTATOR, "rank 2", "rank 9", "refused level-rank 9"),
    (COMMUTATOR, "rank 2", "rank 26", "refused level-rank 26"),
    (COMMUTATOR, "rank 2", "# \x7f\nrank 9", "refused bad-byte line 2 column 3"),
    (COMMUTATOR, "rank 2", "rank 9\n# \x7f", "refused level-rank 9"),
    (COMMUTATOR, "rank 2", "rank 9\t", "refused bad-byte line 2 column 7"),
    (COMMUTATOR, "rank 2\nfirst", "rank 9\nfurst", "refused level-rank 9"),
    (COMMUTATOR, "rank 2", "rank 1", "refused bad-line line 3"),
    (COMMUTATOR, "rank 2", "rank 3", "refused bad-line line 10"),
    (YES, "rank 2", "rank 6", "valid"),
    (YES, "1 decide", "1 reduce", "refused bad-line line 3"),
    (PRIMITIVE, "1 reduce", "1 decide", "refused bad-line line 3"),
    (TORUS, "rank 2", "rank 3", "refused bad-line line 8"),
    (TORUS, "rank 2", "rank 7", "refused bad-line line 8"),
    (ALPHABET, "s25 s25", "s26 s25", "refused bad-line line 4"),
    (ALPHABET, "i26", "i27", "refused bad-line line 4"),
    (ALPHABET, "i26", "i26 i26", "invalid line 5 end"),
    (ALPHABET, "flow z 1 zZ:1", "flow z 0", "invalid line 31 flow"),
    # ---- tuples
    (TORUS, "tuple abAB", "tuple aABBabAb", "valid"),
    (TORUS, "tuple abAB", "tuple abAB 1", "refused bad-line line 5"),
    (TORUS, "tuple abAB", "tuple", "refused bad-line line 5"),
    (TORUS, "end abAB", "# a comment\n\nend  BabA", "valid"),
    (TORUS, "end abAB", "end AabABa", "valid"),
    (TORUS, "tuple abAB", "tuple bABa", "valid"),
    (TORUS, "tuple abAB", "tuple aBAb", "invalid line 5 end"),
    (TORUS, "tuple abAB\n", "tuple abAB\ntuple abAB\n", "refused bad-line line 4"),
    (YES, "first ab\n", "# a comment\n\nfirst  bBAbaa \n", "valid"),
    (YES, "second a", "second Bab", "valid"),
    (YES, "second a\n", "", "refused bad-line line 4"),
    (NO_LENGTH, "second abAB", "second  bAaABa", "valid"),
    (COMMUTATOR, "second aabb\n", "second baabbB\n", "valid"),
    (COMMUTATOR, "end aabb", "end  bbaa", "valid"),
    (COMMUTATOR, "at abAB", "at  BabA", "valid"),
    (COMMUTATOR, "at aBAb", "at  bBaBAb", "valid"),
    (NO_LEVEL, "at b A\n", "# a comment\n\nat  aAb   A\n", "valid"),
    (NO_LEVEL, "second a a", "second a a a", "refused bad-line line 4"),
    (NO_LEVEL, "end a a\n", "end a\n", "refused bad-line line 11"),
    (NO_LEVEL, "at a B", "at aB", "refused bad-line line 16"),
    (NO_LEVEL, "at a B", "at a c", "refused bad-line line 16"),
    (EMPTY, "tuple 1", "tuple " + "aA" * 2048, "valid"),
    (EMPTY, "tuple 1", "tuple " + "aA" * 2048 + "a", "refused bad-line line 3"),
    (EMPTY, "tuple 1", f"tuple {'a' * 2000} {'A' * 2000} {'a' * 97}", "refused bad-line line 3"),
    (EMPTY, "end 1", f"end {'a' * 4097}", "refused bad-line line 5"),
    (MANY, "tuple a", "tuple a a", "refused bad-line line 3"),
    (MANY, "end a", "end a a", "refused bad-line line 5"),
    (MANY, "end a", "end", "refused bad-line line 5"),
    (NOTHING, "end", "end 1", "refused bad-line line 5"),
    (NOTHING, "flow a 0", "flow a 1", "invalid line 6 flow"),
    # ---- traces
    (TORUS, "end abAB", "end abab", "invalid line 5 end"),
    (TORUS, "end abAB", "end aBAb", "invalid line 5 end"),
    (TORUS, "trace", "trace s1", "invalid line 5 end"),
    (TORUS, "trace", "trace i1", "invalid line 5 end"),
    (TORUS, "trace", "trace i1 i1", "valid"),
    (TORUS, "trace", "trace s1 s1", "valid"),
    (TORUS, "trace", "trace a:a B:B a:abB", "valid"),
    (TORUS, "trace", "trace s1 i1", "valid"),
    (PRIMITIVE, "trace a:aB", "trace a:ab", "invalid line 5 end"),
    (PRIMITIVE, "trace a:aB", "trace", "invalid line 5 end"),
    (PRIMITIVE, "trace a:aB", "trace A:Ab s1", "invalid line 5 end"),
    (PRIMITIVE, "trace a:aB", "trace A:Ab", "valid"),
    (PRIMITIVE, "trace a:aB", "trace b:Ab s1", "valid"),
    (PRIMITIVE, "trace a:aB\nend b", "trace a:aB i2\nend B", "valid"),
    (PRIMITIVE, "end b\n", "end a\n", "invalid line 5 end"),
    (PRIMITIVE, "trace a:aB", f"trace {NEAR} a:aB", "valid"),
    (PRIMITIVE, "trace a:aB", f"trace {FAR} a:aB", "invalid line 4 long"),
    (PRIMITIVE, "trace a:aB\nend b", f"trace {FAR}\nend a", "invalid line 4 long"),
    (powers(2049), "end a", "end a", "invalid line 4 long"),
    # ---- flows
    (TORUS, "ab:1 aB:1 bA:1 BA:1", "ab:2 bA:2", "invalid line 6 flow"),
    (TORUS, "ab:1 aB:1 bA:1 BA:1", "ab:1 aB:1 bA:1", "invalid line 6 flow"),
    (TORUS, "ab:1 aB:1 bA:1 BA:1", "ab:1 bA:1", "invalid line 6 flow"),
    (TORUS, "ab:1 aB:1 bA:1 BA:1", "ab:1 aB:1 Ab:1 bA:1 BA:1", "invalid line 6 flow"),
    (TORUS, "ab:1 aB:1 bA:1 BA:1", "Ab:1 AB:1 ba:1 Ba:1", "invalid line 6 flow"),
    (TORUS, "ab:1 aB:1 bA:1 BA:1", "aA:2", "invalid line 6 flow"),
    (TORUS, "ab:1 aB:1", "ab:4294967295 aB:1", "invalid line 6 flow"),
    (TORUS, "ab:1 aB:1 bA:1", "ab:4294967295 aB:4294967295 bA:4294967295", "invalid line 6 flow"),
    (TORUS, " ab:1 aB:1 bA:1 BA:1", "", "invalid line 6 flow"),
    (TORUS, "flow a 2", "flow a 1", "invalid line 6 flow"),
    (TORUS, "flow a 2", "flow a 0", "invalid line 6 flow"),
    (TORUS, "flow a 2 ab:1 aB:1 bA:1 BA:1", "flow a 1 ab:1 bA:1", "invalid line 6 flow"),
    (TORUS, "flow a 2", "flow a 4294967295", "invalid line 6 flow"),
    (TORUS, "flow a 2", "flow A 2", "invalid line 6 flow"),
    (TORUS, "flow a 2 ab:1 aB:1 bA:1 BA:1", "flow A 2 Ab:1 AB:1 ba:1 Ba:1", "invalid line 6 flow"),
    (TORUS, "flow a 2 ab:1 aB:1 bA:1 BA:1", "flow b 2 aB:1 AB:1 ba:1 bA:1", "invalid line 6 flow"),
    (TORUS, "flow a 2 ab:1 aB:1 bA:1 BA:1", "flow a 2 aB:1 AB:1 ba:1 bA:1", "invalid line 6 flow"),
    (TORUS, "flow b 2", "flow a 2", "invalid line 7 flow"),
    (TORUS, "flow b 2", "flow B 2", "invalid line 7 flow"),
    (TORUS, "aB:1 AB:1 ba:1 bA:1", "aA:1 aB:1 AB:1 ba:1 bA:1", "invalid line 7 flow"),
    (TORUS, "flow b 2 aB:1 AB:1 ba:1 bA:1\n", "", "refused bad-line line 7"),
    (PRIMITIVE, "trace a:aB\nend b\nflow a 0\nflow b 1 bB:1", "trace\nend ab\nflow a 1 aB:1 BA:1\nflow b 1 bB:1", "invalid line 6 flow"),
    (PRIMITIVE, "flow a 0\nflow b 1 bB:1", "flow b 1 bB:1\nflow a 0", "invalid line 6 flow"),
    (PRIMITIVE, "flow a 0", "flow a 0 aA:1", "invalid line 6 flow"),
    (PRIMITIVE, "flow a 0", "flow a 0 bB:1", "invalid line 6 flow"),
    (PRIMITIVE, "flow b 1 bB:1", "flow b 1 bB:2 Bb:1", "invalid line 7 flow"),
    (POWERS, "flow a 2 aA:2", "flow a 2 aA:1", "invalid line 12 flow"),
    (POWERS, "flow a 2 aA:2", "flow a 2 aA:3", "invalid line 12 flow"),
    # Something flows into the generator or out of its inverse. No more than its degree flows out, so the value is less.
    (POWERS, "flow a 2 aA:2", "flow a 2 aA:2 Aa:1", "invalid line 12 flow"),
    (POWERS, "flow a 2 aA:2", "flow a 2 aA:3 Aa:1", "invalid line 12 flow"),
    (POWERS, "flow a 2 aA:2", "flow a 1 aA:2 Aa:1", "invalid line 12 flow"),
    (FORK, "aB:1 aC:1 bA:1 Bb:1 CA:1", "aB:1 aC:1 ba:1 bA:1 Bb:1 CA:1", "invalid line 6 flow"),
    # Another flow of the value, and flows both ways between two letters.
    (FORK, "Bb:1", "Bc:1 cb:1", "valid"),
    (FORK, "Bb:1", "Bb:1 Bc:1 cB:1", "valid"),
    (FORK, "Bb:1", "Bb:1 Bc:1 cb:1", "invalid line 6 flow"),
    (FORK, "Bb:1", "Bb:1 Bc:2 cB:2", "invalid line 6 flow"),
    (NO_LEVEL, "flow a 1 aA:1", "flow a 1 aA:1 bB:1 Bb:1", "valid"),
    (PRIMITIVE, "flow a 0", "flow a 0 bB:1 Bb:1", "valid"),
    (PRIMITIVE, "flow a 0", "flow a 0 bB:2 Bb:2", "invalid line 6 flow"),
    (POWERS, "flow b 0", "flow b 0 aA:1 Aa:1", "valid"),
    (POWERS, "flow b 0", "flow b 0 aA:1", "invalid line 9 flow"),
    # ---- a yes
    (YES, "moves a:aB s1", "moves b:Ab", "valid"),
    (YES, "moves a:aB s1", "moves A:Ab s1", "valid"),
    (YES, "moves a:aB s1", "moves b:Ab s1 s1 i2", "valid"),
    (YES, "moves a:aB s1", "moves a:aB s1 a:abB b:b", "valid"),
    (YES, "moves a:aB s1", "moves s1 a:aB", "invalid line 6 moves"),
    (YES, "moves a:aB s1", "moves a:aB", "invalid line 6 moves"),
    (YES, "moves a:aB s1", "moves a:ab s1", "invalid line 6 moves"),
    (YES, "moves a:aB s1", "moves a:aB i2 s1", "invalid line 6 moves"),
    (YES, "moves a:aB s1", "moves", "invalid line 6 moves"),
    (YES, "first ab\nsecond a", "first a\nsecond ab", "invalid line 6 moves"),
    (YES, "second a", "second aa", "invalid line 6 moves"),
    (YES, "moves a:aB s1", f"moves {NEAR} a:aB s1", "valid"),
    (YES, "moves a:aB s1", f"moves {FAR} a:aB s1", "invalid line 6 long"),
    (YES, "moves a:aB s1", f"moves {FAR}", "invalid line 6 long"),
    (THERE_AND_BACK, "first ab\nsecond a\n", MOST, "valid"),
    (THERE_AND_BACK, "first ab\nsecond a\n", MORE, "invalid line 6 long"),
    (YES, "moves a:aB s1\n", "", "refused bad-line line 6"),
    (YES, "verdict yes", "verdict no length", "refused bad-line line 6"),
    (YES, "first ab\nsecond a\n", "first 1\nsecond aA\n", "valid"),
    (YES, "first ab\nsecond a\n", "first a b\nsecond b Ba\n", "valid"),
    (YES, "first ab\nsecond a\n", "first a b\nsecond Ba b\n", "invalid line 6 moves"),
    (NO_LEVEL, LEVEL, "moves a:aB\n", "refused bad-line line 14"),
    (WALK, "C:aC A:Ac", "A:Ac C:aC", "invalid line 6 moves"),
    (WALK, "second aaCBcAcACb", "second aCBccACb", "invalid line 6 moves"),
    # ---- an undecided answer
    (YES, "verdict yes\nmoves a:aB s1", "verdict undecided level 3", "refused no-certificate line 5"),
    (YES, "verdict yes", "verdict undecided level 3", "refused no-certificate line 5"),
    (YES, "verdict yes", "verdict undecided level 0", "refused no-certificate line 5"),
    (YES, "verdict yes", "verdict  undecided  level  18446744073709551615", "refused no-certificate line 5"),
    (YES, "verdict yes\n", "verdict undecided length 3\n\t", "refused no-certificate line 5"),
    (YES, "verdict yes\n", "verdict undecided length 3\t\n", "refused bad-byte line 5 column 27"),
    (YES, "verdict yes\nmoves a:aB s1", "#\nverdict undecided length 257", "refused no-certificate line 6"),
    (COMMUTATOR, COMMUTATOR[COMMUTATOR.index("verdict") : COMMUTATOR.index("done")], "verdict undecided level 20000\n", "refused no-certificate line 5"),
    (PRIMITIVE, "trace a:aB", "verdict undecided level 3", "refused bad-line line 4"),
    # ---- a no by lengths
    (NO_LENGTH, "end b\n", "end a\n", "invalid line 7 end"),
    (NO_LENGTH, "trace a:aB\n", "trace\n", "invalid line 7 end"),
    (NO_LENGTH, "trace a:aB\n", f"trace {FAR} a:aB\n", "invalid line 6 long"),
    (NO_LENGTH, "flow b 1 bB:1", "flow b 1", "invalid line 9 flow"),
    (NO_LENGTH, "trace\n", "trace a:ab\n", "valid"),
    (NO_LENGTH, "trace\n", "trace s1\n", "invalid line 11 end"),
    (NO_LENGTH, "aB:1 AB:1 ba:1 bA:1", "aB:1 AB:1 ba:1", "invalid line 13 flow"),
    (NO_LENGTH, "first ab\nsecond abAB", "first abAB\nsecond ab", "invalid line 7 end"),
    (NO_LENGTH, "second abAB", "second aabAB", "invalid line 11 end"),
    (NO_LENGTH, "second abAB", "second abAB 1", "refused bad-line line 4"),
    (NO_LENGTH, "verdict no length", "verdict no level", "refused bad-line line 14"),
    (NO_LENGTH, "end abAB", "end aBAb\nlevel 1", "refused bad-line line 12"),
    (NO_LENGTH, "flow b 1 bB:1\n", "", "refused bad-line line 9"),
    (NO_LENGTH.replace("second abAB", "second a"), "end abAB", "end a", "invalid line 11 length"),
    (POWERS, "second aa", "second a", "invalid line 11 end"),
    (POWERS, "verdict no length", "verdict yes", "refused bad-line line 6"),
    (COMMUTATOR.replace("no level", "no length"), LEVEL_OF_COMMUTATOR, "", "invalid line 11 length"),
    # ---- a no by a level
    # The sides are looked at before the level.
    (COMMUTATOR, "trace", "trace i1", "invalid line 7 end"),
    (COMMUTATOR, "flow a 2", "flow a 1", "invalid line 8 flow"),
    (COMMUTATOR, "end aabb", "end abAB", "invalid line 11 end"),
    (COMMUTATOR, "verdict no level", "verdict no length", "refused bad-line line 14"),
    (NO_LEVEL, "end b a\n", "end a b\n", "invalid line 7 end"),
    (NO_LEVEL, "trace\n", "trace i1\n", "invalid line 11 end"),
    (NO_LEVEL, "trace\n", f"trace {FAR}\n", "invalid line 10 long"),
    (NO_LEVEL, "flow b 1 bB:1", "flow b 1 bB:1 aA:1", "refused bad-line line 9"),
    (NO_LEVEL, "flow b 1 bB:1", "flow b 0", "invalid line 9 flow"),
    (NO_LEVEL, "flow b 0", "flow b 0 bB:1", "invalid line 13 flow"),
    (NO_LEVEL, "first ab a\nsecond a a", "first a a\nsecond ab a", "invalid line 7 end"),
    (SHORT_LEVEL.replace("at aBAb\n", ""), "flow b 2 aB:1 Aa:1", "flow b 2 aB:1", "invalid line 13 flow"),
    (COMMUTATOR.replace("end aabb", "end abAB"), "flow a 2", "flow a 1", "invalid line 8 flow"),
    (COMMUTATOR.replace("at aBAb", "at aabb"), "flow a 2", "flow a 1", "invalid line 8 flow"),
    # A refusal comes before every rule.
    (COMMUTATOR.replace("flow a 2", "flow a 1"), "done\n", "done\n#\t\n", "refused bad-byte line 18 column 2"),
    (COMMUTATOR.replace("trace", "trace i1"), "level 2", "level 3", "refused bad-line line 17"),
    # The ends have to be as long as the verdict says.
    (NO_LEVEL, "second a a", "second a aa", "invalid line 11 end"),
    (NO_LEVEL, "trace\nend a a", "trace\nend a aa", "invalid line 11 end"),
    (NO_LEVEL.replace("second a a", "second a aa"), "end a a", "end a aa", "invalid line 11 length"),
    (POWERS.replace("no length", "no level"), "done", "level 1\nat a\ndone", "invalid line 11 length"),
    # The number of tuples isn't the one that is told.
    (NO_LEVEL, "level 8", "level 9", "refused bad-line line 23"),
    (NO_LEVEL, "level 8", "level 7", "refused bad-line line 22"),
    (NO_LEVEL, "level 8", "level 131072", "refused bad-line line 23"),
    (NO_LEVEL, "level 8\n", "", "refused bad-line line 14"),
    # One tuple of the level is missing.
    (NO_LEVEL, "level 8\nat a b\n", "level 7\n", "invalid line 15 closed"),
    (NO_LEVEL, "level 8\nat a b\nat a B\n", "level 7\nat a b\n", "invalid line 15 closed"),
    (NO_LEVEL, "at b a\n", "", "refused bad-line line 22"),
    (NO_LEVEL.replace("level 8", "level 7"), "at b a\n", "", "invalid line 14 root"),
    (NO_LEVEL.replace("level 8", "level 7"), "at b A\n", "", "invalid line 16 closed"),
    (NO_LEVEL.replace("level 8", "level 7"), "at B a\n", "", "invalid line 17 closed"),
    (NO_LEVEL.replace("level 8", "level 7"), "at B A\n", "", "invalid line 18 closed"),
    (SHORT_LEVEL, "at aBAb\n", "", "invalid line 15 closed"),
    (SHORT_LEVEL, "at abAB\n", "", "invalid line 14 root"),
    (SIX.replace("level 12", "level 11"), "at F 1\n", "", "invalid line 32 closed"),
    # Inversions alone lead out, the swap alone, or cuts alone.
    (NO_LEVEL, LEVEL, "level 2\nat a b\nat b a\n", "invalid line 15 closed"),
    (NO_LEVEL, LEVEL, "level 4\nat b a\nat b A\nat B a\nat B A\n", "invalid line 15 closed"),
    (KLEIN, KLEIN_LEVEL, "level 4\nat aabb\nat aaBB\nat AAbb\nat AABB\n", "invalid line 15 closed"),
    # From the first tuple only cuts that multiply by b lead out, only those that multiply by a, or only cuts of three letters.
    (KLEIN, KLEIN_LEVEL, level_of(["aabb", "aaBB", "abAb", "AAbb"]), "invalid line 15 closed"),
    (KLEIN, KLEIN_LEVEL, level_of(["aabb", "aaBB", "abaB", "AAbb"]), "invalid line 15 closed"),
    (CUBES, CUBES_LEVEL, level_of(CUBES_OF_LETTERS + LETTER_AND_TWO), "invalid line 17 closed"),
    (CUBES, CUBES_LEVEL, level_of(CUBES_OF_LETTERS + LETTER_AND_TWO + TWO_AND_LETTER), "valid"),
    # Two tuples are exchanged, or one stands twice.
    (NO_LEVEL, "at a B\nat A b\n", "at A b\nat a B\n", "invalid line 17 sorted"),
    (NO_LEVEL, "at a b\nat a B\n", "at a B\nat a b\n", "invalid line 16 sorted"),
    (NO_LEVEL, "level 8\nat a b\n", "level 9\nat a b\nat a b\n", "invalid line 16 sorted"),
    (COMMUTATOR, "at abAB\nat aBAb", "at aBAb\nat abAB", "invalid line 16 sorted"),
    (COMMUTATOR, "at aBAb", "at bABa", "invalid line 15 closed"),
    # A tuple that is shorter or longer joins.
    (NO_LEVEL, "level 8\n", "level 9\nat 1 a\n", "invalid line 15 height"),
    (NO_LEVEL, "at B A\n", "at B AA\n", "invalid line 18 closed"),
    (NO_LEVEL, "level 8\nat a b\nat a B\n", "level 9\nat a b\nat a bb\nat a B\n", "invalid line 16 height"),
    (NO_LEVEL, "level 8\nat a b\n", "level 9\nat a b\nat 1 a\n", "invalid line 16 sorted"),
    (COMMUTATOR, "level 2\n", "level 3\nat 1\n", "invalid line 15 height"),
    (COMMUTATOR, "level 2\nat abAB\n", "level 3\nat abAB\nat abABB\n", "invalid line 16 height"),
    # Tuples of another level join. With a whole level that the second end isn't in, the answer still shows a no.
    (NO_LEVEL, "level 8\nat a b\n", "level 9\nat a a\nat a b\n", "invalid line 15 absent"),
    (NO_LEVEL, "level 8\nat a b\n", "level 9\nat a A\nat a b\n", "invalid line 15 closed"),
    (NO_LEVEL, "level 8\n", "level 12\nat a a\nat A A\nat b b\nat B B\n", "invalid line 15 absent"),
    (NO_LEVEL, LEVEL, BOTH_LEVELS, "valid"),
    (NO_LEVEL, LEVEL, BOTH_LEVELS.replace("12", "11").replace("at b B\n", ""), "invalid line 15 closed"),
    (COMMUTATOR, "level 2\n", "level 3\nat aabb\n", "invalid line 15 absent"),
    (COMMUTATOR, "level 2\n", "level 3\nat aaBB\n", "invalid line 15 closed"),
    (COMMUTATOR, LEVEL_OF_COMMUTATOR, level_of(COMMUTATORS + FOURTH_POWERS), "valid"),
    (COMMUTATOR, LEVEL_OF_COMMUTATOR, level_of(COMMUTATORS + CUBE_AND_LETTER), "valid"),
    (COMMUTATOR, LEVEL_OF_COMMUTATOR, level_of(COMMUTATORS + CUBE_AND_LETTER[:7]), "invalid line 20 closed"),
    (COMMUTATOR, LEVEL_OF_COMMUTATOR, f"level 6\n{PAIR}at aaaa\nat AAAA\nat bbbb\nat BBBB\n", "invalid line 17 sorted"),
    (COMMUTATOR, LEVEL_OF_COMMUTATOR, f"level 3\n{PAIR}at aabb\n", "invalid line 17 sorted"),
    # The level has the second end, which is another tuple of it or the root.
    (NO_LEVEL.replace("second a a", "second B A"), SECOND_END, f"end B A\n{FLOWS}", "invalid line 22 absent"),
    (NO_LEVEL.replace("second a a", "second b a"), SECOND_END, f"end b a\n{FLOWS}", "invalid line 19 absent"),
    (NOTHING_TWICE, "yes\nmoves", "no level\ntrace\nend\nflow a 0\ntrace\nend\nflow a 0\nlevel 1\nat", "invalid line 13 absent"),
    # The level is that of another tuple.
    (SHORT_LEVEL, PAIR, "at aabb\n", "invalid line 14 root"),
]

# ---- command lines

# Options are read and change nothing.
WITH_OPTIONS = [
    ("check --limit 5", COMMUTATOR, "valid"),
    ("check --limit 1 --workers 64", NO_LEVEL, "valid"),
    ("--limit=131072 --workers=2 check", YES, "valid"),
    ("-- check", TORUS, "valid"),
    ("check --limit 1", SHORT_LEVEL.replace("at aBAb\n", ""), "invalid line 15 closed"),
    ("check --workers 8", GEN, "refused no-certificate line 1"),
    ("check --limit 1 --workers 2", STABILISER, "valid"),
    ("check check", TORUS, "refused words"),
    ("check reduce", TORUS, "refused words"),
    ("Check", TORUS, "refused words"),
    ("check --limit 0", TORUS, "refused words"),
    ("check --edges 5", TORUS, "refused words"),
]

# ---- straight lists

# A list that comes back, and is undone. One whose lengths fall, stay and rise, and is printed as it is. One over a peak of
# abc, and round it by b.
UNDONE = """whitehead 1 straighten
rank 2
tuple a
given b:ab a:ab b:ab B:aB A:Ab B:aB
moves
end a
done
"""
VALLEY = """whitehead 1 straighten
rank 2
tuple ab
given a:aB s1 i2 b:ab
moves a:aB s1 i2 b:ab
end ab
done
"""
PEAK = """whitehead 1 straighten
rank 3
tuple ab
given c:bc A:Ac
moves A:Abc c:bc
end bc
done
"""

# Moves that take each letter to its inverse, which turns abAB round. They aren't a conjugation.
TURNED = """whitehead 1 straighten
rank 2
tuple abAB
given i1 i2
moves i2 i1
end abAB
done
"""

# The empty word stays what it is, so that each list is straight.
NOWHERE = """whitehead 1 straighten
rank 3
tuple 1
given a:ab b:ab
moves a:ab b:ab
end 1
done
"""

# Moves whose composite has images of some 10^16 letters, and back again.
OUT = " ".join(["a:ab b:ab"] * 40)
BACK = " ".join(["B:aB A:Ab"] * 40)
FIBONACCI = NOWHERE.replace("given a:ab b:ab\nmoves a:ab b:ab", f"given {OUT} {BACK}\nmoves")

# A move that makes a power of b twice as long, and back.
DOUBLED_AND_HALVED = """whitehead 1 straighten
rank 2
tuple b
given a:ab A:Ab
moves
end b
done
"""

STRAIGHT = [UNDONE, VALLEY, PEAK, TURNED, NOWHERE, FIBONACCI, DOUBLED_AND_HALVED]

# Such an answer, what is replaced in it, by what, and what is found where straight lists are asked for.
STRAIGHT_ALTERATIONS = [
    # ---- lines, fields and bytes
    (UNDONE, "whitehead 1 straighten\nrank 2", "# a comment\n whitehead  1  straighten\n\nrank 2 ", "valid"),
    (UNDONE, "done\n", "done", "valid"),
    (UNDONE, "tuple a", "tuple Bab", "valid"),
    (UNDONE, "end a", "end baB", "valid"),
    (PEAK, "tuple ab", "tuple ba", "valid"),
    (UNDONE, "rank 2", "rank 26", "valid"),
    (UNDONE, "1 straighten", "1 reduce", "refused no-certificate line 1"),
    (UNDONE, "1 straighten", "1 decide", "refused no-certificate line 1"),
    (UNDONE, "1 straighten\nrank 2", "1 gen\n\t", "refused no-certificate line 1"),
    (UNDONE, "1 straighten", "2 straighten", "refused bad-line line 1"),
    (UNDONE, "1 straighten", "1 straight", "refused bad-line line 1"),
    (UNDONE, "rank 2", "rank 27", "refused bad-line line 2"),
    (UNDONE, "rank 2", "rank 1", "refused bad-line line 4"),
    (UNDONE, "tuple a", "first a", "refused bad-line line 3"),
    (UNDONE, "tuple a", "tuple a b", "refused bad-line line 6"),
    (UNDONE, "given b:ab", "given ab:b", "refused bad-line line 4"),
    (UNDONE, "given", "moves", "refused bad-line line 4"),
    (UNDONE, "moves", "given", "refused bad-line line 5"),
    (UNDONE, "moves", "moves s2", "refused bad-line line 5"),
    (UNDONE, "moves\n", "", "refused bad-line line 5"),
    (UNDONE, "end a\n", "", "refused bad-line line 6"),
    (UNDONE, "done\n", "", "refused bad-line line 7"),
    (UNDONE, "done\n", "done\ndone\n", "refused bad-line line 8"),
    (UNDONE, "moves", "moves\t", "refused bad-byte line 5 column 6"),
    (UNDONE, "given b:ab a:ab b:ab B:aB A:Ab B:aB", "given" + " i1" * 1024, "valid"),
    (UNDONE, "given b:ab a:ab b:ab B:aB A:Ab B:aB", "given" + " i1" * 1026, "refused bad-line line 4"),
    (UNDONE, "moves", "moves" + " i1" * 1026, "valid"),
    # ---- tuples that are too long
    (UNDONE, "given b:ab", f"given {NEAR} b:ab", "valid"),
    (UNDONE, "given b:ab", f"given {FAR} b:ab", "invalid line 4 long"),
    (UNDONE, "moves", f"moves {NEAR}", "invalid line 5 straight"),
    (UNDONE, "moves", f"moves {FAR}", "invalid line 5 long"),
    (UNDONE, "moves", f"moves {OUT}", "invalid line 5 long"),
    (DOUBLED_AND_HALVED, "tuple b", f"tuple {'b' * 2049}", "invalid line 4 long"),
    (DOUBLED_AND_HALVED, "tuple b", f"tuple {'b' * 2048}", "invalid line 6 end"),
    (DOUBLED_AND_HALVED, "tuple b", f"tuple a{'b' * 2048}", "invalid line 4 long"),
    (DOUBLED_AND_HALVED.replace("tuple b", f"tuple {'b' * 2048}"), "end b", f"end {'b' * 2048}", "valid"),
    # ---- lists that aren't straight
    (UNDONE, "moves", "moves b:ab a:ab b:ab B:aB A:Ab B:aB", "invalid line 5 straight"),
    (UNDONE, "moves", "moves b:ab B:aB", "invalid line 5 straight"),
    (PEAK, "moves A:Abc c:bc", "moves c:bc A:Ac", "invalid line 5 straight"),
    (VALLEY, "moves a:aB", "moves s1 s1 a:aB", "invalid line 5 straight"),
    (VALLEY, "moves a:aB s1 i2 b:ab", "moves a:aB s1 i2 b:ab s1 s1", "invalid line 5 straight"),
    (VALLEY, "moves a:aB s1 i2 b:ab", "moves a:aB s1 i2 b:ab B:aB b:ab", "invalid line 5 straight"),
    (VALLEY, "moves a:aB", "moves a:aB A:Ab a:aB", "invalid line 5 straight"),
    # ---- other automorphisms: a conjugation, or a list that is the same, makes no difference
    (UNDONE, "moves", "moves a:abB", "valid"),
    (UNDONE, "moves", "moves b:aAb a:abB b:aAb A:AbB", "valid"),
    (UNDONE, "moves", "moves a:a B:B", "valid"),
    (UNDONE, "moves", "moves i1", "invalid line 5 alike"),
    # What is left out, or put in, does nothing to the tuple on which it acts.
    (UNDONE, "moves", "moves i2", "invalid line 5 alike"),
    (UNDONE, "moves", "moves a:ab", "invalid line 5 alike"),
    (VALLEY, "moves a:aB s1 i2 b:ab", "moves a:aB s1 b:ab", "invalid line 5 alike"),
    (VALLEY, "moves a:aB s1 i2", "moves a:aB i1 s1 i2", "invalid line 5 alike"),
    (VALLEY, "moves a:aB s1 i2 b:ab", "moves a:aB s1 i2 a:abB b:ab", "valid"),
    (VALLEY, "moves a:aB s1 i2 b:ab", "moves a:aB s1 i2 b:ab a:abB", "invalid line 5 straight"),
    (PEAK, "moves A:Abc c:bc", "moves A:Ab c:bc", "invalid line 5 alike"),
    (PEAK, "moves A:Abc c:bc", "moves A:Abc a:abB c:bc", "invalid line 5 alike"),
    (PEAK, "moves A:Abc c:bc", "moves A:Abc a:abBcC c:bc", "valid"),
    (TURNED, "moves i2 i1", "moves", "invalid line 5 alike"),
    (TURNED, "moves i2 i1", "moves i1", "invalid line 5 alike"),
    # The other order, the inverse, and a conjugation of some generators alone.
    (NOWHERE, "moves a:ab b:ab", "moves b:ab a:ab", "invalid line 5 alike"),
    (NOWHERE, "moves a:ab b:ab", "moves B:aB A:Ab", "invalid line 5 alike"),
    (NOWHERE, "moves a:ab b:ab", "moves a:abB b:ab a:ab A:AbB", "invalid line 5 alike"),
    (NOWHERE, "moves a:ab b:ab", "moves a:abcC b:ab", "invalid line 5 alike"),
    (NOWHERE, "moves a:ab b:ab", "moves a:ab b:ab c:aAbBc", "valid"),
    (NOWHERE, "moves a:ab b:ab", "moves c:aAbBc a:ab b:ab", "valid"),
    (NOWHERE, "moves a:ab b:ab", "moves A:ABcC b:ab", "valid"),
    (NOWHERE, "moves a:ab b:ab", "moves a:ab b:ab b:aAb", "invalid line 5 alike"),
    (NOWHERE, "moves a:ab b:ab", "moves", "invalid line 5 alike"),
    # With images of very many letters.
    (FIBONACCI, "moves", "moves b:aAbcC", "valid"),
    (FIBONACCI, "moves", "moves b:aAb", "invalid line 5 alike"),
    (FIBONACCI, BACK, BACK.replace("B:aB", "B:AB", 1), "invalid line 5 alike"),
    (FIBONACCI, f"given {OUT} {BACK}\nmoves", f"given {OUT}\nmoves {OUT}", "valid"),
    (FIBONACCI, f"given {OUT} {BACK}\nmoves", f"given {OUT}\nmoves c:aAbBc {OUT}", "valid"),
    (FIBONACCI, f"given {OUT} {BACK}\nmoves", f"given {OUT}\nmoves {BACK}", "invalid line 5 alike"),
    (FIBONACCI, f"given {OUT} {BACK}\nmoves", f"given {OUT}\nmoves i1 i2 i3 {OUT} i1 i2 i3", "invalid line 5 alike"),
    # ---- the end is another one
    (UNDONE, "end a", "end A", "invalid line 6 end"),
    (UNDONE, "end a", "end b", "invalid line 6 end"),
    (UNDONE, "end a", "end aa", "invalid line 6 end"),
    (UNDONE, "tuple a", "tuple aB", "invalid line 6 end"),
    (PEAK, "end bc", "end ab", "invalid line 6 end"),
    (PEAK, "tuple ab", "tuple aab", "invalid line 6 end"),
    (TURNED, "end abAB", "end aBAb", "invalid line 6 end"),
    (TURNED, "end abAB", "end BabA", "valid"),
]
