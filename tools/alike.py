"""Whether two lists of moves are alike: whether they are one automorphism of a free group up to conjugation.

They are alike where some word g makes the image of each generator under the first list the inverse of g, times the image
under the second list, times g: one g for all generators.

Where the images have few letters on the way, they are written out and compared. Those of a thousand moves may have more
letters than there is room for. Then random representations of the group by matrices, three by three over a large prime
field, are pulled back along both lists, move by move: of alike lists this makes two representations that some invertible
matrix conjugates into each other, and that matrix solves linear equations. So where some representation has no such
matrix, the lists aren't alike, and this is exact. Where all have one, that the lists are alike is told with a tiny chance
of error: an error takes several coincidences of numbers of 61 bits in each representation. No bound for it is proved, since
for long lists these numbers are polynomials of very great degree in random ones. The matrices are three by three, since
the traces of two by two matrices of determinant 1 don't tell a word from its inverse. The representations are the same
each time.

A move is told by its images here: the words that it takes the letters to. Letters are numbers, so that x ^ 1 is the
inverse of x.
"""

import collections
import random

MOST_WRITTEN = 1000000
REPRESENTATIONS = 3
PRIME = 2**61 - 1
SIZE = 3
PLACES = [(row, column) for row in range(SIZE) for column in range(SIZE)]


def pulled_back(values, images, product):
    """What a move makes of the values of letters: each letter has the product of the values of its image."""
    return [values[word[0]] if len(word) == 1 else product([values[x] for x in word]) for word in images]


# ---- images that are written out


def joined(words):
    """The free reduction of a product of words."""
    kept = list(words[0])
    for word in words[1:]:
        for x in word:
            if kept and kept[-1] == x ^ 1:
                kept.pop()
            else:
                kept.append(x)
    return kept


def written_images(rank, moves):
    """The images of the generators under a list of moves; None where those on the way have too many letters in all."""
    words = [[x] for x in range(2 * rank)]
    letters = 0
    for images in reversed(moves):
        words = pulled_back(words, images, joined)
        letters += sum(map(len, words))
        if letters > MOST_WRITTEN:
            return None
    return words[0::2]


def conjugate(words, x):
    """Puts the inverse of a letter before each word and the letter behind it."""
    for word in words:
        if word[0] == x:
            word.popleft()
        else:
            word.appendleft(x ^ 1)
        if word and word[-1] == x ^ 1:
            word.pop()
        else:
            word.append(x)


def growth(word, x):
    """By how much a word grows where it is conjugated by a letter."""
    return 2 - 2 * (word[0] == x) - 2 * (word[-1] == x ^ 1)


def first_conjugate(images):
    """One of the conjugates of two images or more, the same whichever of them is given.

    Its first image is cyclically reduced. Conjugates with such a first image turn it round, and of these the second image
    is as short as can be, and longer where the first is turned back by one letter more. There is such a place, since no two
    images are powers of one word.
    """
    words = list(map(collections.deque, images))
    first, second = words[:2]
    while first[0] == first[-1] ^ 1:
        conjugate(words, first[0])
    while growth(second, first[0]) < 0:
        conjugate(words, first[0])
    while growth(second, first[-1] ^ 1) <= 0:
        conjugate(words, first[-1] ^ 1)
    return words


# ---- matrices


def multiplied(matrices):
    result, *others = matrices
    for other in others:
        columns = list(zip(*other))
        result = [[sum(a * b for a, b in zip(row, column)) % PRIME for column in columns] for row in result]
    return result


def cofactor(matrix, row, column):
    (a, b), (c, d) = [[matrix[(row + j) % SIZE][(column + k) % SIZE] for k in (1, 2)] for j in (1, 2)]
    return (a * d - b * c) % PRIME


def determinant(matrix):
    return sum(matrix[0][column] * cofactor(matrix, 0, column) for column in range(SIZE)) % PRIME


def inverse(matrix):
    scale = pow(determinant(matrix), -1, PRIME)
    return [[scale * cofactor(matrix, column, row) % PRIME for column in range(SIZE)] for row in range(SIZE)]


def random_representation(rng, rank):
    """A random matrix for each generator, and its inverse for the inverse letter."""
    values = []
    while len(values) < 2 * rank:
        matrix = [[rng.randrange(PRIME) for _ in range(SIZE)] for _ in range(SIZE)]
        if determinant(matrix):
            values += [matrix, inverse(matrix)]
    return values


def without(row, pivot, column):
    """A row less the multiple of another one, which has a 1 in a column, that leaves a 0 there."""
    return [(a - row[column] * b) % PRIME for a, b in zip(row, pivot)]


def solution(pivots, one, count):
    """What solves equations, each with a 1 in a column of its own, where one other unknown is 1 and all others are 0."""
    values = [int(column == one) for column in range(count)]
    for column, pivot in pivots.items():
        values[column] = -pivot[one] % PRIME
    return values


def solutions(equations, count):
    """A basis of what solves linear equations in so many unknowns: each is a row, whose product with a solution is 0."""
    pivots = {}
    for row in equations:
        for column, pivot in pivots.items():
            row = without(row, pivot, column)
        column = next((column for column in range(count) if row[column]), None)
        if column is not None:
            scale = pow(row[column], -1, PRIME)
            row = [scale * a % PRIME for a in row]
            pivots = {other: without(pivot, row, column) for other, pivot in pivots.items()}
            pivots[column] = row
    return [solution(pivots, column, count) for column in range(count) if column not in pivots]


def equations_of(first, second):
    """The equations for a matrix g, place by place, that say of two matrices: g times the first is the second times g."""
    for row, column in PLACES:
        yield [(j == row) * first[k][column] - (k == column) * second[row][j] for j, k in PLACES]


def are_conjugate(first, second):
    """Whether some invertible matrix conjugates two representations into each other. Where their equations have more
    solutions than the multiples of one, which random representations don't meet, nothing is told, and it is true."""
    equations = (equation for pair in zip(first[0::2], second[0::2]) for equation in equations_of(*pair))
    basis = solutions(equations, len(PLACES))
    if len(basis) != 1:
        return bool(basis)
    (values,) = basis
    return determinant([values[SIZE * row : SIZE * (row + 1)] for row in range(SIZE)]) != 0


def all_pulled_back(values, moves):
    for images in reversed(moves):
        values = pulled_back(values, images, multiplied)
    return values


# ---- both ways


def are_alike(rank, first, second):
    """Whether two lists of moves, each move by the images of the letters, are one automorphism up to conjugation."""
    written = [written_images(rank, moves) for moves in (first, second)]
    if None not in written:
        return written[0] == written[1] or rank > 1 and first_conjugate(written[0]) == first_conjugate(written[1])
    rng = random.Random(20)
    representations = (random_representation(rng, rank) for _ in range(REPRESENTATIONS))
    return all(are_conjugate(all_pulled_back(values, first), all_pulled_back(values, second)) for values in representations)
