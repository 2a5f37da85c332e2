"""Makes certificates of small random tuples by plain search, and alters texts at random.

The program takes no part in this: a tuple is shortened by trying every move, flows are found by augmenting paths, and a
level by making every move on every tuple of it. So traces, moves and flows are mostly others than those of the program.
"""

from check_certificate import act, cyclic_word, edges, every_move, hashed, inverse, length


def chosen(rng, items):
    return items[rng.randrange(len(items))]


# ---- texts


def letters_text(letters):
    return "".join(chr(ord("A" if x % 2 else "a") + x // 2) for x in letters)


def tuple_line(keyword, words):
    return " ".join([keyword, *(letters_text(word) or "1" for word in words)])


def move_text(move):
    kind, *data = move
    if kind == "cut":
        multiplier, letters = data
        return f"{letters_text([multiplier])}:{letters_text(sorted(letters))}"
    return f"{kind[0]}{data[0]}"


def moves_line(keyword, moves):
    return " ".join([keyword, *map(move_text, moves)])


# ---- plain search


def inverse_move(move):
    if move[0] != "cut":
        return move
    _, multiplier, letters = move
    return "cut", inverse(multiplier), letters - {multiplier} | {inverse(multiplier)}


def shortened(rank, words):
    """Moves that shorten a tuple until no move does, and what they make of it."""
    words = [cyclic_word(word) for word in words]
    moves = []
    shorter = True
    while shorter:
        shorter = next((m for m in every_move(rank) if length(act(words, m)) < length(words)), None)
        if shorter:
            moves.append(shorter)
            words = act(words, shorter)
    return moves, words


def level(rank, root, most):
    """The level of a tuple that no move shortens, with a list of moves to each tuple of it; None where it has more than so many."""
    walks = {hashed(root): []}
    waiting = [root]
    for words in waiting:
        for move in every_move(rank):
            image = act(words, move)
            if length(image) == length(root) and hashed(image) not in walks:
                walks[hashed(image)] = [*walks[hashed(words)], move]
                waiting.append(image)
        if len(walks) > most:
            return None
    return walks


def open_path(room, source):
    """Pairs of letters with room between them, one after another from a letter to its inverse; None where there are none."""
    paths = {source: []}
    waiting = [source]
    for x in waiting:
        for (y, z), n in sorted(room.items()):
            if y == x and n > 0 and z not in paths:
                paths[z] = [*paths[x], (y, z)]
                waiting.append(z)
    return paths.get(inverse(source))


def greatest_flow(words, source):
    """The pairs of a greatest flow from a letter to its inverse in the Whitehead graph of a tuple, with their amounts."""
    capacity = edges(words)
    room = dict(capacity)
    while path := open_path(room, source):
        for x, y in path:
            room[x, y] -= 1
            room[y, x] += 1
    return {pair: n - room[pair] for pair, n in sorted(capacity.items()) if room[pair] < n}


# ---- certificates


def flow_line(words, source):
    pairs = greatest_flow(words, source)
    value = sum(n for (x, _), n in pairs.items() if x == source)
    fields = [f"{letters_text(pair)}:{n}" for pair, n in pairs.items()]
    return " ".join(["flow", letters_text([source]), str(value), *fields])


def side_lines(rank, trace, end):
    flows = [flow_line(end, 2 * generator) for generator in range(rank)]
    return [moves_line("trace", trace), tuple_line("end", end), *flows]


def reduced_lines(rank, words):
    """The lines after the rank, in an answer of `reduce`."""
    return [tuple_line("tuple", words), *side_lines(rank, *shortened(rank, words))]


def decided_lines(rank, first, second, most):
    """Those in an answer of `decide`; None where the level would have more than so many tuples."""
    heads = [tuple_line("first", first), tuple_line("second", second)]
    (to_start, start), (to_target, target) = sides = [shortened(rank, first), shortened(rank, second)]
    no = [line for side in sides for line in side_lines(rank, *side)]
    if length(start) != length(target):
        return [*heads, "verdict no length", *no]
    walks = level(rank, start, most)
    if walks is None:
        return None
    if hashed(target) in walks:
        moves = [*to_start, *walks[hashed(target)], *map(inverse_move, reversed(to_target))]
        return [*heads, "verdict yes", moves_line("moves", moves)]
    ats = [tuple_line("at", words) for words in sorted(walks)]
    return [*heads, "verdict no level", *no, f"level {len(ats)}", *ats]


def random_tuple(rng, rank, count):
    """Words that need not be reduced."""
    return [[rng.randrange(2 * rank) for _ in range(rng.randrange(7))] for _ in range(count)]


def random_answer(rng, most):
    """An answer of rank 1 to 3, with at most so many tuples in its level; None where its level has more."""
    rank = 1 + rng.randrange(3)
    count = 1 + rng.randrange(2)
    command = chosen(rng, ["reduce", "decide", "decide", "decide"])
    tuples = [random_tuple(rng, rank, count) for _ in range(2)]
    lines = reduced_lines(rank, tuples[0]) if command == "reduce" else decided_lines(rank, *tuples, most)
    return lines and "\n".join([f"whitehead 1 {command}", f"rank {rank}", *lines, "done"]) + "\n"


def random_certificate(rng, most):
    """The same, of one of the four kinds, each as often as the others."""
    kind = chosen(rng, [" reduce\n", " yes\n", " no length\n", " no level\n"])
    text = None
    while text is None or kind not in text:
        text = random_answer(rng, most)
    return text


# ---- alterations


def with_other(rng, text, kind, others):
    """A text with another byte in the place of one of a kind, after the first word of a line."""
    places = [k for k, c in enumerate(text) if kind(c) and " " in text[text.rfind("\n", 0, k) + 1 : k]]
    place = chosen(rng, places)
    return text[:place] + chosen(rng, others) + text[place + 1 :]


def with_other_letter(rng, text):
    """A letter of the first generators in the place of a letter."""
    return with_other(rng, text, str.isalpha, "aAaAbBcC")


def with_other_digit(rng, text):
    return with_other(rng, text, str.isdecimal, "0123")


def with_other_fields(rng, text):
    """A field of a line is taken out, doubled, or exchanged with another one."""
    lines = [line.split(" ") for line in text.splitlines()]
    fields = chosen(rng, [fields for fields in lines if len(fields) > 1])
    j, k = (1 + rng.randrange(len(fields) - 1) for _ in range(2))
    way = rng.randrange(3)
    if way == 0:
        del fields[k]
    elif way == 1:
        fields.insert(k, fields[k])
    else:
        fields[j], fields[k] = fields[k], fields[j]
    return "".join(" ".join(fields) + "\n" for fields in lines)


def with_other_lines(rng, text):
    """Two neighbouring lines are exchanged, or one of them stands twice and the other not at all."""
    lines = text.splitlines(keepends=True)
    k = rng.randrange(len(lines) - 1)
    first, second = lines[k : k + 2]
    lines[k : k + 2] = chosen(rng, [[second, first], [first, first], [second, second]])
    return "".join(lines)


def with_other_level(rng, text):
    """A tuple of a level is taken out, or two that are neighbours are exchanged. Other texts are left as they are."""
    if "\nlevel " not in text:
        return text
    front, level_text = text.split("\nlevel ")
    count, *ats, done = level_text.splitlines()
    k = rng.randrange(len(ats))
    if rng.randrange(2):
        del ats[k]
    else:
        ats[k - 1 : k + 1] = reversed(ats[k - 1 : k + 1])
    return "\n".join([front, f"level {len(ats)}", *ats, done]) + "\n"


WAYS = [with_other_letter, with_other_letter, with_other_letter, with_other_digit, with_other_fields, with_other_lines, with_other_level]


def altered_at_random(rng, text):
    """Another text, which differs in a letter, a digit, the fields of a line, two lines, or the level."""
    altered = text
    while altered == text:
        altered = chosen(rng, WAYS)(rng, text)
    return altered
