"""Random scripts for line programs: each is the bytes that one session reads.

A script is fixed by its seed and its number. Its sort says where it presses: joins that cascade,
rings, sessions at their limits, lines outside the notation, and so on.
"""

import random

MAX_NODES = 256
MAX_VARIABLES = 64
MAX_APARTS = 128
MAX_PATH = 8
MAX_LINE = 120
VALUES = [0, 1, 2, 3, 65535]


def spell(variable, path=()):
    return ".".join(map(str, [variable, *path]))


class Vocabulary:
    """What the terms, values and calls of a script are drawn from."""

    def __init__(self, rng, variables, attributes, longest):
        self.rng = rng
        self.variables = variables
        self.attributes = attributes
        self.longest = longest
        self.leaf_attributes = rng.sample(range(32), 2)
        self.mentioned = []

    def path(self, shortest=0):
        length = self.rng.randint(shortest, max(shortest, self.longest))
        return [self.rng.choice(self.attributes) for _ in range(length)]

    def term(self, shortest=0):
        return spell(self.rng.randrange(self.variables), self.path(shortest))

    def valued(self):
        """A term for a value: mostly one that ends in an attribute kept for leaves."""
        if self.rng.random() < 0.2 or self.longest >= MAX_PATH:
            return self.term()
        return self.term() + "." + str(self.rng.choice(self.leaf_attributes))

    def declaration(self):
        self.variables = min(self.variables + 1, MAX_VARIABLES)
        return "v"

    def equation(self):
        self.mentioned += [self.term(), self.term()]
        return "e " + " ".join(self.mentioned[-2:])

    def value(self):
        return f"k {self.valued()} {self.rng.choice(VALUES)}"

    def apart(self):
        return f"d {self.term()} {self.term()}"

    def asked(self):
        """A term for a question: often one that was mentioned in an equation, or a longer one."""
        if not self.mentioned or self.rng.random() < 0.3:
            return self.term()
        longer = self.rng.random() < 0.3
        return self.rng.choice(self.mentioned) + (f".{self.rng.choice(self.attributes)}" if longer else "")

    def question(self):
        sort = self.rng.randrange(3)
        if sort == 0:
            return f"s {self.asked()} {self.asked()}"
        return f"w {self.valued() if sort == 1 else self.asked()}"

    def line(self, equations=8, values=4, aparts=1, questions=4, listings=1, declarations=1):
        calls = [self.equation, self.value, self.apart, self.question, lambda: "l", self.declaration]
        weights = [equations, values, aparts, questions, listings, declarations]
        return self.rng.choices(calls, weights)[0]()

    def closing_lines(self):
        """Questions and a listing, to show what a script has come to."""
        return [self.question() for _ in range(self.rng.randint(2, 8))] + ["l"]


def declared(count):
    return ["v"] * count


def mixed(rng):
    attributes = rng.sample(range(32), rng.randint(1, 5))
    words = Vocabulary(rng, rng.randint(1, 8), attributes, rng.randint(1, 4))
    lines = declared(words.variables)
    lines += [words.line() for _ in range(rng.randint(3, 60))]
    return lines + words.closing_lines()


def cascades(rng):
    """Trees alike on several variables, then their roots joined."""
    trees = rng.randint(2, 6)
    words = Vocabulary(rng, trees, rng.sample(range(32), rng.randint(1, 3)), rng.randint(2, 7))
    branches = [words.path(1) for _ in range(rng.randint(2, 8))]
    lines = declared(trees)
    for tree in range(trees):
        for branch in branches:
            term = spell(tree, branch)
            words.mentioned.append(term)
            lines.append(rng.choice([f"e {term} {term}", f"k {term} 0", f"e {term} {words.term()}"]))
        if rng.random() < 0.7:
            leaf = spell(tree, rng.choice(branches) + words.leaf_attributes[:1])
            lines.append(f"k {leaf} {rng.choice([4, 4, 4, 5])}")
    for _ in range(rng.randint(2, 10)):
        lines.append(f"e {rng.randrange(trees)} {rng.randrange(trees)}")
        lines.append(words.line(equations=1))
    return lines + words.closing_lines()


def rings(rng):
    """Rings through one variable or many, joined with each other at several places."""
    attribute = rng.randrange(32)
    variables = rng.randint(1, 6)
    words = Vocabulary(rng, variables, [attribute, rng.randrange(32)], MAX_PATH)
    lines = declared(variables)
    for variable in range(variables):
        length = rng.randint(1, MAX_PATH)
        closes = variable if rng.random() < 0.5 else (variable + 1) % variables
        lines.append(f"e {spell(variable, [attribute] * length)} {closes}")
    for _ in range(rng.randint(1, 8)):
        ends = [spell(rng.randrange(variables), [attribute] * rng.randint(0, MAX_PATH)) for _ in range(2)]
        words.mentioned += ends
        lines += [f"e {ends[0]} {ends[1]}", words.question()]
    return lines + words.closing_lines()


def long_paths(rng):
    words = Vocabulary(rng, rng.randint(1, 3), rng.sample(range(32), rng.randint(1, 4)), rng.randint(7, 9))
    lines = declared(words.variables)
    lines += [words.line(values=2) for _ in range(rng.randint(3, 25))]
    return lines + words.closing_lines()


def dense(rng, variables, nodes, attributes):
    """Two graphs of which each node has each attribute, further variables on some nodes, then the roots joined."""
    lines = declared(variables)
    lines += [f"e {variable} {variable % 2}.{variable // 2}" for variable in range(2, variables)]
    for variable in range(2):
        paths = [[]]
        for path in paths:
            for attribute in range(attributes):
                longer = path + [attribute]
                if len(paths) < nodes:
                    paths.append(longer)
                    lines.append(f"k {spell(variable, longer)} 0")
                else:
                    lines.append(f"e {spell(variable, longer)} {spell(variable, rng.choice(paths))}")
    return lines + ["l", "e 0 1", "s 0 1", "l"]


def collapses(rng):
    attributes = rng.randint(2, 5)
    return dense(rng, rng.randint(2, 2 * attributes), rng.randint(2, 20), attributes)


def full_collapse(rng):
    """As many variables, nodes and attributes as a session takes: the longest listing, then thousands of joins at once."""
    return dense(rng, MAX_VARIABLES, MAX_NODES // 2, 32)


def wide(rng):
    """Two trees with few thick boughs, then their roots joined: many joins wait at once, and each counts."""
    boughs = rng.randint(1, 4)
    branches = [[bough, twig] for bough in range(boughs) for twig in range(32)]
    branches = rng.sample(branches, rng.randint(10 * boughs, 30 * boughs))
    words = Vocabulary(rng, 2, range(32), 2)
    lines = declared(2)
    for variable in range(2):
        rng.shuffle(branches)
        words.mentioned += [spell(variable, branch) for branch in branches]
        lines += [f"k {spell(variable, branch)} {rng.choice([0] * 99 + [1, 2])}" for branch in branches]
    return lines + ["e 0 1", "l", "e 0 0.0", "e 1.1 0"] + words.closing_lines()


def full_nodes(rng):
    """Chains on many variables up to the greatest number of nodes, or nearly so."""
    variables = rng.choice([64, 63, 48, 32])
    words = Vocabulary(rng, variables, [0, 1, 2], 3)
    left = MAX_NODES - variables - rng.choice([0, 0, 0, 1, 2, 9])
    lines = declared(variables)
    for variable in range(variables):
        length = min(left, 3 if variables > 60 else MAX_PATH)
        if length > 0:
            value = rng.choice([0, 0, 5, 5, 6])
            lines.append(f"k {spell(variable, [0, 1, 2, 0, 1, 2, 0, 1][:length])} {value}")
        left -= length
    for _ in range(rng.randint(3, 15)):
        near = spell(rng.randrange(variables), rng.choice([[3], [3, 3], [3] * 8, [0, 3], []]))
        other = spell(rng.randrange(variables), rng.choice([[], [], [3], [0, 1]]))
        lines.append(rng.choice([f"e {near} {other}", f"e {near} {near}", f"k {near} 0", f"d {near} {near}", "v"]))
        lines.append(words.line(equations=2, aparts=0, declarations=0, listings=0))
    return lines + words.closing_lines()


def many_variables(rng):
    words = Vocabulary(rng, MAX_VARIABLES, rng.sample(range(32), 3), 2)
    lines = declared(rng.randint(60, 68))
    lines += [words.line(declarations=0) for _ in range(rng.randint(3, 20))]
    return lines + words.closing_lines()


def many_aparts(rng):
    words = Vocabulary(rng, rng.randint(2, 5), rng.sample(range(32), rng.randint(1, 3)), 2)
    lines = declared(words.variables)
    lines += [words.line() for _ in range(rng.randint(0, 6))]
    lines += [words.apart() for _ in range(rng.randint(MAX_APARTS - 20, MAX_APARTS + 40))]
    lines += [words.line(aparts=2, declarations=0) for _ in range(rng.randint(3, 20))]
    return lines + words.closing_lines()


def edges(rng):
    """Numbers on both sides of every limit, and the two sides of a call at fault in many ways."""
    variables = rng.randint(0, 3)
    words = Vocabulary(rng, max(variables, 1), [0, 30, 31], 3)

    def term():
        if rng.random() < 0.5:
            return words.term()
        attributes = [0, 31, 31, 31, 32, 33, 255, 256, 287, 65535]
        length = rng.choice([0, 1, 2, 7, 8, 9, 10])
        within = rng.random() < 0.4
        path = [rng.choice(attributes[:4] if within else attributes) for _ in range(length)]
        return spell(rng.choice([0, 0, 0, 1, variables, 63, 64, 255, 256, 65535]), path)

    def line():
        letter = rng.choice("eekkdsw")
        if letter == "w":
            return f"w {term()}"
        value = rng.choice([0, 1, 65534, 65535, 65536, 65537, 131071, 2**32, 2**63, 2**64 - 1])
        return f"{letter} {term()} {value if letter == 'k' else term()}"

    return declared(variables) + [line() for _ in range(rng.randint(3, 30))] + words.closing_lines()


def outside(rng, words):
    """A line that is most likely outside the notation, as bytes."""
    sorts = [mutated, mutated, mutated, cut, odd_number, long_line, loose_bytes]
    return rng.choice(sorts)(rng, words)


def mutated(rng, words):
    line = bytearray(words.line().encode())
    for _ in range(rng.randint(1, 2)):
        at = rng.randint(0, len(line))
        byte = rng.choice(b"0123456789.. evkdswlEV+-,:;\t\r\0\x0b\x7f\x80\xb0\xff")
        change = rng.randrange(3)
        line[at : at + (change != 0)] = bytes([byte]) if change != 2 else b""
    return bytes(line)


def cut(rng, words):
    line = words.line().encode()
    return line[: rng.randint(0, len(line))]


def odd_number(rng, words):
    numbers = ["00", "01", "65535", "65536", "65540", "99999", "100000", "655350", "4294967296"]
    numbers += ["18446744073709551615", "18446744073709551616", "18446744073709551620", "20000000000000000000"]
    numbers += ["99999999999999999999", "184467440737095516150", "1" * 30, "", "-1", "+1", "1e3", "0x1"]
    number = rng.choice(numbers)
    shapes = ["k 0 {}", "k {} 5", "e {} 0", "e 0.{} 0", "e 0 {}", "e 0 0.{}.1", "w {}", "w 0.{}", "s 0 0.1.{}", "v {}"]
    return rng.choice(shapes).format(number).encode()


def long_line(rng, words):
    """A line near the greatest length: a long term, or bytes of any sort."""
    length = rng.choice([MAX_LINE - 1, MAX_LINE, MAX_LINE, MAX_LINE + 1, MAX_LINE + 1, MAX_LINE + 2, 255, 256, 300])
    start = rng.choice(["w 0", "e 0", "e 0 0", "d 0.3", "k 0", "x", "v", ""])
    filler = rng.choice([".1", ".31", ".10", ".0", "x", " ", "\0", "1", ".65535"])
    line = (start + filler * length)[:length]
    return line.encode()


def loose_bytes(rng, words):
    return bytes(rng.choice([rng.randrange(256), rng.choice(b"ev 0.1")]) for _ in range(rng.randint(0, 12))).replace(b"\n", b"")


def notation(rng):
    words = Vocabulary(rng, rng.randint(1, 3), [0, 1, 31], 3)
    lines = declared(words.variables)
    lines += [outside(rng, words) if rng.random() < 0.8 else words.line() for _ in range(rng.randint(3, 50))]
    return lines + words.closing_lines()


SORTS = {
    mixed: 30,
    cascades: 14,
    rings: 10,
    long_paths: 8,
    collapses: 3,
    wide: 3,
    full_nodes: 4,
    many_variables: 3,
    many_aparts: 3,
    edges: 10,
    notation: 15,
}


def strewn(rng, lines):
    """The lines with some outside the notation among them."""
    words = Vocabulary(rng, 2, [0, 1], 2)
    for _ in range(rng.randint(1, 4)):
        lines.insert(rng.randint(0, len(lines)), outside(rng, words))
    return lines


def joined(rng, lines):
    """The bytes of the lines, sometimes without the last line end."""
    script = b"".join((line if isinstance(line, bytes) else line.encode()) + b"\n" for line in lines)
    return script[:-1] if rng.random() < 0.2 else script


def script(seed, number):
    """The sort and the bytes of a script."""
    rng = random.Random(f"{seed}/{number}")
    sort = rng.choices(list(SORTS), list(SORTS.values()))[0]
    lines = sort(rng)
    if rng.random() < 0.25:
        lines = strewn(rng, lines)
    return sort.__name__, joined(rng, lines)


def full_script(seed):
    """The longest cascade that a session can have: slow for a naive program."""
    rng = random.Random(f"{seed}/full")
    return full_collapse.__name__, joined(rng, full_collapse(rng))
