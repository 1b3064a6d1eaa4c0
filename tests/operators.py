#!/usr/bin/env python3
"""Prints the lines of the program crates/test_operators: for each width 1 to 64 a hash of the values of each operator, in the order of the operator table, with
as many operands as it has, or two where it takes more; then of each that takes more, in the same order, a hash of its values with 3, with 4, with 5 and with 6
operands.

The values are computed here on Python's integers, from what SMT-LIB's theories Core and FixedSizeBitVectors say of the operators; those of the signed operators
on the whole numbers that the operands stand for, and not by the cases of SMT-LIB's text. Only the operands and the hash, which are said in the program's comments,
are the program's.

  python3 tests/operators.py > crates/test_operators/stdout
"""
import functools
import itertools

WORD = 2**64 - 1


def following(x):
    """The number after x in Marsaglia's xorshift of 64 bits."""
    x ^= x << 13 & WORD
    x ^= x >> 7
    return x ^ (x << 17 & WORD)


def folded(total, value):
    """A hash with one value more."""
    return (following(total ^ value) + 0x9E3779B97F4A7C15) & WORD


def bits(a, n):
    """The bits of a, highest first."""
    return [a >> k & 1 for k in reversed(range(n))]


def number(digits):
    """The number whose bits, highest first, are these."""
    return int("".join(map(str, digits)), 2)


def udiv(n, a, b):
    return 2**n - 1 if b == 0 else a // b


def urem(n, a, b):
    return a if b == 0 else a - a // b * b


def whole(n, a):
    """The whole number that a, n wide, stands for: from -2^(n - 1) to 2^(n - 1) - 1."""
    return a - 2**n if a >= 2 ** (n - 1) else a


def quotient(p, q):
    """The quotient of whole numbers, rounded to zero."""
    return abs(p) // abs(q) * (1 if (p < 0) == (q < 0) else -1)


def sdiv(n, a, b):
    p, q = whole(n, a), whole(n, b)
    exact = quotient(p, q) if q else (1 if p < 0 else -1)
    return exact % 2**n


def srem(n, a, b):
    """The remainder of the quotient rounded to zero: it has the dividend's sign."""
    p, q = whole(n, a), whole(n, b)
    return (p - quotient(p, q) * q) % 2**n if q else a


def smod(n, a, b):
    """Python's remainder of whole numbers, which has the divisor's sign."""
    p, q = whole(n, a), whole(n, b)
    return p % q % 2**n if q else a


def ashr(n, a, b):
    """Python's shift of a whole number, which rounds down; from n on it changes no more."""
    return (whole(n, a) >> min(b, n)) % 2**n


def ordered(f):
    """The order of the whole numbers that two vectors stand for."""
    return lambda n, a, b: f(whole(n, a), whole(n, b))


def concat(n, a, y):
    """Of a, n wide, and low bits of y, which chooses how many; 0 where a leaves no room."""
    if n == 64:
        return 0
    m = 1 + y % (64 - n)
    return number(bits(a, n) + bits(y % 2**m, m))


def extract(n, a, y):
    """Bits i down to j of a, n wide, where y chooses i and j."""
    i = y % n
    j = (y >> 8) % (i + 1)
    return number(bits(a, n)[n - 1 - i : n - j])


# Operators of Bools p and q; of vectors a and b, n wide; and of a vector and the number y.
BOOLEAN = [
    lambda p, q: not p,
    lambda p, q: p and q,
    lambda p, q: p or q,
    lambda p, q: p != q,
    lambda p, q: q if p else True,
]
VECTOR = [
    lambda n, a, b: a == b,
    lambda n, a, b: a != b,
    lambda n, a, b: a ^ (2**n - 1),
    lambda n, a, b: -a % 2**n,
    lambda n, a, b: a & b,
    lambda n, a, b: a | b,
    lambda n, a, b: a ^ b,
    lambda n, a, b: (a + b) % 2**n,
    lambda n, a, b: (a - b) % 2**n,
    lambda n, a, b: (a * b) % 2**n,
    udiv,
    urem,
    lambda n, a, b: (a << min(b, n)) % 2**n,
    lambda n, a, b: a >> min(b, n),
    lambda n, a, b: a < b,
]

# The operators behind `(_ extract i j)`, by their names: of vectors a and b, n wide.
LATER = {
    "bvsdiv": sdiv,
    "bvsrem": srem,
    "bvsmod": smod,
    "bvashr": ashr,
    "bvslt": ordered(lambda p, q: p < q),
    "bvsle": ordered(lambda p, q: p <= q),
    "bvsgt": ordered(lambda p, q: p > q),
    "bvsge": ordered(lambda p, q: p >= q),
    "bvule": lambda n, a, b: a <= b,
    "bvugt": lambda n, a, b: a > b,
    "bvuge": lambda n, a, b: a >= b,
}


def implies(p, q):
    return q if p else 1


def grouped_left(f):
    """Of any operands, grouped from the left."""
    return lambda values: functools.reduce(f, values)


def grouped_right(f):
    """Of any operands, grouped from the right."""
    return lambda values: functools.reduce(lambda right, left: f(left, right), reversed(values))


def chained(f):
    """Whether it holds of each operand and the next."""
    return lambda values: all(f(a, b) for a, b in zip(values, values[1:]))


def pairwise(f):
    """Whether it holds of each operand and every later one."""
    return lambda values: all(f(a, b) for a, b in itertools.combinations(values, 2))


# "`and or xor` group from the left, `=>` from the right, `=` chains, `distinct` is pairwise": over the list of the operands' values, of a Bool 0 or 1.
LOGIC = {
    "and": grouped_left(lambda p, q: p & q),
    "or": grouped_left(lambda p, q: p | q),
    "xor": grouped_left(lambda p, q: p ^ q),
    "=>": grouped_right(implies),
}
EQUALITY = {
    "=": chained(lambda a, b: a == b),
    "distinct": pairwise(lambda a, b: a != b),
}
COUNTS = (3, 4, 5, 6)


def choice(n, x, y):
    return x % 2**n if x % 2 == 1 else y % 2**n


def over_bools(f):
    return lambda n, x, y: f(x % 2 == 1, y % 2 == 1)


def over_vectors(f):
    return lambda n, x, y: f(n, x % 2**n, y % 2**n)


def over_one(f):
    return lambda n, x, y: f(n, x % 2**n, y)


# In the order of the operator table: `not` to `=>`, `=` and `distinct`, `ite`, `bvnot` to `bvult`, `concat`, `(_ extract i j)`, `bvsdiv` to `bvuge`.
OPERATORS = (
    [over_bools(f) for f in BOOLEAN]
    + [over_vectors(f) for f in VECTOR[:2]]
    + [choice]
    + [over_vectors(f) for f in VECTOR[2:]]
    + [over_one(concat), over_one(extract)]
    + [over_vectors(f) for f in LATER.values()]
)

# Up to this width every pair of operands is taken.
FULL_WIDTH = 4


def random_pairs(n, count):
    """So many pairs of pseudo-random numbers, for the width n."""
    x = n
    for _ in range(count):
        y = following(x)
        yield x, y
        x = following(y)


def edges(n):
    """The edge operands of width n: 0, 1, all ones, the highest bit, all below it, and all ones but the lowest."""
    return [0, 1, WORD, 2 ** (n - 1), 2 ** (n - 1) - 1, WORD - 1]


def operands(n):
    """All pairs of edge operands of width n, of a small width all pairs there are, then 10,000 pseudo-random pairs, of which the second has any number of bits."""
    yield from itertools.product(edges(n), repeat=2)
    if n <= FULL_WIDTH:
        yield from itertools.product(range(2**n), repeat=2)
    yield from ((x, y >> (x >> 32) % 64) for x, y in random_pairs(n, 10_000))


def many_operands(pairs, n):
    """Of each pair six operands, n wide: the first number without some of its last bits, 0 or 1 of them where the second's highest bit is 0, else 0 to 7, as
    three bits of the second say for each operand; so they are often alike, and often all different."""
    for x, y in pairs:
        most = 2 if y >> 63 == 0 else 8
        yield [(x >> (y >> 3 * i) % most) % 2**n for i in range(6)]


def hashed(values):
    """The hash of values."""
    return "%016x" % functools.reduce(folded, map(int, values), 0)


def of_two(n):
    """The hash of each operator at a width, with as many operands as it has, or two."""
    chosen = list(operands(n))
    return [hashed(f(n, x, y) for x, y in chosen) for f in OPERATORS]


def of_many(n):
    """The hashes of each operator that takes more than two operands at a width, with each number of operands."""
    pairs = list(random_pairs(n, 1_000))
    bools, vectors = list(many_operands(pairs, 1)), list(many_operands(pairs, n))
    ways = [(f, bools) for f in LOGIC.values()] + [(f, vectors) for f in EQUALITY.values()]
    return [hashed(f(values[:count]) for values in chosen) for f, chosen in ways for count in COUNTS]


def main():
    """Prints a line for each width."""
    for n in range(1, 65):
        print(n, *of_two(n), *of_many(n))


if __name__ == "__main__":
    main()
