"""Cases of the operators that take two or more operands (request E3): their values with 2 to 255 operands, their counts and sorts, what a rule of theirs derives,
costs and limits. The values are those of operators.py."""
import itertools

import operators
from cases import (
    MARK, TRUE, accepted, beside, bits, case, constraint, defined, ended_at, false_at, function, judged, named, refused, response, script, unmarked, variables)

MOST_OPERANDS = 255
VALUES = {**operators.LOGIC, **operators.EQUALITY}

# What an operator is called in the name of a case.
CALLED = {"and": "and", "or": "or", "xor": "xor", "=>": "implies", "=": "equal", "distinct": "distinct"}


def applied(operator, terms):
    """An application of an operator to terms."""
    return "(%s %s)" % (operator, " ".join(terms))


# Values

def tabled(operator, sort, rows):
    """A case whose variables but the last are the operands, and whose last has their value, at each row; a constraint costs 3 more than there are operands."""
    count = len(rows[0])
    term = applied(operator, ["v%d" % i for i in range(count)])
    given = beside(variables(*[sort] * count, "Bool"), constraint("(= v%d %s)" % (count, term)))
    points = [number for one in rows for number in (*one, int(VALUES[operator](one)))]
    units = len(rows) * (count + 3)
    return case(given, TRUE, accepted(len(rows), units), points=points, budget=units)


def truth_tables():
    """Two to five Bools of all values; and a wrong value at the last of eight points, which is false there."""
    for operator, called in CALLED.items():
        for count in range(2, 6):
            rows = list(itertools.product((0, 1), repeat=count))
            yield tabled(operator, "Bool", rows)._replace(name="truth-%s-%d" % (called, count))
        one = tabled(operator, "Bool", list(itertools.product((0, 1), repeat=3)))
        yield one._replace(points=one.points[:-1] + (1 - one.points[-1],), answer=false_at(7, 0, 48), name="truth-%s-wrong" % called)


def one_apart(count, width):
    """Rows of so many vectors: all of them equal, and then each of them alone another in its highest bit."""
    most = 2 ** (width - 1)
    return [[most] * count] + [[most] * i + [0] + [most] * (count - 1 - i) for i in range(count)]


def one_pair(count, width):
    """Rows of so many vectors: all of them different, and then each pair of them equal."""
    rows = [[2 ** width - 1 - i for i in range(count)]]
    for i, j in itertools.combinations(range(count), 2):
        rows.append(rows[0][:j] + [rows[0][i]] + rows[0][j + 1:])
    return rows


def vectors():
    """Vectors of which one is another, or of which two are equal: `=` looks at each, and `distinct` at every pair."""
    for count, width in ((3, 64), (4, 63), (8, 8)):
        for name, rows in (("one-apart", one_apart(count, width)), ("one-pair", one_pair(count, width))):
            yield from named("%s-%d" % (name, count), [tabled(operator, bits(width), rows) for operator in operators.EQUALITY])


# Values of many operands

def placed(rest):
    """The operands `a`, `b` and `c` at the first, a middle and the last place, and the others between them."""
    middle = (len(rest) + 1) // 2
    return ["a", *rest[:middle], "b", *rest[middle:], "c"]


def value_at(operator, terms, value_of):
    """The value of an operator over names and hexadecimal literals, where the names have values."""
    return int(VALUES[operator]([value_of[term] if term in value_of else int(term[2:], 16) for term in terms]))


def called_with(operator, terms, names, sort, rows):
    """A case with a `define-fun` that applies an operator to terms over its names, and is called with each row of values for these; a constraint costs 4 more than
    there are terms and names."""
    header = " ".join("(%s %s)" % (name, sort) for name in names)
    call = applied("w", ["v%d" % i for i in range(len(names))])
    given = beside(
        defined("w", header, "Bool", applied(operator, terms)), variables(*[sort] * len(names), "Bool"), constraint("(= v%d %s)" % (len(names), call)))
    points = [number for one in rows for number in (*one, value_at(operator, terms, dict(zip(names, one))))]
    units = len(rows) * (len(terms) + len(names) + 4)
    return case(given, TRUE, accepted(len(rows), units), points=points, budget=units)


def alike_but_three(count):
    """Every operator with so many operands of which the first, a middle and the last have names of their own: all values of these and of the others."""
    for operator, called in CALLED.items():
        sort = "Bool" if operator in operators.LOGIC else bits(8)
        rows = list(itertools.product((0, 1), repeat=4))
        yield called_with(operator, placed(["d"] * (count - 3)), "abcd", sort, rows)._replace(name="many-%s-%d" % (called, count))


def different_but_three(count):
    """`distinct` with so many operands, literals but for three: all are different, two of the three are equal, or one of them equals a literal."""
    first, last = 3, count - 1
    terms = placed(["#x%02x" % value for value in range(first, last + 1)])
    before, after = [int(terms[terms.index("b") + step][2:], 16) for step in (-1, 1)]
    rows = [(0, 1, 2), (255, 1, 2), (0, 1, 0), (0, 0, 2), (0, 1, 1), (first, 1, 2), (last, 1, 2), (0, 1, first), (0, 1, last)]
    rows += [(0, value, 2) for value in (first, before, after, last)]
    return called_with("distinct", terms, "abc", bits(8), rows)._replace(name="many-different-%d" % count)


def many():
    """Up to as many operands as a term may have."""
    for count in (8, 16, 64, 254, 255):
        yield from alike_but_three(count)
        yield different_but_three(count)


# Values of operands within operands

def mixed(a, b, c):
    """The value of the term MIXED over three Bools."""
    return VALUES["xor"]([VALUES["and"]([a, b, c]), b, VALUES["=>"]([c, VALUES["or"]([a, b, c]), a]), int(a != c), int(a == b)])


def repeated(a, b, c):
    """The value of the term REPEATED over three Bools, where w is `=>`."""
    w = lambda *values: VALUES["=>"](values)
    return w(a, w(b, c, a), w(w(c, a, b), b, c))


MIXED = "(xor (and v0 v1 v2) v1 (=> v2 (or v0 v1 v2) v0) (distinct v0 v2) (= v0 v1 v1))"
REPEATED = "(w v0 (w v1 v2 v0) (w (w v2 v0 v1) v1 v2))"


def within():
    """Applications and calls among operands, at all values of three Bools: six applications and 14 leaves cost 20, four calls of 5 and 9 leaves cost 29."""
    define = defined("w", "(a Bool) (b Bool) (c Bool)", "Bool", "(=> a b c)")
    for name, term, value, cost in (("mixed", MIXED, mixed, 20), ("repeated", REPEATED, repeated, 29)):
        points = [number for one in itertools.product((0, 1), repeat=3) for number in (*one, value(*one))]
        given = beside(define, variables(*["Bool"] * 4), constraint("(= v3 %s)" % term))
        yield case(given, TRUE, accepted(8, 8 * (cost + 2)), points=points, budget=8 * (cost + 2), name="operands-within-%s" % name)


# Counts and sorts

def counts():
    """No operand, one, no brackets, and of every other operator one operand too many, at the place of the application."""
    two = "bvand bvor bvxor bvadd bvsub bvmul bvudiv bvurem bvshl bvlshr bvult concat".split()
    fixed = ["(not p x)", "(ite p x x x)", "(bvnot x x)", "(bvneg x x)", "((_ extract 7 4) x x)"] + ["(%s x x x)" % operator for operator in two]
    given = "(declare-var x (_ BitVec 8))(declare-var p Bool)"
    for name, number, commands in (
            ("no-operand", 5, ["§" + constraint("(%s)" % operator) for operator in CALLED]),
            ("one-operand", 8, [constraint("§(%s p)" % operator) for operator in CALLED]),
            ("alone", 8, [constraint("§" + operator) for operator in CALLED]),
            ("operand-more", 8, [constraint("(distinct x §%s)" % term) for term in fixed])):
        yield from named(name, [case(beside(given, command), TRUE, refused(number)) for command in commands])


def sorts():
    """An operand of another sort at each place: the application is at fault, where no operand is."""
    for operator, called in CALLED.items():
        good, bad = ("true", "#x00") if operator in operators.LOGIC else ("#x00", "#b0000000")
        terms = ["§" + applied(operator, [good] * i + [bad] + [good] * (3 - i)) for i in range(4)]
        terms += [applied(operator, [good, good, good, "§(bvnot true)"]), applied(operator, [good, bad, "§(bvnot true)"])]
        yield from named("other-sort-%s" % called, [case(beside(constraint(term)), TRUE, refused(8)) for term in terms])
    yield from named("other-sorts", [
        case(beside(constraint("§" + term)), TRUE, refused(8)) for term in ("(xor #x00 #x00 #x00)", "(=> #b1 #b1 #b1)", "(= true #b1 true)", "(distinct #b1 #b0 false)")])


# Derivations

HEADER = "(a Bool) (b Bool) (c Bool)"


def derived_counts():
    """A rule derives an application with as many operands as it has: rules of two and of four, and bodies of two to five."""
    for operator, called in CALLED.items():
        rules = "a (%s A A) (%s A A A A)" % (operator, operator)
        bodies = [mark + applied(operator, ["a"] * count) for count, mark in ((2, ""), (3, MARK), (4, ""), (5, MARK))]
        yield from named("derived-%s" % called, judged(rules, bodies, HEADER))


def derived_as_written():
    """Where request E3 says that (and a b c) doesn't match (and B B): nor does one grouping match another, or one order another."""
    for name, rules, bodies in (
            ("two-of-three", "a b c (and A A)", ["§(and a b c)", "(and (and a b) c)", "(and a (and b c))"]),
            ("three-of-two", "a b c (and A A A)", ["(and a b c)", "§(and (and a b) c)", "§(and a (and b c))", "(and a (and b c a) (and c c c))"]),
            ("both-counts", "a b c (and A A) (and A A A)", ["(and a b c)", "(and (and a b) c)", "(and (and a b c) (and b c))", "§(and a b c a)"]),
            ("in-order", "(=> a b c) (=> a A b)", ["(=> a b c)", "(=> a (=> a b c) b)", "§(=> a c b)", "§(=> c b a)", "§(or a b c)"])):
        yield from named(name, judged(rules, bodies, HEADER))


# Costs and limits

def costs():
    """A cost of 1 plus the operands, also where the first operand decides: a budget of it, and one below."""
    for operator, operands, holds in (
            ("and", "false true true", False), ("or", "true false false", True), ("xor", "true true true true true", True), ("=>", "false true true false", True),
            ("=", "true false true true", False), ("distinct", "true true true true true true", False)):
        cost, given = 1 + len(operands.split()), beside(constraint("(%s %s)" % (operator, operands)))
        done = accepted(1, cost) if holds else false_at(0, 0, cost)
        yield from named("cost-%s" % CALLED[operator], [case(given, TRUE, done, budget=cost), case(given, TRUE, ended_at(0, 0, 0), budget=cost - 1)])


P = "(p Bool)"


def of_rules(rules, body):
    """A script of a function with one argument and these rules, and a response to it."""
    return script(function("f", P, "Bool", rules)), response(defined("f", P, "Bool", body))


def in_places(term):
    """A term over p in a constraint, in a `define-fun`, as a rule, and with holes as a rule: the two texts, the answer if it passes, and the points."""
    return {
        "constraint": (beside("(declare-var p Bool)", constraint(term)), TRUE, accepted(1, 256), [1]),
        "body": (beside(defined("d", P, "Bool", term), constraint("(d true)")), TRUE, accepted(1, 258), []),
        "rule": (*of_rules(term, unmarked(term)), accepted(), []),
        "holes": (*of_rules("p " + term.replace("p", "A"), unmarked(term)), accepted(), []),
    }


def limits():
    """255 operands, which are 256 nodes with their application; one more is answer 4 at the last."""
    most = "(and" + " p" * MOST_OPERANDS + ")"
    past = most[:-1] + " §p)"
    for place, (given, answer, passing, points) in in_places(most).items():
        yield case(given, answer, passing, points=points, budget=258, name="operands-%s-%d" % (place, MOST_OPERANDS))
    for place, (given, answer, _, points) in in_places(past).items():
        yield case(given, answer, refused(4), points=points, budget=258, name="operands-%s-%d" % (place, MOST_OPERANDS + 1))
    yield case(*of_rules("p (and A A)", past), refused(4), name="operands-response-%d" % (MOST_OPERANDS + 1))


def all_operands():
    """Every case of this file."""
    for some in (truth_tables, vectors, many, within, counts, sorts, derived_counts, derived_as_written, costs, limits):
        yield from some()
