"""Cases of the operators of request E4, `bvsdiv` to `bvuge`: their values at widths 1, 8, 63 and 64, their counts and sorts, their names, which are reserved, what a rule
of theirs derives, and the operators of SMT-LIB that stay unknown. The values are those of operators.py."""
import itertools

import operators
from cases import (
    MARK, TRUE, X, accepted, beside, bits, case, constraint, defined, ended_at, false_at, function, judged, named, refused, response, script, variables)

WIDTHS = (1, 8, 63, 64)
BYTE = bits(8)
NAMES = tuple(operators.LATER)

# The first four give a vector, the others a Bool.
ARITHMETIC, ORDERS = NAMES[:4], NAMES[4:]

# Operators of SMT-LIB that no request names.
UNKNOWN = ("bvcomp", "bvnand", "bvnor", "bvxnor")


def applied(operator, *terms):
    """An application of an operator to terms."""
    return "(%s)" % " ".join((operator, *terms))


def following(operator):
    """The operator after another of its kind, the first after the last."""
    kind = ARITHMETIC if operator in ARITHMETIC else ORDERS
    return kind[(kind.index(operator) + 1) % len(kind)]


# Values

def pairs(width):
    """Operands of a width, each pair once: all pairs of edges, among them divisions by zero and the least number by -1; 7 and -7 by 2, -2, 3 and -3; and the
    least and the greatest number with the shift amounts n - 1, n and n + 1."""
    edges, least = operators.edges(width), 2 ** (width - 1)
    chosen = [*itertools.product(edges, edges), *itertools.product((7, -7), (2, -2, 3, -3))]
    chosen += itertools.product((least, least - 1), (width - 1, width, width + 1))
    return list(dict.fromkeys((a % 2 ** width, b % 2 ** width) for a, b in chosen))


def value(operator, width, operands):
    """The value that an operator gives two operands of a width."""
    return int(operators.LATER[operator](width, *operands))


def result(operator, width):
    """The sort of what an operator gives for operands of a width."""
    return bits(width) if operator in ARITHMETIC else "Bool"


def together(width):
    """All operators at all pairs of a width: the first two variables are the operands, and each other has the value of an operator; a constraint costs 5."""
    sorts = [bits(width)] * 2 + [result(operator, width) for operator in NAMES]
    each = [constraint("(= v%d %s)" % (i, applied(operator, "v0", "v1"))) for i, operator in enumerate(NAMES, 2)]
    points = [[*operands, *[value(operator, width, operands) for operator in NAMES]] for operands in pairs(width)]
    units = 5 * len(NAMES) * len(points)
    return case(beside(variables(*sorts), *each), TRUE, accepted(len(points), units), points=itertools.chain(*points), budget=units)


def one_wrong(operator, width):
    """An operator with the value of the least number and -1, which holds, and with another value than that of -1 and the least number, which is false."""
    pair = (2 ** (width - 1), 2 ** width - 1)
    right, other = value(operator, width, pair), (value(operator, width, pair[::-1]) + 1) % 2 ** (width if operator in ARITHMETIC else 1)
    given = beside(variables(bits(width), bits(width), result(operator, width)), constraint("(= v2 %s)" % applied(operator, "v0", "v1")))
    return case(given, TRUE, false_at(1, 0, 10), points=(*pair, right, *pair[::-1], other), budget=10)


def tables():
    """Every operator's values at each width, and a value that is not its."""
    for width in WIDTHS:
        yield together(width)._replace(name="signed-all-%d" % width)
    for operator in NAMES:
        for width in WIDTHS:
            yield one_wrong(operator, width)._replace(name="signed-%s-%d" % (operator, width))


# The request's own, and others by hand.
VALUES = (
    ("(bvsdiv #x80 #xFF)", "#x80"), ("(bvsrem #xF9 #x02)", "#xFF"), ("(bvsmod #xF9 #x02)", "#x01"), ("(bvsdiv #xF9 #x02)", "#xFD"), ("(bvsdiv #xF9 #x00)", "#x01"),
    ("(bvashr #xF9 #x01)", "#xFC"), ("(bvashr #x80 #x07)", "#xFF"), ("(bvslt #xFF #x00)", "true"), ("(bvsle #x80 #x7F)", "true"), ("(bvsgt #x00 #xFF)", "true"),
    ("(bvsge #x7F #x80)", "true"), ("(bvule #x80 #x80)", "true"), ("(bvugt #x80 #x7F)", "true"), ("(bvuge #x7F #x80)", "false"),
    ("(bvsdiv #x8000000000000000 #xFFFFFFFFFFFFFFFF)", "#x8000000000000000"))


def values():
    """Terms and their values: each equation is true, and each inequality false; with a budget below its cost an equation is not begun."""
    for i, (term, value) in enumerate(VALUES, 1):
        for name, relation, answer in (("signed-value-of", "=", accepted(1, 5)), ("no-signed-value-of", "distinct", false_at(0, 0, 5))):
            yield case(beside(constraint("(%s %s %s)" % (relation, term, value))), TRUE, answer, budget=5, name="%s-%d" % (name, i))
    yield case(beside(constraint("(= %s %s)" % VALUES[0])), TRUE, ended_at(0, 0, 0), budget=4, name="signed-cost")


# Counts and sorts

def in_constraint(term):
    """A script with a constraint that has a term, and nothing else."""
    return script(constraint("(= #x00 %s)" % term))


def counts():
    """No operand, one and three, and no brackets: 5 at the command, and 8 at the application or the word."""
    for name, number, make in (
            ("signed-no-operand", 5, lambda operator: script("§" + constraint(applied(operator)))),
            ("signed-one-operand", 8, lambda operator: in_constraint("§" + applied(operator, "#x00"))),
            ("signed-three-operands", 8, lambda operator: in_constraint("§" + applied(operator, "#x00", "#x00", "#x00"))),
            ("signed-alone", 8, lambda operator: in_constraint("§" + operator))):
        yield from named(name, [case(make(operator), TRUE, refused(number)) for operator in NAMES])
    for operator in ("bvsdiv", "bvslt", "bvuge"):
        yield from named("signed-alone-%s" % operator, [
            case(text, answer, refused(8)) for text, answer in (
                (script(defined("d", "", "Bool", "§" + operator)), TRUE), (script(function(rules="true §" + operator)), TRUE),
                (beside(), response(defined(body="§" + operator))))])


def sorts():
    """Operands of two widths, a Bool among them, and Bools; and a result of the other sort than is asked."""
    operands = (("#x00", "#x0"), ("#x0", "#x00"), ("true", "#x00"), ("#x00", "true"), ("true", "true"))
    for operator in NAMES:
        yield from named("signed-sorts-%s" % operator, [case(in_constraint("§" + applied(operator, *two)), TRUE, refused(8)) for two in operands])
    vectors = [script(constraint("§" + applied(operator, "#x00", "#x00"))) for operator in ARITHMETIC]
    truths = [in_constraint("§(bvnot %s)" % applied(operator, "#x00", "#x00")) for operator in ORDERS]
    yield from named("signed-result", [case(text, TRUE, refused(8)) for text in vectors + truths])


# Names

def reserved():
    """A new name, argument or non-terminal of the name of an operator: 7 at its place."""
    for operator in NAMES:
        new = MARK + operator
        yield from named("signed-name-%s" % operator, [
            case(text, TRUE, refused(7)) for text in (
                script("(declare-var %s Bool)" % new), script(defined(new)), script(defined("d", "(%s Bool)" % new)), script(function(new)),
                script("(synth-fun f () Bool ((%s Bool)) ((%s Bool (true))))" % (new, operator)))])
    yield case(script(function("f", "(§bvsle Bool)")), TRUE, refused(7), name="signed-argument")


def indexed():
    """An operator behind `_` begins a list that is not carried: 6 at the command."""
    terms = [applied("_", operator, "1") for operator in NAMES] + ["((_ bvashr 1) #x00)", "((_ bvsdiv 1) #x00 #x00)", "(_ bvslt)", "(_ bvuge #x00 #x00)"]
    yield from named("signed-indexed", [case(script("§" + constraint("(= #x00 %s)" % term)), TRUE, refused(6)) for term in terms])
    yield case(script("§(declare-var v (_ bvsdiv 8))"), TRUE, refused(6), name="signed-as-sort")


def unknown():
    """What the readings R214 and R215 stood for: an operator of SMT-LIB that is not carried is unknown, and a name like another; and so is each operator without its
    last letter, with one more, and in capitals."""
    near = [name for operator in NAMES for name in (operator[:-1], operator + "s")] + [operator.upper() for operator in ("bvsdiv", "bvslt", "bvule")]
    near = [name for name in dict.fromkeys(near) if name not in NAMES]
    for name, some in (("uncarried-operator", UNKNOWN), ("near-operator", near)):
        yield from named(name, [case(in_constraint(applied(MARK + one, "#x00", "#x00")), TRUE, refused(7)) for one in some])
        yield from named("%s-named" % name, [
            case(beside(*["(declare-var %s Bool)" % one for one in some[i:i + 16]]), TRUE, accepted(0, 0)) for i in range(0, len(some), 16)])
    call = script(defined("bvnand", X + " (y (_ BitVec 8))", BYTE, "(bvnot (bvand x y))"), function(), constraint("(= (bvnand #x0C #x0A) #xF7)"))
    yield case(call, TRUE, accepted(1, 9), budget=9, name="uncarried-operator-defined")


# Derivations

XY = X + " (y (_ BitVec 8))"


def derived():
    """A rule derives the applications of its own operator, and neither those of the next one nor, without a rule for it, those with operands exchanged."""
    for operator in NAMES:
        own, other = [applied(one, "x", "y") for one in (operator, following(operator))]
        sort = BYTE if operator in ARITHMETIC else "Bool"
        yield from named("signed-derived-%s" % operator, judged(own, [own, MARK + other], XY, sort))
    yield from named("signed-derived-inner", judged("x (bvsdiv A A) (bvashr A #x01)", [
        "(bvsdiv (bvashr x #x01) x)", "(bvashr (bvsdiv x x) (_ bv1 8))", "§(bvashr x x)", "§(bvsdiv x (bvlshr x #x01))"], X, BYTE))
    yield from named("signed-derived-order", judged("(bvslt x y)", ["§(bvslt y x)", "§(bvsgt y x)", "§(not (bvsle y x))"], XY))


# All together

COMPENSATE = "(density (_ BitVec 8)) (offset (_ BitVec 8))"
RULES = "density offset #x00 #x03 #x07 (bvadd A A) (bvashr A A) (ite (bvslt A A) A A)"


def compensation():
    """The density compensation: an eighth of a negative offset, by a shift that is put right below zero, and by one that is not; these bodies cost 12 and 5, and the
    constraint 11 more."""
    given = script(
        defined("eighth", "(offset (_ BitVec 8))", BYTE, "(bvsdiv offset #x08)"), function("f", COMPENSATE, BYTE, RULES), variables(BYTE, BYTE),
        constraint("(= (f v0 v1) (bvadd v0 (eighth v1)))"))
    points = [64, 0, 64, 8, 64, 0x80, 64, 0xF8, 64, 0xF9, 64, 0xFF]
    for name, body, answer in (
            ("right", "(bvadd density (bvashr (ite (bvslt offset #x00) (bvadd offset #x07) offset) #x03))", accepted(6, 6 * 23)),
            ("shifted", "(bvadd density (bvashr offset #x03))", false_at(4, 0, 5 * 16))):
        yield case(given, response(defined("f", COMPENSATE, BYTE, body)), answer, points=points, budget=200, name="compensation-%s" % name)


def all_signed():
    """Every case of this file."""
    for some in (tables, values, counts, sorts, reserved, indexed, unknown, derived, compensation):
        yield from some()
