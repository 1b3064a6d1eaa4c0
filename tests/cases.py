"""Cases of the checker, each with the answer that follows from how it is made: the rows of the table of answers, points and budgets, calls and costs, what is
seen, and the bench. Those of the limits stand in limits.py.

A text may have the mark § in it, which is no part of it: it stands at the answer's place. Where a name is taken, the mark ¤ stands at the place of its declaration.
"""
from collections import namedtuple

# A script, a response, points, a budget and the size of the area, with the answer: its number, text, place, second number and units; and, where the case says it,
# what it carries, an end, a line and a column, the lists shown, and their weights.
Case = namedtuple("Case", "name script response points budget area answer location shown weights", defaults=[None] * 3)

AREA = 32768
MOST_BUDGET = 2 ** 64 - 1
MARK = "§"
DECLARED = "¤"


# Answers

def accepted(points=1, units=0):
    """Accepted, after so many points."""
    return (0, 3, 0, points, units)


def too_long(text, length):
    """A text, the points or the area is not of its size."""
    return (1, text, length, 0, 0)


def refused(number):
    """The text that has the mark is refused there."""
    return (number, None, None, 0, 0)


def underived(function):
    """A function has no derivation of its body, which begins at the mark."""
    return (13, None, None, function, 0)


def false_at(point, constraint, units):
    """A constraint is false at a point."""
    return (14, 2, point, constraint, units)


def ended_at(point, constraint, units):
    """The budget ends at a point before a constraint."""
    return (15, 2, point, constraint, units)


def bad_points(place):
    """The points are not whole, or a number is outside its sort."""
    return (16, 2, place, 0, 0)


# Cases

def unmarked(text):
    """A text without its marks."""
    return text.replace(MARK, "").replace(DECLARED, "")


def place_of(mark, text):
    """The place of a mark in a text without marks."""
    return len(unmarked(text.partition(mark)[0]))


def case(script, response, answer, points=(), budget=100, area=AREA, name=""):
    """A case; an answer that has no place has that of the mark, and a name that is taken the place of the other mark as second number."""
    if answer[2] is None:
        text = 0 if MARK in script else 1
        answer = (answer[0], text, place_of(MARK, (script, response)[text])) + answer[3:]
    if answer[0] == 7 and DECLARED in script:
        answer = answer[:3] + (place_of(DECLARED, script),) + answer[4:]
    texts = [unmarked(text).encode("latin-1") for text in (script, response)]
    return Case(name, texts[0], texts[1], tuple(points), budget, area, answer)


def named(name, cases):
    """Cases under one name, numbered from 1."""
    return [one._replace(name="%s-%d" % (name, i)) for i, one in enumerate(cases, 1)]


# Texts

def row(count, make):
    """So many parts, each made from its number."""
    return "".join(make(i) for i in range(count))


def script(*commands):
    """A script of commands, with its logic before them and its end behind them."""
    return "(set-logic BV)" + "".join(commands) + "(check-synth)"


def function(name="f", arguments="", sort="Bool", rules="true"):
    """A function whose grammar has one non-terminal, A."""
    return "(synth-fun %s (%s) %s ((A %s)) ((A %s (%s))))" % (name, arguments, sort, sort, sort, rules)


def defined(name="f", arguments="", sort="Bool", body="true"):
    """A `define-fun`, in a script or in a response."""
    return "(define-fun %s (%s) %s %s)" % (name, arguments, sort, body)


def response(*bodies):
    """A response of bodies."""
    return "(" + "".join(bodies) + ")"


# The response to a script that has only the function f of sort Bool.
TRUE = response(defined())


def beside(*commands):
    """A script with commands behind a function f of sort Bool."""
    return script(function(), *commands)


def judged(rules, bodies, arguments="", sort="Bool"):
    """Cases of bodies against the rules of the function f, underived where they are marked."""
    return [
        case(script(function("f", arguments, sort, rules)), response(defined("f", arguments, sort, body)), underived(0) if MARK in body else accepted())
        for body in bodies]


def constraint(term):
    """A constraint."""
    return "(constraint %s)" % term


def bits(width):
    """The sort of bit vectors of a width."""
    return "(_ BitVec %d)" % width


def variables(*sorts):
    """Variables v0, v1 and so on of sorts."""
    return row(len(sorts), lambda i: "(declare-var v%d %s)" % (i, sorts[i]))


def joined(operator, leaf, count):
    """Leaves joined by an operator of two operands: a shallow term of 2 * count - 1 nodes and 4 * count - 3 words."""
    if count == 1:
        return leaf
    return "(%s %s %s)" % (operator, joined(operator, leaf, count // 2), joined(operator, leaf, count - count // 2))


def negated(term, times):
    """A term under so many `not`s."""
    return "(not " * times + term + ")" * times


def of_nodes(count, operator="or", leaf="true"):
    """A term of so many nodes, four or more, the last of them marked; with `or` and `true` it is true, and its cost is their number."""
    if count % 2 == 0:
        term = "(%s (not %s) %s)" % (operator, leaf, joined(operator, leaf, (count - 2) // 2))
    else:
        term = joined(operator, leaf, (count + 1) // 2)
    before, last, after = term.rpartition(leaf)
    return before + MARK + last + after


def words_in(text):
    """How many words a text without comments has."""
    return len(text.replace("(", " ( ").replace(")", " ) ").split())


def padded(text, size):
    """A text with blanks behind it up to a size."""
    return text + " " * (size - len(text))


# The table of answers

def refused_scripts():
    """Refusals of a script, by their number."""
    grammar = "(synth-fun g () Bool "
    return {
        2: [beside("(constraint §00)"), beside("(constraint (not §1a))"), "§\x00"],
        3: [script("§)"), beside() + "§)", "(set-logic BV)(§", "(set-logic BV) (constraint (not true) §"],
        4: [beside("(declare-var v (_ BitVec §65))"), beside("(constraint §1234567890)"), beside("(constraint (= #x00 §#x00000000000000000))")],
        5: [
            beside("§(foo)"), beside("§foo"), beside("§(constraint (true))"), beside() + "§(check-synth)", "§(check-synth)", "(set-logic BV)§",
            "(set-logic BV) ; end§", script("§(define-fun f () Bool)"), script("§(set-logic BV)"), "§"],
        6: [
            "§(set-logic LIA)", beside("§(define-sort B () Bool)"), beside("§(synth-fun g () Bool)"), beside("§(constraint (let ((x true)) x))"),
            beside("(constraint §\"x\")"), beside("§(constraint (= #x00 (_ bv 8)))")],
        7: [
            beside("(declare-var §and Bool)"), script(function("¤f"), "(declare-var §f Bool)"), beside("(declare-var x §Int)"), beside("(constraint §x)"),
            script("(define-fun d ((¤a Bool) (§a Bool)) Bool a)"), beside("(define-fun d () Bool §f)")],
        8: [
            beside("(declare-var x §(_ BitVec 0))"), beside("(constraint §#x00)"), beside("(constraint §5)"),
            beside("(constraint (not §(bvult true #x00)))"), beside("(constraint (= #x00 §((_ extract 8 1) #x00)))"),
            beside("(constraint (= #x00 §(concat #x00000000 #x000000000)))")],
        9: [
            beside(grammar, "((B Bool)) ((B Bool (true §#x00))))"), beside(grammar, "((B Bool)) ((§C Bool (true))))"),
            beside(grammar, "((§B (_ BitVec 8))) ((B (_ BitVec 8) (#x00))))"), beside(grammar, "((B Bool)) (§))"),
            beside(grammar, "((B Bool)) ((B Bool (§))))")],
    }


def refused_responses():
    """Refusals of a response to the function f, by their number."""
    body = "((define-fun f () Bool "
    return {
        2: ["(§00)", body + "§#xg))"],
        3: ["()§)", body + "true§"],
        4: [body + "§1234567890))", body + "(= §#b" + "0" * 65 + " #b0)))"],
        5: ["(§(foo))", "§", "; nothing§", "§fail fail", "(§fail)", "(§(define-fun f () Bool))", TRUE + "§" + TRUE],
        6: ["(§(define-fun f () Bool (let ((a true)) a)))", "(error §\"no\")"],
        7: [body + "§A))", body + "(not §g)))"],
        8: [body + "§#x00))", body + "(or true §(not #x00))))"],
        12: [
            "((define-fun §g () Bool true))", "((define-fun f (§(x Bool)) Bool true))", "(§)", "((define-fun f () §(_ BitVec 8) #x00))",
            "((define-fun f () Bool true)§(define-fun g () Bool true))"],
    }


def refusals():
    """Refusals of either text, and responses that are one word."""
    for number, texts in refused_scripts().items():
        yield from named("script-%d" % number, [case(text, TRUE, refused(number)) for text in texts])
    for number, texts in refused_responses().items():
        yield from named("response-%d" % number, [case(beside(), text, refused(number)) for text in texts])
    for number, word in ((10, "fail"), (11, "infeasible")):
        answer = (number, 1, 0, 0, 0)
        yield from named("response-%d" % number, [case(beside(), text, answer) for text in (word, " ;\r\n\t%s ; one word" % word)])


# Two functions, the second with an argument, and a `define-fun` before them.
TWO = script(defined("d"), function("f", "", "Bool", "true d (not A)"), function("g", "(x (_ BitVec 8))", bits(8), "x (bvnot A)"))


def two(f, g):
    """A response to these."""
    return response(defined("f", "", "Bool", f), defined("g", "(x (_ BitVec 8))", bits(8), g))


def grammar_verdicts():
    """Bodies that have a derivation, and bodies that have none."""
    yield from named("accepted", [
        case(TWO, two("true", "x"), accepted()), case(TWO, two("d", "(bvnot (bvnot x))"), accepted()),
        case(TWO, two("(not (not d))", "x"), accepted(), budget=0)])
    yield from named("underived", [
        case(TWO, two("§(and true true)", "x"), underived(0)), case(TWO, two("§false", "(bvneg x)"), underived(0)),
        case(TWO, two("true", "§(bvneg x)"), underived(1)), case(TWO, two("d", "§(bvnot (bvnot #x00))"), underived(1)),
        case(TWO, two("§(not false)", "x"), underived(0), points=[1])])


def orders():
    """Two faults at once: the one that comes first in document 01's order."""
    bool_variable = variables("Bool")
    yield from named("order", [
        case(beside("(constraint §00)"), "(00)", refused(2)),
        case(beside("(constraint §x)"), "(00)", refused(7)),
        case(beside(), "((define-fun g () Bool §00))", refused(2)),
        case(beside(), "((define-fun §g () Bool x))", refused(12)),
        case(beside(), response(defined(), "§" + defined("f", "", "Bool", "x")), refused(12)),
        case(beside(bool_variable), response(defined("f", "", "Bool", "§false")), underived(0), points=[2]),
        case(beside(bool_variable, constraint("false")), TRUE, bad_points(1), points=[0, 2]),
        case(beside(constraint("false"), bool_variable), TRUE, bad_points(0), points=[2], budget=0),
        case(beside(constraint("false")), TRUE, ended_at(0, 0, 0), budget=0)])


# Points and budgets

def points_and_budgets():
    """Answers 0, 14, 15 and 16 that come from the points and the budget."""
    one = beside(variables(bits(8)), constraint("(bvult v0 #x80)"), constraint("(distinct v0 #x03)"))
    yield from named("run", [
        case(one, TRUE, accepted(4, 24), points=[1, 2, 4, 5]), case(one, TRUE, false_at(2, 1, 18), points=[1, 2, 3, 4]),
        case(one, TRUE, false_at(2, 0, 15), points=[1, 2, 128, 3]), case(one, TRUE, ended_at(2, 1, 15), points=[1, 2, 3, 4], budget=17),
        case(one, TRUE, false_at(2, 1, 18), points=[1, 2, 3, 4], budget=18), case(one, TRUE, ended_at(0, 0, 0), points=[1, 2, 3, 4], budget=2),
        case(one, TRUE, accepted(0, 0), points=[], budget=0), case(one, TRUE, false_at(0, 0, 3), points=[255], budget=3)])
    none = beside(constraint("(and true true)"))
    yield from named("no-variables", [
        case(none, TRUE, accepted(1, 3), budget=3), case(none, TRUE, ended_at(0, 0, 0), budget=2), case(none, TRUE, bad_points(1), points=[0]),
        case(none, TRUE, bad_points(3), points=[0, 0, 0]), case(beside(constraint("false")), TRUE, false_at(0, 0, 1), budget=1),
        case(beside(), TRUE, accepted(1, 0), budget=0)])
    empty = beside(variables("Bool", bits(8)), constraint("false"))
    yield from named("empty-list", [case(empty, TRUE, accepted(0, 0), budget=budget) for budget in (0, 100, MOST_BUDGET)])
    yield from named("bad-points", [
        case(empty, TRUE, bad_points(3), points=[0, 255, 2]), case(empty, TRUE, bad_points(2), points=[0, 255, 2, 0]),
        case(empty, TRUE, bad_points(1), points=[0, 256, 2, 0]), case(empty, TRUE, bad_points(5), points=[0, 256, 2, 0, 0]),
        case(empty, TRUE, bad_points(3), points=[0, 255, 0, 2 ** 64 - 1]), case(empty, TRUE, bad_points(1), points=[2])])


def point_values():
    """The greatest value of a sort, and the number after it."""
    for width in (1, 8, 31, 32, 63):
        given = beside(variables(bits(width)), constraint("(= v0 (bvnot #b%s))" % ("0" * width)))
        yield from named("value-%d" % width, [
            case(given, TRUE, accepted(1, 4), points=[2 ** width - 1]), case(given, TRUE, bad_points(0), points=[2 ** width]),
            case(given, TRUE, bad_points(2), points=[2 ** width - 1, 2 ** width - 1, 2 ** width])])
    yield from named("value-64", [
        case(beside(variables(bits(64)), constraint("(= v0 #xffffffffffffffff)")), TRUE, accepted(1, 3), points=[2 ** 64 - 1]),
        case(beside(variables(bits(64)), constraint("(= v0 #xffffffffffffffff)")), TRUE, false_at(0, 0, 3), points=[2 ** 64 - 2])])
    yield from named("value-bool", [
        case(beside(variables("Bool")), TRUE, answer, points=points)
        for answer, points in ((accepted(2), [0, 1]), (bad_points(1), [1, 2]), (bad_points(0), [2 ** 64 - 1]))])


def budgets():
    """The least and the greatest budget, and a budget at the cost and below it."""
    given = beside(variables("Bool"), constraint("(or v0 (not v0))"))
    yield from named("budget", [
        case(given, TRUE, answer, points=[0, 1], budget=budget)
        for answer, budget in (
            (accepted(2, 8), MOST_BUDGET), (accepted(2, 8), 8), (ended_at(1, 0, 4), 7), (ended_at(1, 0, 4), 4), (ended_at(0, 0, 0), 3),
            (ended_at(0, 0, 0), 0))])
    both = beside(constraint("(ite true true (and (not true) false))"))
    yield from named("both-branches", [case(both, TRUE, accepted(1, 7), budget=7), case(both, TRUE, ended_at(0, 0, 0), budget=6)])


# Calls and costs

def nested(operator, terms):
    """Terms joined by an operator of two operands, each with all that follow it."""
    return terms[0] if len(terms) == 1 else "(%s %s %s)" % (operator, terms[0], nested(operator, terms[1:]))


def calls():
    """Values passed to arguments in their order, through a function and a `define-fun`, and values of variables in theirs."""
    eight = ["(a%d %s)" % (i, bits(8)) for i in range(8)]
    body = nested("concat", ["a%d" % i for i in range(8)])
    given = script(function("f", " ".join(eight), bits(64), body), constraint("(= (f #x01 #x02 #x03 #x04 #x05 #x06 #x07 #x08) #x0102030405060708)"))
    yield case(given, response(defined("f", " ".join(eight), bits(64), body)), accepted(1, 26), name="eight-operands")
    sixteen = beside(variables(*[bits(4)] * 16), constraint("(= %s #x0123456789abcdef)" % nested("concat", ["v%d" % i for i in range(16)])))
    yield case(sixteen, TRUE, accepted(1, 33), points=range(16), name="sixteen-values")
    header, body = "(x (_ BitVec 8)) (y (_ BitVec 8)) (p Bool)", "(ite p (d x y) (d y x))"
    before = script(
        defined("d", "(a (_ BitVec 8)) (b (_ BitVec 8))", bits(8), "(bvsub a b)"), function("f", header, bits(8), "x y (d A A) (ite p A A)"),
        variables(bits(8), bits(8), "Bool"), constraint("(= (f v0 v1 v2) %s)"))
    for i, (term, answer) in enumerate((("(ite v2 (d v0 v1) (bvsub v1 v0))", accepted(2, 60)), ("(bvsub v0 v1)", false_at(1, 0, 44))), 1):
        yield case(before % term, response(defined("f", header, bits(8), body)), answer, points=[5, 3, 1, 5, 3, 0], name="passed-on-%d" % i)


def doubling(last):
    """The `d`s of the bench: d0 is a sum, and each next applies the last twice."""
    first = defined("d0", "(x (_ BitVec 8))", bits(8), "(bvadd x x)")
    return first + row(last, lambda i: defined("d%d" % (i + 1), "(x (_ BitVec 8))", bits(8), "(d%d (d%d x))" % (i, i)))


def costs_of_d():
    """Bodies that cost 3, 9 and 21: a constraint has the equation, the application and two literals beside."""
    for k, (cost, value) in enumerate(((3, "#x06"), (9, "#x0c"), (21, "#x30"))):
        given = script(doubling(k), function(), constraint("(= (d%d #x03) %s)" % (k, value)))
        yield from named("d%d" % k, [
            case(given, TRUE, accepted(1, cost + 4), budget=cost + 4), case(given, TRUE, ended_at(0, 0, 0), budget=cost + 3)])
        applied = script(doubling(k), function("f", "(x (_ BitVec 8))", bits(8), "(d%d x)" % k), constraint("(= (f #x03) %s)" % value))
        body = response(defined("f", "(x (_ BitVec 8))", bits(8), "(d%d x)" % k))
        yield from named("applied-d%d" % k, [
            case(applied, body, accepted(1, cost + 6), budget=cost + 6), case(applied, body, ended_at(0, 0, 0), budget=cost + 5)])


def fourfold(name, times):
    """A name four times, joined, under so many `not`s: with a name that costs n, this costs 4 * n + 3 + times."""
    return negated(joined("or", name, 4), times)


def chain():
    """The `define-fun`s d1 to d31. An application of d1 costs 2, of each next but the last 4 ^ k - 2, and of d31 2 ^ 62 - 1."""
    return defined("d1") + row(30, lambda i: defined("d%d" % (i + 2), "", "Bool", fourfold("d%d" % (i + 1), 3 if i == 29 else 2)))


def costs_past_budgets():
    """Costs of 2^64 - 1, of 2^64 and above it, against the greatest budgets: none of these is begun."""
    for name, term, budget in (
            ("exact", fourfold("d31", 0), MOST_BUDGET - 1), ("one-more", fourfold("d31", 1), MOST_BUDGET), ("two-more", fourfold("d31", 2), MOST_BUDGET),
            ("double", "(or %s %s)" % (fourfold("d31", 0), fourfold("d31", 0)), MOST_BUDGET), ("half", "(or d31 d31)", 2 ** 63 - 2)):
        yield case(script(chain(), function(), constraint(term)), TRUE, ended_at(0, 0, 0), budget=budget, name="cost-%s" % name)
    after = script(chain(), function(), constraint("true"), constraint(fourfold("d31", 0)))
    yield case(after, TRUE, ended_at(0, 1, 1), budget=MOST_BUDGET, name="cost-after-one")
    yield from named("cost-small", [
        case(script(chain(), function(), constraint("(not d4)")), TRUE, answer, budget=budget)
        for answer, budget in ((false_at(0, 0, 255), 255), (ended_at(0, 0, 0), 254))])


# What is seen

X = "(x (_ BitVec 8))"


def applied(k):
    """An application of dk, and x alone for the one before d0: where x is 0 its value is 2^(k + 1) - 1, and it costs 4 * k + 5."""
    return "(d%d x)" % k if k >= 0 else "x"


def adding(k):
    """The `define-fun` dk: it adds 2^k to what the one before it gives, so that no two give the same or cost the same."""
    return defined("d%d" % k, X, bits(8), "(bvadd %s #x%02x)" % (applied(k - 1), 2 ** k))


def calling(name, count):
    """A function whose grammar has its argument and the first `define-fun`s, each by its rule."""
    return function(name, X, bits(8), "x" + row(count, lambda k: " (d%d A)" % k))


def gives(name, k):
    """A constraint that a function gives for 0 what dk gives."""
    return constraint("(= (%s #x00) #x%02x)" % (name, 2 ** (k + 1) - 1))


def among(counts, *constraints):
    """A script with so many `define-fun`s before the function f, between f and g, and after g, each in a constraint behind those that are given."""
    first, second, last = counts[0], counts[0] + counts[1], sum(counts)
    made = [adding(k) for k in range(last)]
    checks = [gives("d%d" % k, k) for k in range(last)]
    return script(*made[:first], calling("f", first), *made[first:second], calling("g", second), *made[second:], *constraints, *checks)


def calls_of(counts):
    """Each `define-fun` called by the body of f and by that of g, beside a body of the other that calls none: 7 where it stands behind the function."""
    last = sum(counts)
    for sees, place in ((counts[0], 0), (counts[0] + counts[1], 1)):
        for k in range(last):
            called = [-1, -1]
            called[place] = k
            bodies = [applied(i) for i in called]
            if k >= sees:
                bodies[place] = bodies[place].replace("d", MARK + "d")
            cost = sum(4 * i + 9 for i in called) + sum(4 * i + 7 for i in range(last))
            given = among(counts, gives("f", called[0]), gives("g", called[1]))
            answers = response(*[defined(name, X, bits(8), body) for name, body in zip("fg", bodies)])
            yield case(given, answers, accepted(1, cost) if k < sees else refused(7), budget=cost)


def seen_by_bodies():
    """Two functions with `define-fun`s before, between and after them; and what the last `define-fun`s would give in place of the first, which is false."""
    for counts in ((1, 2, 1), (2, 1, 0), (0, 1, 1)):
        yield from named("seen-%d-%d-%d" % counts, calls_of(counts))
    bodies = response(*[defined(name, X, bits(8), applied(0)) for name in "fg"])
    for i, (f, g, answer) in enumerate(((3, 0, false_at(0, 0, 9)), (0, 1, false_at(0, 1, 18))), 1):
        yield case(among((1, 2, 1), gives("f", f), gives("g", g)), bodies, answer, budget=18, name="seen-last-%d" % i)


def seen_by_commands():
    """A rule, a `define-fun` and a constraint that call a later `define-fun`, a later function, or a function where only a constraint may: 7."""
    d0, d1, f, g = adding(0), adding(1), calling("f", 0), calling("g", 1)
    later = function("f", X, bits(8), "x (d0 A) (§d1 A)")
    yield from named("unseen", [
        case(script(*commands), TRUE, refused(7)) for commands in (
            (d0, later, d1, g), (d0, f, g.replace("(d0", "(§d1"), d1), (d0, f, g.replace("(d0", "(§f"), d1), (f, d1.replace("(d0", "(§d0"), g, d0),
            (f, d0.replace("x #x", "(§f x) #x"), g), (d0, f, gives("d0", 0), gives("§d1", 1), d1, g), (d0, f, gives("§g", 0), d1, g))])


# The bench

SWAP_RULES = "#x00000000 #x00000001 #xFFFFFFFF x (bvand BV32 BV32) (bvor BV32 BV32) (bvnot BV32) (concat BV16 BV16)"
SWAP_HALVES = "#x0000 #x0001 #xFFFF (bvand BV16 BV16) (bvor BV16 BV16) (bvnot BV16) ((_ extract 31 16) BV32) ((_ extract 15 0) BV32)"
SWAP = script(
    "(synth-fun f ((x (_ BitVec 32))) (_ BitVec 32) ((BV32 (_ BitVec 32)) (BV16 (_ BitVec 16)))",
    "((BV32 (_ BitVec 32) (%s)) (BV16 (_ BitVec 16) (%s))))" % (SWAP_RULES, SWAP_HALVES),
    constraint("(= (f #x0782ECAD) #xECAD0000)"), constraint("(= (f #xFFFF008E) #x008E0000)"), constraint("(= (f #x00000000) #x00000000)"))


def swapped(body):
    """A response to the swap case."""
    return response(defined("f", "(x (_ BitVec 32))", bits(32), body))


def swaps():
    """The swap case: each constraint costs 8."""
    body = swapped("(concat ((_ extract 15 0) x) #x0000)")
    for budget, answer in (
            (24, accepted(1, 24)), (23, ended_at(0, 2, 16)), (16, ended_at(0, 2, 16)), (15, ended_at(0, 1, 8)), (7, ended_at(0, 0, 0)),
            (0, ended_at(0, 0, 0)), (MOST_BUDGET, accepted(1, 24))):
        yield case(SWAP, body, answer, budget=budget, name="swap-%d" % budget)
    yield case(SWAP, swapped("(concat ((_ extract 31 16) x) #x0000)"), false_at(0, 0, 8), budget=24, name="swap-false")
    yield case(SWAP, swapped("(bvand (concat ((_ extract 15 0) x) #x0000) #xFFFFFFFF)"), accepted(1, 30), name="swap-masked")
    yield case(SWAP, swapped("§(concat ((_ extract 15 0) x) #x0002)"), underived(0), budget=24, name="swap-underived")


def grammar_of(sort, groups):
    """The two parts of a grammar: its non-terminals of one sort, each with its rules."""
    return "(%s) (%s)" % (" ".join("(%s %s)" % (name, sort) for name in groups), " ".join("(%s %s (%s))" % (name, sort, groups[name]) for name in groups))


def rings():
    """Chains of non-terminals, through rings and to their end."""
    body = response(defined("f", "(x Bool)", "Bool", "x"))
    for name, groups in (
            ("ring", {"A": "B", "B": "A x"}), ("long-chain", {"A": "A B", "B": "A C", "C": "B D", "D": "C x"}),
            ("self", {"A": "A x"}), ("back", {"A": "(not A) B", "B": "(and B A) C", "C": "B A x"})):
        yield case(script("(synth-fun f ((x Bool)) Bool %s)" % grammar_of("Bool", groups)), body, accepted(), name=name)
    ring = script("(synth-fun f ((x Bool)) Bool ((§A Bool) (B Bool)) ((A Bool (B)) (B Bool (A))))")
    yield case(ring, body, refused(9), name="ring-without-end")


def slips():
    """Rules that are not to be taken by sort alone, at a wrong width, or at another value."""
    pair, header = "(x Bool) (y Bool)", "(p Bool) (x (_ BitVec 8)) (y (_ BitVec 9))"
    yield from named("same-words", judged("x (and A A)", ["§(and x y)", "(and x (and x x))"], pair))
    constants = script("(synth-fun f () (_ BitVec 8) ((A (_ BitVec 8)) (B (_ BitVec 4))) ((A (_ BitVec 8) ((Constant (_ BitVec 8)) (concat B B)))"
                       "(B (_ BitVec 4) ((Constant (_ BitVec 4))))))")
    yield from named("constant", [
        case(constants, response(defined("f", "", bits(8), body)), underived(0) if MARK in body else accepted())
        for body in ("#xAB", "#b10101011", "(concat #xA #b1011)", "§(concat #b101 #b01011)", "§(concat #b10101 #b011)")])
    names = script("(synth-fun f (%s) Bool ((A Bool) (B (_ BitVec 8))) ((A Bool ((= B B) (bvult ((_ extract 3 0) B) #x0)))" % header,
                   "(B (_ BitVec 8) ((Variable (_ BitVec 8))))))")
    yield from named("variable", [
        case(names, response(defined("f", header, "Bool", body)), underived(0) if MARK in body else accepted())
        for body in ("(= x x)", "§(= p p)", "§(= x #x00)", "(bvult ((_ extract 3 0) x) #x0)", "§(bvult ((_ extract 3 0) y) #x0)", "§(= y y)")])
    bodies = ("#xAB", "(bvnot #xAB)", "#xab", "#b10101011", "(bvnot #xaB)", "§#xAA", "§#b10101010", "§(bvnot #xBA)")
    yield from named("written", judged("#xAB (bvnot A)", bodies, sort=bits(8)))


VALUES = [
    ("(bvudiv #x0F #x00)", "#xFF"), ("(bvurem #x0F #x00)", "#x0F"), ("(bvshl #x01 #x08)", "#x00"), ("(bvlshr #x80 #x07)", "#x01"), ("(bvneg #x80)", "#x80"),
    ("(bvmul #x10 #x10)", "#x00"), ("(bvsub #x00 #x01)", "#xFF"), ("(concat #xA #xB)", "#xAB"), ("((_ extract 7 4) #xAB)", "#xA"),
    ("(bvudiv #x0F #x04)", "#x03"), ("(bvurem #x0F #x04)", "#x03"), ("(bvshl #x81 #xFF)", "#x00"), ("(bvlshr #x80 #x08)", "#x00"), ("(bvnot #x0F)", "#xF0"),
    ("(bvand #x0F #x3C)", "#x0C"), ("(bvor #x0F #x3C)", "#x3F"), ("(bvxor #x0F #x3C)", "#x33"), ("(bvadd #xFF #x02)", "#x01"), ("(bvudiv #b1 #b0)", "#b1"),
    ("(bvmul #xFFFFFFFFFFFFFFFF #xFFFFFFFFFFFFFFFF)", "#x0000000000000001"), ("(bvneg #x8000000000000000)", "#x8000000000000000"),
    ("(bvshl #x0000000000000001 #x000000000000003F)", "#x8000000000000000"), ("(concat #xFFFFFFFF #x00000000)", "#xFFFFFFFF00000000"),
    ("((_ extract 63 63) #xFEDCBA9876543210)", "#b1"), ("((_ extract 0 0) #xFEDCBA9876543210)", "#b0"), ("(bvult #x01 #x02)", "true"),
    ("(bvult #x02 #x02)", "false"), ("(not true)", "false"), ("(and true false)", "false"), ("(or true false)", "true"), ("(xor true true)", "false"),
    ("(=> true false)", "false"), ("(=> false false)", "true"), ("(= #x01 #x02)", "false"), ("(distinct true false)", "true"),
    ("(ite true #x01 #x02)", "#x01"), ("(ite false #x01 #x02)", "#x02"),
    ("(and true true false)", "false"), ("(or false false true)", "true"), ("(xor true true true)", "true"), ("(=> false true false)", "true"),
    ("(=> true true false)", "false"), ("(= true false false)", "false"), ("(= #x01 #x01 #x01)", "true"), ("(= #x01 #x02 #x01)", "false"),
    ("(distinct #x01 #x02 #x03)", "true"), ("(distinct #x01 #x02 #x01)", "false")]


def values():
    """Terms and their values: each equation is true, and each inequality false."""
    for i, (term, value) in enumerate(VALUES, 1):
        operands = 1 if "extract" in term else len(term.split()) - 1
        for name, relation, answer in (("value-of", "=", accepted(1, operands + 3)), ("no-value-of", "distinct", false_at(0, 0, operands + 3))):
            yield case(beside(constraint("(%s %s %s)" % (relation, term, value))), TRUE, answer, budget=operands + 3, name="%s-%d" % (name, i))


def all_cases():
    """Every case of this file."""
    for some in (
            refusals, grammar_verdicts, orders, points_and_budgets, point_values, budgets, calls, costs_of_d, costs_past_budgets, seen_by_bodies,
            seen_by_commands, swaps, rings, slips, values):
        yield from some()
