"""Every limit of "Numbers the checker holds to" as a case at it and one past it, and areas that are not of their size."""
from assumed import assumption
from cases import (
    AREA, MARK, TRUE, accepted, all_cases, beside, bits, case, constraint, defined, function, grammar_of, joined, named, negated, of_nodes, padded, refused,
    response, row, script, too_long, unmarked, variables, words_in)

MOST_SCRIPT, MOST_RESPONSE, MOST_POINTS = 65536, 8192, 1024
MOST_WORDS = 8192

# The bytes that a script might have before request E10; of words it might have an eighth of these.
BEFORE_E10 = 32768

# The bytes up to which a script and a response are read into smaller tables; no answer depends on them.
SHORT_SCRIPTS, SHORT_RESPONSE = (2048, 4096), 512


def at_and_past(name, most, make):
    """The cases that are made of a limit and of one more, under the name with the number."""
    return [make(count)._replace(name="%s-%d" % (name, count)) for count in (most, most + 1)]


def held(count, most, answer=accepted()):
    """The answer up to a limit; past it, answer 4 at the mark."""
    return answer if count <= most else refused(4)


def mark_at(i, past):
    """The mark before the part that is past a limit."""
    return MARK if i == past else ""


# What is given

def padded_script(size):
    """A script of so many bytes."""
    return case(padded(beside(constraint("true")), size), TRUE, accepted(1, 1) if size <= MOST_SCRIPT else too_long(0, size))


def padded_response(size):
    """A response of so many bytes."""
    return case(beside(constraint("true")), padded(TRUE, size), accepted(1, 1) if size <= MOST_RESPONSE else too_long(1, size))


def many_points(count):
    """So many numbers, each a point."""
    answer = accepted(count, 3 * count) if count <= MOST_POINTS else too_long(2, count)
    return case(beside(variables(bits(8)), constraint("(= v0 v0)")), TRUE, answer, points=[i % 256 for i in range(count)], budget=3 * count)


def sizes():
    """Bytes of the texts and numbers of the points; the first that is too long counts."""
    yield from at_and_past("script-bytes", MOST_SCRIPT, padded_script)
    yield padded_script(BEFORE_E10 + 1)._replace(name="script-bytes-%d" % (BEFORE_E10 + 1))
    yield from at_and_past("response-bytes", MOST_RESPONSE, padded_response)
    yield from at_and_past("point-numbers", MOST_POINTS, many_points)
    wide = beside(variables(*["Bool"] * 16), constraint("(or v15 (not v15))"))
    yield case(wide, TRUE, accepted(64, 256), points=[i // 16 % 2 for i in range(MOST_POINTS)], budget=256, name="points-of-16")
    given = [" " * (MOST_SCRIPT + 1), " " * (MOST_RESPONSE + 1), [0] * (MOST_POINTS + 1), 3]
    sound = ["", "", [], AREA]
    for text, size in enumerate((MOST_SCRIPT + 1, MOST_RESPONSE + 1, MOST_POINTS + 1, 3)):
        first, second, points, area = sound[:text] + given[text:]
        yield case(first, second, too_long(text, size), points=points, area=area, name="first-too-long-%d" % text)


# Words and nesting

def script_of_words(most):
    """A script of so many words, and the cost of its constraints: constraints of 512 words, one that takes what is left, and rules beside for the rest."""
    whole, rest = divmod(most - words_in(beside()), 512)
    leaves, rules = divmod(rest, 4)
    terms = [joined("or", "true", 128)] * whole + [joined("or", "true", leaves)]
    return script(function(rules="true" + " false" * rules), *map(constraint, terms)), 255 * whole + 2 * leaves - 1


def response_of_words():
    """A script of four functions, and a response to it of 2,048 words."""
    names, leaves = ["f%d" % i for i in range(4)], (128, 128, 128, 122)
    bodies = [joined("or", "true", count) for count in leaves]
    bodies[3] = negated(bodies[3], 2)
    return script(*[function(name, rules="true (or A A) (not A)") for name in names]), response(*[defined(n, body=b) for n, b in zip(names, bodies)])


def words_and_nesting():
    """Words of the texts, and lists within lists."""
    for count in (BEFORE_E10 // 8 + 1, MOST_WORDS):
        text, cost = script_of_words(count)
        yield case(text, TRUE, accepted(1, cost), budget=cost, name="script-words-%d" % count)
    yield case(text + " §x", TRUE, refused(4), name="script-words-%d" % (MOST_WORDS + 1))
    yield case(padded(text, MOST_SCRIPT), TRUE, accepted(1, cost), budget=cost, name="script-words-and-bytes")
    text, answer = response_of_words()
    yield case(text, answer, accepted(), name="response-words-2048")
    yield case(text, answer + " §x", refused(4), name="response-words-2049")
    yield case(beside(constraint(negated("false", 63))), TRUE, accepted(1, 64), name="script-nesting-64")
    yield case(beside(constraint(negated("§(not false)", 63))), TRUE, refused(4), name="script-nesting-65")
    text = script(function(rules="true (not A)"))
    yield case(text, response(defined(body=negated("true", 62))), accepted(), name="response-nesting-64")
    yield case(text, response(defined(body=negated("§(not true)", 62))), refused(4), name="response-nesting-65")


# Texts that just fit into smaller tables, and texts that no longer do

def within(term, depth):
    """A term within so many applications of `g`, three words and three bytes each."""
    return "(g" * depth + " " + term + ")" * depth


# The function that `within` applies.
SAME = defined("g", "(a Bool)", body="a")


def close_script(size):
    """A script of so many bytes and nearly as many words; there is a variable and no point."""
    commands = SAME + function() + variables("Bool")
    one = constraint(within("v0", 60))
    count = (size - len(script(commands))) // len(one)
    return case(padded(script(commands, one * count), size), TRUE, accepted(0))


def close_response(size):
    """A response of so many bytes and, without the blanks behind it, nearly as many words."""
    body = joined("or", within("true", 40), 3)
    return case(script(SAME, function(rules="true (g A) (or A A)")), padded(response(defined(body=body)), size), accepted())


def tables():
    """Close texts at the lengths up to which there are smaller tables, and one byte past them."""
    for size in SHORT_SCRIPTS:
        yield from at_and_past("close-script", size, close_script)
    yield from at_and_past("close-response", SHORT_RESPONSE, close_response)


# Commands

def functions(count):
    """So many functions; the start of function k derives `true` by rule k."""
    given = script(row(count, lambda i: mark_at(i, 8) + function("f%d" % i, rules="false " * i + "true")))
    return case(given, response(*[defined("f%d" % i) for i in range(count)]), held(count, 8))


def arguments(count):
    """So many arguments."""
    return row(count, lambda i: mark_at(i, 8) + "(a%d Bool)" % i)


def definitions(count):
    """So many `define-fun`s, each applying the one before it."""
    given = row(count, lambda i: mark_at(i, 32) + defined("d%d" % i, body="d%d" % (i - 1) if i else "true"))
    return case(script(given, function(), constraint("d%d" % (count - 1))), TRUE, held(count, 32, accepted(1, 33)))


def declarations(count):
    """So many variables, and two points."""
    given = row(count, lambda i: mark_at(i, 16) + "(declare-var v%d Bool)" % i)
    return case(beside(given, constraint("(= v0 v%d)" % (count - 1))), TRUE, held(count, 16, accepted(2, 6)), points=[0] * 16 + [1] * 16)


def constraints(count):
    """So many constraints."""
    return case(beside(row(count, lambda i: mark_at(i, 64) + constraint("true"))), TRUE, held(count, 64, accepted(1, 64)), budget=64)


def assumptions(count):
    """So many assumptions."""
    return case(beside(row(count, lambda i: mark_at(i, 32) + assumption("true"))), TRUE, held(count, 32, accepted(1, 32)), budget=32)


def commands():
    """Functions, arguments, `define-fun`s, variables, constraints and assumptions."""
    yield from at_and_past("functions", 8, functions)
    yield from at_and_past("arguments", 8, lambda count: case(
        script(function("f", arguments(count))), response(defined("f", unmarked(arguments(count)))), held(count, 8)))
    yield from at_and_past("defined-arguments", 8, lambda count: case(beside(defined("d", arguments(count))), TRUE, held(count, 8)))
    yield case(beside(), response(defined("f", arguments(9))), refused(4), name="response-arguments-9")
    yield from at_and_past("defined", 32, definitions)
    yield from at_and_past("variables", 16, declarations)
    yield from at_and_past("constraints", 64, constraints)
    yield from at_and_past("assumptions", 32, assumptions)
    yield from at_and_past("width", 64, lambda count: case(
        beside("(declare-var v (_ BitVec %s%d))" % (mark_at(count, 65), count)), TRUE, held(count, 64, accepted(0))))
    yield case(beside("(declare-var v §(_ BitVec 0))"), TRUE, refused(8), name="width-0")


# Grammars and nodes

def non_terminals(count):
    """So many non-terminals."""
    pairs = row(count, lambda i: mark_at(i, 16) + "(A%d Bool)" % i)
    groups = row(count, lambda i: "(A%d Bool (true))" % i)
    return case(script("(synth-fun f () Bool (%s) (%s))" % (pairs, groups)), TRUE, held(count, 16))


def rules(count):
    """So many rules, of which the 128th derives the body."""
    return case(script(function(rules="false " * 127 + "true" + " §false" * (count - 128))), TRUE, held(count, 128))


def term_of(count):
    """A term of so many nodes, marked where it is past the limit."""
    return of_nodes(count) if count > 256 else unmarked(of_nodes(count))


def grammars_and_nodes():
    """Non-terminals and rules of a grammar, and nodes of a body, a constraint and a rule."""
    yield from at_and_past("non-terminals", 16, non_terminals)
    yield from at_and_past("rules", 128, rules)
    yield from at_and_past("nodes-body", 256, lambda count: case(
        beside(defined("d", body=term_of(count)), constraint("d")), TRUE, held(count, 256, accepted(1, 257)), budget=257))
    yield from at_and_past("nodes-constraint", 256, lambda count: case(
        beside(constraint(term_of(count))), TRUE, held(count, 256, accepted(1, 256)), budget=256))
    yield from at_and_past("nodes-rule", 256, lambda count: case(
        script(function(rules=term_of(count))), response(defined(body=unmarked(term_of(count)))), held(count, 256)))
    yield from at_and_past("nodes-response", 256, lambda count: case(
        script(function(rules="true (not A) (or A A)")), response(defined(body=term_of(count))), held(count, 256)))


def longest_lists():
    """Two lists that fill their room: 16 non-terminals at each of 256 nodes; and a third list behind them."""
    chain = {"A%d" % i: "A%d" % (i + 1) for i in range(15)}
    chain["A15"] = "x (and A0 A0) (not A0)"
    names = ("f", "g", "h")
    given = script(*["(synth-fun %s ((x Bool)) Bool %s)" % (name, grammar_of("Bool", chain)) for name in names])
    bodies = [unmarked(of_nodes(256, "and", "x"))] * 2 + ["x"]
    yield case(given, response(*[defined(n, "(x Bool)", body=b) for n, b in zip(names, bodies)]), accepted(), name="longest-lists")


def deepest_evaluation():
    """An evaluation of as many nodes on one path as there may be: 32 `define-fun`s nested as deep as lists may be, each applying the one before it, a function and
    a constraint, in 6,500 words."""
    last = 31
    chain = row(last + 1, lambda i: defined("d%d" % i, body=negated("d%d" % (i - 1) if i else "false", 63)))
    given = script(chain, function(rules="d%d (not A)" % last), constraint(negated("f", 63)))
    body = response(defined(body=negated("d%d" % last, 62)))
    cost = 64 + 63 + 64 * (last + 1)
    yield case(given, body, accepted(1, cost), budget=cost, name="deepest-evaluation")


# Areas

def areas():
    """An area that is not of its size, with a case of every other answer; where something before it is too long, see `sizes`."""
    first = {}
    for one in all_cases():
        first.setdefault(one.answer[0], one)
    wrong = (0, 1, 100, AREA - 1, AREA + 1)
    for number, one in sorted(first.items()):
        size = wrong[number % len(wrong)]
        yield one._replace(area=size, answer=too_long(3, size), name="area-%d-answer-%d" % (size, number))
    yield from named("area-wrong", [case(beside(), TRUE, too_long(3, size), area=size) for size in wrong])


def all_limits():
    """Every case of this file."""
    for some in (sizes, words_and_nesting, tables, commands, grammars_and_nodes, longest_lists, deepest_evaluation, areas):
        yield from some()
