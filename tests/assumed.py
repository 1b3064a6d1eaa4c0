"""Cases of assumptions (request E1): a run over points whose assumptions hold or not, where the budget ends, costs past 2^64, what an `assume` may say and where it may
stand, and the commands of SyGuS 2.1 that stay uncarried."""
from collections import namedtuple

from cases import (
    MARK, MOST_BUDGET, TRUE, accepted, bad_points, beside, case, constraint, defined, ended_at, false_at, function, named, refused, response, row, script, variables)

# "Answer 15 numbers assumptions from 64."
FIRST_ASSUMPTION = 64

# A Bool term with its cost, and whether it is true at a point.
Term = namedtuple("Term", "text cost holds")

YES = Term("true", 1, lambda *point: True)
NO = Term("false", 1, lambda *point: False)
FIRST = Term("v0", 1, lambda v0, *rest: v0 == 1)
NOT_SECOND = Term("(not v1)", 2, lambda v0, v1: v1 == 0)

# An application of the function f without arguments, whose body is `true`.
CALL = Term("f", 2, lambda *point: True)


def assumption(term):
    """An assumption."""
    return "(assume %s)" % term


# Runs

def first_stop(terms, point, left):
    """How many terms are evaluated in order and are true, whether the next is false, and what is left of the budget; a term that costs more is not begun."""
    for i, term in enumerate(terms):
        if term.cost > left:
            return i, False, left
        left -= term.cost
        if not term.holds(*point):
            return i, True, left
    return len(terms), False, left


def ran(assumptions, constraints, points, budget):
    """The answer to a run: "At each point the assumptions are evaluated first, in script order, up to the first false one, which skips the point's constraints." """
    left, held = budget, 0
    for p, point in enumerate(points):
        count, false, left = first_stop(assumptions, point, left)
        if false:
            continue
        if count < len(assumptions):
            return ended_at(p, FIRST_ASSUMPTION + count, budget - left)
        count, false, left = first_stop(constraints, point, left)
        if count < len(constraints):
            return (false_at if false else ended_at)(p, count, budget - left)
        held += 1
    return accepted(held, budget - left)


def run(assumptions, constraints, points, budget=100):
    """A case of assumptions and constraints over points of Bools, the first assumption behind the first constraint."""
    commands = [assumption(one.text) for one in assumptions]
    commands[:0] = [constraint(one.text) for one in constraints[:1]]
    commands += [constraint(one.text) for one in constraints[1:]]
    given = beside(variables(*["Bool"] * len(points[0])), *commands)
    return case(given, TRUE, ran(assumptions, constraints, points, budget), points=sum(points, ()), budget=budget)


# At the second point the first assumption is false, at the third the second one; the constraints are false where the assumptions are. All costs are 6, 1, 3 and 6.
GUARDED = (FIRST, NOT_SECOND), (NOT_SECOND, FIRST), ((1, 0), (0, 1), (1, 1), (1, 0))


def runs():
    """Runs to their end, to a false constraint, and to the end of the budget: before an assumption and before a constraint, at the first point and later."""
    yield from named("assumed-run", [run(*GUARDED, budget) for budget in (16, 15, 14, 12, 10, 7, 2, 0)])
    yield from named("assumed-false", [
        run((FIRST,), (CALL, NOT_SECOND), ((0, 1), (1, 0), (0, 1), (1, 1))), run((YES, CALL), (NO,), ((),)), run((CALL, NO, CALL), (NO,), ((),))])
    yield from named("assumed-only", [
        run((FIRST,), (), ((0,), (1,))), run((FIRST,), (), ((1,), (1,)), 1), run((NO,), (), ((),)), run((YES,), (CALL,), ((),), 2)])
    yield case(beside(variables("Bool"), assumption("false")), TRUE, bad_points(1), points=[0, 2], name="assumed-bad-points")


def applied():
    """An assumption that applies a function of the script to a variable: the body, `(not x)`, costs 2, and so the application 4."""
    given = script(function("f", "(x Bool)", "Bool", "x (not A)"), variables("Bool"), assumption("(f v0)"), constraint("(not v0)"))
    body = response(defined("f", "(x Bool)", "Bool", "(not x)"))
    yield from named("assumed-applied", [
        case(given, body, answer, points=[1, 0], budget=budget) for answer, budget in ((accepted(1, 10), 10), (ended_at(1, FIRST_ASSUMPTION, 4), 7))])


def thirteen(name):
    """`and` of a name 13 times."""
    return "(and%s)" % (13 * (" " + name))


def dear():
    """Eighteen `define-fun`s, the first `true` and each next the one before it 13 times, and a term of the last: it costs more than 13 ^ 18, and so than 2 ^ 64."""
    names = "abcdeghijklmnopqrs"
    return row(len(names), lambda i: defined(names[i], body=thirteen(names[i - 1]) if i else "true")), thirteen(names[-1])


def costs_past_budgets():
    """A cost past 2^64 in an assumption: it is not begun, and is nothing behind a false one; nor is that of a constraint."""
    definitions, term = dear()
    given = script(definitions, function(), variables("Bool"), assumption("v0"), assumption(term), constraint(term))
    yield case(given, TRUE, ended_at(2, FIRST_ASSUMPTION + 1, 3), points=[0, 0, 1], budget=MOST_BUDGET, name="assumed-dear")


# Refusals

def refused_assumptions():
    """Refusals of an `assume`, by their number: as of a constraint."""
    return {
        5: ["§(assume true true)", "§(assume ())", "§(assume (true))", "§assume"],
        6: ["§(assume (let ((x true)) x))", "§(oracle-assume true)"],
        7: ["(assume §f)" + function(), "(assume §v0)" + variables("Bool"), "(declare-var §assume Bool)", "(assume §assume)"],
        8: ["(assume §#x00)", "(assume (not §(not #x0)))", "(assume §5)"],
    }


def refusals():
    """What an `assume` may not say, what a response may not have, and a fault that stands before another."""
    for number, commands in refused_assumptions().items():
        yield from named("assumed-%d" % number, [case(script(command), TRUE, refused(number)) for command in commands])
    yield from named("assumed-in-response", [
        case(beside(), text, refused(number)) for number, text in ((5, response(defined(), "§(assume true)")), (7, response(defined(body="§assume"))))])
    yield from named("assumed-order", [case(script("(assume §x)", "(constraint 5)"), TRUE, refused(7)), case(script("§(assume x #x0)"), TRUE, refused(5))])


def nodes():
    """As many nodes as an assumption may have, and one more."""
    for count in (256, 257):
        term = "(and" + " f" * (count - 2) + (" §f)" if count > 256 else " f)")
        given = beside(assumption(term))
        yield case(given, TRUE, refused(4) if MARK in given else accepted(1, 511), budget=511, name="assumed-nodes-%d" % count)


def uncarried():
    """What the readings R30, R45 and R276 stood for, another command of SyGuS 2.1: as the first, behind the last, and misshapen it is 6."""
    yield from named("uncarried-command", [
        case(text, TRUE, refused(6)) for text in (
            "§(define-sort B () Bool)(set-logic BV)", beside() + "§(inv-constraint f f f f)", "(set-logic BV)§(inv-constraint)")])


def all_assumed():
    """Every case of this file."""
    for some in (runs, applied, costs_past_budgets, refusals, nodes, uncarried):
        yield from some()
