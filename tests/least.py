"""Cases of bodies with several derivations (request E13: "The derivation shown must now be of least total weight among all of any length, then with fewest rules,
then with the least rule numbers at the first difference."), each with the lists that are shown: chains and rings, equal rules, and rules that derive the same terms."""
from cases import accepted, bits, case, constraint, defined, false_at, named, response, script
from dead import of

BYTE = bits(8)
X = "(x Bool)"


def shows(groups, body, *lists, arguments=X, sort="Bool", sorts=None):
    """A body that is accepted, with the list that is shown of it."""
    one = case(script(of(groups, arguments, sort=sort, sorts=sorts)), response(defined("f", arguments, sort, body)), accepted())
    return one._replace(shown=lists)


def chains():
    """Ways of unlike length through chains and rings: the shortest one counts, wherever it is listed."""
    yield from named("least-chain", [
        shows({"A": "B C", "B": "C x", "C": "x"}, "x", [0, 3]),
        shows({"A": "C B", "B": "C x", "C": "x"}, "x", [0, 4]),
        shows({"A": "B D", "B": "C", "C": "x", "D": "x"}, "x", [1, 4]),
        shows({"A": "B (not A)", "B": "A x", "C": "x"}, "x", [0, 3]),
        shows({"A": "A B x", "B": "A x"}, "x", [2]),
        shows({"A": "B", "B": "A C x", "C": "B A x"}, "x", [0, 3]),
        shows({"A": "B C D", "B": "C D A", "C": "D A B", "D": "A B C x"}, "x", [2, 12]),
        shows({"A": "A0 x", **{"A%d" % i: "A%d" % (i + 1) for i in range(14)}, "A14": "x"}, "x", [1])])


def equals():
    """Ways of one length: the least rule number at the first difference counts, not the last, and not the sum."""
    yield from named("least-equal", [
        shows({"A": "x x x"}, "x", [0]),
        shows({"A": "(Variable Bool) x"}, "x", [0]), shows({"A": "x (Variable Bool)"}, "x", [0]),
        shows({"A": "true (Constant Bool)"}, "true", [0]), shows({"A": "(Constant Bool) true false"}, "false", [0]),
        shows({"A": "B C", "B": "x", "C": "x"}, "x", [0, 2]), shows({"A": "C B", "B": "x", "C": "x"}, "x", [0, 3]),
        shows({"A": "(and A A) x x"}, "(and x x)", [0, 1, 1]),
        shows({"A": "(and B A) (and A B) x", "B": "x x"}, "(and x x)", [0, 3, 2]),
        shows({"A": "B (and C B) (and B C)", "B": "(and C C) x", "C": "x"}, "(and x x)", [1, 5, 4]),
        shows({"A": "(not B) (not C)", "B": "C D", "C": "x", "D": "x"}, "(not x)", [1, 4])])


def terms():
    """Rules with more than one operator against rules that need more of them, and literals by value."""
    yield from named("least-term", [
        shows({"A": "(not A) (not (not A)) x"}, "(not (not x))", [1, 2]),
        shows({"A": "(not A) (not (not A)) x"}, "(not (not (not x)))", [0, 1, 2]),
        shows({"A": "(and A A) (and (not A) A) (not A) x"}, "(and (not x) x)", [1, 3, 3]),
        shows({"A": "(and A (and A A)) (and A A) x"}, "(and x (and x x))", [0, 2, 2, 2]),
        shows({"A": "(and A A) x (and x x)"}, "(and x x)", [2]),
        shows({"A": "#x0f (Constant %s) #b00001111 (_ bv15 8)" % BYTE}, "(_ bv15 8)", [0], arguments="", sort=BYTE, sorts={"A": BYTE})])


def functions():
    """Two functions, each with its own least list, and after answer 14 too."""
    both = script(of({"A": "B x", "B": "x"}, X), of({"A": "B C", "B": "C (not C)", "C": "x"}, X, name="g"), constraint("(f (g true))"))
    bodies = response(defined("f", X, "Bool", "x"), defined("g", X, "Bool", "(not x)"))
    yield case(both, bodies, false_at(0, 0, 6), name="least-two")._replace(shown=([1], [0, 3, 4]))


def all_least():
    """All of them."""
    for some in (chains, equals, terms, functions):
        yield from some()
