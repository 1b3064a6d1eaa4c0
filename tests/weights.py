"""Cases of weights (request E13): the feature's command, rules written `(! t :weight k)`, where neither may stand, and which derivation is least by weight."""
from cases import AREA, TRUE, accepted, case, constraint, defined, false_at, named, refused, response, row, script
from dead import of

X = "(x Bool)"
ON = "(set-feature :weights true)"
F = "(synth-fun f () Bool ((A Bool)) ((A Bool (true))))"


def weighed(term, *weights):
    """A rule with so many attributes."""
    return "(! %s%s)" % (term, "".join(" :weight %d" % weight for weight in weights))


def rules(*listed, feature=ON):
    """A script with one function of these rules."""
    return script(feature, of({"A": " ".join(listed)}))


def features():
    """Where the feature may be set, how often and to what."""
    yield from named("feature", [
        case(script(ON, F), TRUE, accepted()),
        case(script(ON, "§" + ON, F), TRUE, refused(5)), case(script(ON, F, "§" + ON), TRUE, refused(5)),
        case("§" + ON + script(F), TRUE, refused(5)), case(script("(declare-var v Bool)", "§" + ON, F), TRUE, refused(5)),
        case(script("(assume true)", "§" + ON, F), TRUE, refused(5)), case(script(defined("d"), "§" + ON, F), TRUE, refused(5)),
        case(script(F, constraint("true"), "§" + ON), TRUE, refused(5)), case(script(F) + "§" + ON, TRUE, refused(5))])
    yield from named("feature-otherwise", [
        case(script("§(set-feature %s)" % rest, F), TRUE, refused(number)) for number, rest in (
            (6, ":weights false"), (6, ":weight true"), (6, ":weight false"), (5, ":weights x"), (5, ":weights 1"), (5, ":weights #b1"), (5, ":weights"), (5, ""),
            (5, ":weights true true"), (5, "true :weights"), (5, "weights true"), (5, ":weights (true)"), (5, "(:weights) true"), (5, ":weight x"),
            (5, ":weights :weights"), (6, ":weights (let ((a true)) a)"), (6, ":weights (! true :weight 1)"))])
    yield from named("feature-late", [
        case(script(F, "§(set-feature :weights false)"), TRUE, refused(6)), case("§(set-feature :weights false)" + script(F), TRUE, refused(6)),
        case(script(F) + "§(set-feature :weights false)", TRUE, refused(6)), case(script(ON, "§(set-feature :weights false)", F), TRUE, refused(6))])
    yield from named("feature-word", [
        case(script("(set-feature §%s true)" % word, F), TRUE, refused(6)) for word in (":grammars", ":weights2", ":Weights", ":", ":weigh")])


def shapes():
    """Attributes that are none, and terms that are none."""
    yield from named("weighted-shape", [
        case(script(ON, "§" + of({"A": "true " + rule})), TRUE, refused(5)) for rule in (
            "(! true)", "(!)", "(! true :weight)", "(! true :weight true)", "(! true :weight #x01)", "(! true :weight (1))", "(! true :weight 1 2)", "(! true 1)",
            "(! :weight 1)", "(! true :weight :weight 1)", "(! true :weight 1 :weight)", "(! true :weights 1)", "(! true :weight 1 :weights 2)", "(! true weight 1)",
            "(! true true :weight 1)", "(! true 1 :weight)", "(! () :weight 1)", "(! (true) :weight 1)", "(! (Constant Bool) :weight 1)",
            "(! (Variable Bool) :weight 1)", "(! (_ BitVec 8) :weight 1)", "(! (not :weight) :weight 1)", ":weight", "(not :weights)", "(:weight true)")])
    yield from named("weighted-place", [
        case(script(ON, command), TRUE, refused(6)) for command in (
            "§" + of({"A": "true (not (! A :weight 1))"}), "§" + of({"A": "(! (! true :weight 1) :weight 2)"}), "§" + of({"A": "(! (not (! true :weight 1)) :weight 2)"}),
            "§" + of({"A": "! true :weight 1"}), F + "§(constraint (! true :weight 1))", F + "§(assume (! true :weight 1))",
            "§(define-fun d () Bool (! true :weight 1))" + F, "§(synth-fun f () Bool ((A Bool)) ((A Bool ((! true :weight 1)) x)))",
            "§(synth-fun f () Bool ((A Bool)) ((A Bool ((! true :weight 1)))) x)", "§(synth-fun f () Bool ((A Bool)) ((A Bool) ((! true :weight 1))))",
            "§(synth-fun f () Bool ((A Bool)) (! (A Bool (true))))", "§(synth-fun f () Bool ((! A :weight 1)) ((A Bool (true))))",
            "§(synth-fun f () Bool ((! true :weight 1)))", "§(declare-var v (! Bool :weight 1))" + F, "§" + of({"A": "(! (let ((a true)) a) :weight 1)"}),
            "§" + of({"A": "(! true :weight (_ weight f))"}), F + "§(constraint (= (_ weight f) #x00))", "§(declare-weight w)" + F)])
    yield from named("weighted-list", [
        case(script(ON, "§(synth-fun f () Bool ((A Bool)) ((A Bool ((! true :weight 1))) x))"), TRUE, refused(5)),
        case(script(ON, "§(synth-fun f () Bool ((A Bool)) ((A Bool ((! true :weight 1))) (x)))"), TRUE, refused(5)),
        case(script(ON, "§(synth-fun f () Bool A ((A Bool ((! true :weight 1)))))"), TRUE, refused(5))])
    yield from named("weighted-unasked", [
        case(rules(weighed("true", 1), feature="").replace("(synth-fun", "§(synth-fun"), TRUE, refused(6)),
        case(script("§" + of({"A": "true (! true)"})), TRUE, refused(6)), case(script(of({"A": "true"}), "§" + of({"A": weighed("true", 0)}, name="g")), TRUE, refused(6)),
        case(script("§" + of({"A": "true " + weighed("65", 65536)})), TRUE, refused(6))])
    yield from named("keyword-elsewhere", [
        case(script(command, F), TRUE, refused(5)) for command in (
            "§(declare-var :weight Bool)", "§(declare-var v :weight)", "§(define-fun :weights () Bool true)", "§(constraint :weight)", "§(constraint (not :weights))",
            "§(constraint (:weight true))", "§(set-logic :weights)", "§(:weight)", "§:weight")])
    yield from named("keyword-in-response", [
        case(script(F), text, refused(5)) for text in ("§:weight", "§:weights", "(§:weight)", "(§(define-fun f () Bool :weight))", "(§(define-fun :weight () Bool true))",
                                                       "(§(:weight))", TRUE + "§:weight")])
    yield case(script(ON, F), "(§(define-fun f () Bool (! true :weight 1)))", refused(6), name="weighted-body")


def faults():
    """Faults of a weighted rule: the term's own at the term, the rule's at its bracket, and the numeral's at the numeral."""
    yield from named("weighted-fault", [
        case(rules("true", rule), TRUE, refused(number)) for number, rule in (
            (7, "(! §y :weight 1)"), (7, "(! §let :weight 1)"), (7, "(! §! :weight 1)"), (7, "(! (not §y) :weight 1)"), (8, "(! §(and A #x00) :weight 1)"),
            (8, "(! §5 :weight 1)"), (8, "(! §not :weight 1)"), (9, "§(! #x00 :weight 1)"), (9, "§(! (bvnot #x00) :weight 1 :weight 2)"), (9, "§(! #x00 :weight 65535)"),
            (4, "(! true :weight §65536)"), (4, "(! y :weight §65536)"), (4, "(! true :weight 1 :weight §65536)"), (4, "(! true :weight §99999 :weight 99999)"),
            (4, "(! true :weight §999999999)"), (4, "(! (= (_ bv1 §65) #x0) :weight 65536)"), (4, "(! true :weight §1234567890)"))])
    yield from named("weighted-dead", [
        case(script(ON, of({"§A": weighed("A", 1)})), TRUE, refused(9)), case(script(ON, of({"A": "true", "§B": weighed("(not B)", 0)})), TRUE, refused(9)),
        case(script(ON, of({"A": weighed("B", 3), "B": weighed("true", 4)})), TRUE, accepted())._replace(shown=([0, 1],), weights=(7,) + (0,) * 7)])
    yield from named("weighted-limit", [
        case(rules("true " * 127 + weighed("true", 1)), TRUE, accepted()), case(rules("true " * 128 + "§" + weighed("true", 1)), TRUE, refused(4)),
        case(rules(row(128, lambda i: weighed("true", 128 - i))), TRUE, accepted())._replace(shown=([127],), weights=(1,) + (0,) * 7),
        case(rules("true", weighed("(and %s)" % ("true " * 255), 1)), TRUE, accepted()),
        case(rules("true", weighed("(and %s§true)" % ("true " * 255), 1)), TRUE, refused(4)),
        case(rules(weighed("true", 3, 65535)), TRUE, accepted())._replace(weights=(0,) * 8)])
    yield case(rules(weighed("true", 65535)), TRUE, accepted(), name="weight-65535")._replace(weights=(65535,) + (0,) * 7)
    yield case(rules("(! true :weight §65536)"), TRUE, refused(4), name="weight-65536")


def shows(groups, body, numbers, weight, arguments=X):
    """A body that is accepted, with its list and its weight."""
    one = case(script(ON, of(groups, arguments)), response(defined("f", arguments, "Bool", body)), accepted())
    return one._replace(shown=(numbers,), weights=(weight,) + (0,) * 7)


def least():
    """Least weight by a longer way, ties in weight, and attributes that are not exactly one."""
    yield from named("weighted-least", [
        shows({"A": weighed("x", 5) + " B", "B": weighed("C", 1) + " x", "C": "x"}, "x", [1, 3], 0),
        shows({"A": weighed("x", 5) + " B", "B": weighed("C", 1), "C": "D", "D": "x"}, "x", [1, 2, 3, 4], 1),
        shows({"A": weighed("x", 1) + " B", "B": weighed("x", 1)}, "x", [0], 1),
        shows({"A": "B " + weighed("x", 1), "B": weighed("x", 1)}, "x", [1], 1),
        shows({"A": weighed("x", 2) + " " + weighed("x", 1) + " " + weighed("x", 1)}, "x", [1], 1),
        shows({"A": weighed("A", 0) + " x"}, "x", [1], 0), shows({"A": weighed("B", 0) + " " + weighed("x", 9), "B": weighed("A", 0)}, "x", [1], 9),
        shows({"A": weighed("(not A)", 3) + " " + weighed("(not (not A))", 7) + " x"}, "(not (not x))", [0, 0, 2], 6),
        shows({"A": weighed("(not A)", 3) + " " + weighed("(not (not A))", 6) + " x"}, "(not (not x))", [1, 2], 6),
        shows({"A": weighed("(and A B)", 1) + " " + weighed("(and B A)", 1) + " " + weighed("x", 2), "B": weighed("x", 1) + " A"}, "(and x x)", [0, 2, 3], 4),
        shows({"A": weighed("(and A A)", 65535) + " " + weighed("x", 65535)}, "(and (and x x) (and x x))", [0, 0, 1, 1, 0, 1, 1], 7 * 65535),
        shows({"A": weighed("x", 2, 3) + " " + weighed("x", 1)}, "x", [0], 0), shows({"A": weighed("x", 1) + " " + weighed("x", 0, 0)}, "x", [1], 0),
        shows({"A": weighed("x", 5, 3)}, "x", [0], 0), shows({"A": weighed("x", 5, 5, 5)}, "x", [0], 0),
        shows({"A": "(Variable Bool) " + weighed("x", 0)}, "x", [0], 0), shows({"A": weighed("x", 1) + " (Variable Bool)"}, "x", [1], 0)])
    both = script(ON, of({"A": weighed("B", 2) + " " + weighed("x", 3), "B": "x"}, X), of({"A": weighed("(not A)", 10) + " " + weighed("x", 1)}, X, name="g"),
                  constraint("(f (g true))"))
    bodies = response(defined("f", X, "Bool", "x"), defined("g", X, "Bool", "(not x)"))
    weights = (2, 11) + (0,) * 6
    yield case(both, bodies, false_at(0, 0, 6), name="weighted-false")._replace(shown=([0, 2], [0, 1]), weights=weights)
    none = response(defined("f", X, "Bool", "x"), "(define-fun g %s Bool §(or x x))" % ("(%s)" % X))
    yield case(both, none, (13, None, None, 1, 0), name="weighted-underived")._replace(weights=(0,) * 8)
    yield case(both, bodies, (15, 2, 0, 0, 0), budget=5, name="weighted-ended")._replace(weights=weights)
    yield case(both, bodies, (16, 2, 1, 0, 0), points=(0,), name="weighted-points")._replace(weights=(0,) * 8)
    yield case(both, bodies, (1, 3, AREA - 1, 0, 0), area=AREA - 1, name="weighted-area")._replace(weights=(0,) * 8)
    eight = script(ON, row(8, lambda k: of({"A": weighed("true", k + 1)}, name="f%d" % k)))
    yield case(eight, response(row(8, lambda k: defined("f%d" % k))), accepted(), name="weighted-eight")._replace(weights=tuple(range(1, 9)))


def all_weights():
    """All of them."""
    for some in (features, shapes, faults, least):
        yield from some()
