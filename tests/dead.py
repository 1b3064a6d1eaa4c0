"""Cases of non-terminals that derive no term (request E9: "Refuse such a grammar with answer 9 at the first of them where predeclared, after the other causes of 9. A
non-terminal is refused exactly if it derives no term; `(Variable σ)` with no argument of that sort counts for nothing."): rings, chains that take a pass for each
non-terminal, `(Constant σ)` and `(Variable σ)`, terms past every limit, and a dead one beside every other fault; and bodies without a derivation, whose grammars pass."""
from cases import TRUE, accepted, beside, bits, case, constraint, defined, function, named, refused, response, row, script, underived

BYTE = bits(8)


def grammar(groups, sorts=None):
    """The two parts of a grammar from the rules of each non-terminal, of sort Bool unless it is said; the one that is marked is marked where it is predeclared."""
    sorts = sorts or {}
    names = [(name, name.replace("§", ""), groups[name]) for name in groups]
    sort = {own: sorts.get(own, "Bool") for _, own, _ in names}
    pairs = " ".join("(%s %s)" % (marked, sort[own]) for marked, own, _ in names)
    return "(%s) (%s)" % (pairs, " ".join("(%s %s (%s))" % (own, sort[own], rules) for _, own, rules in names))


def of(groups, arguments="", name="f", sort="Bool", sorts=None):
    """A function with the rules of its non-terminals."""
    return "(synth-fun %s (%s) %s %s)" % (name, arguments, sort, grammar(groups, sorts))


def dead(*commands):
    """A script whose grammar is refused at its mark."""
    return case(script(*commands), TRUE, refused(9))


def lives(command, arguments="", sort="Bool", body="true"):
    """A script that passes, with a body that its grammar derives."""
    return case(script(command), response(defined("f", arguments, sort, body)), accepted())


def rings():
    """Rings without a way out, with and without what stands outside them; the first that derives no term counts, wherever it is listed."""
    yield from named("dead-ring", [
        dead(of(groups)) for groups in (
            {"§A": "A"}, {"§A": "(not A)"}, {"§A": "B", "B": "A"}, {"§A": "(and A B)", "B": "true"}, {"A": "true", "§B": "B"}, {"A": "true", "§B": "(not B)"},
            {"A": "true B", "§B": "(and B A)"}, {"A": "true", "§B": "C", "C": "B"}, {"A": "B", "B": "true", "§C": "(or A C)"},
            {"§A": "B", "B": "C", "C": "D", "D": "B"}, {"A": "(not B) C", "B": "C", "C": "true", "§D": "(xor D C)", "E": "D"},
            {"§A": "(ite B B A)", "B": "true (not A)"})])
    yield from named("dead-not", [
        lives(of(groups)) for groups in (
            {"A": "A true"}, {"A": "B", "B": "A true"}, {"A": "(not A) B", "B": "C", "C": "true"}, {"A": "true", "B": "false"},
            {"A": "true", "B": "(not B) C", "C": "(not A)"}, {"A": "(and A B) true", "B": "(not A)"})])


def passes():
    """Sixteen non-terminals of which one more is found in each pass, from the last to the first and the other way round, to a way out and to none."""
    falling = {"A%d" % i: "A%d" % (i + 1) for i in range(15)}
    from_1, from_2, to_13 = (dict(list(falling.items())[part]) for part in (slice(1, None), slice(2, None), slice(14)))
    rising = {"A0": "true A15", **{"A%d" % i: "(not A%d)" % (i - 1) for i in range(1, 16)}}
    yield from named("dead-passes", [
        lives(of({**falling, "A15": "true"})), lives(of(rising)), dead(of({"§A0": "A1", **from_1, "A15": "A15"})),
        dead(of({**to_13, "A14": "true", "§A15": "A15"})), dead(of({"A0": "true", "§A1": "A2", **from_2, "A15": "A1"})),
        lives(of({**{"A%d" % i: "(and A%d A%d)" % (i + 1, min(i + 2, 15)) + (" true" if i == 0 else "") for i in range(15)}, "A15": "(Constant Bool)"}))])
    most = "A " * 127
    yield from named("dead-rules", [
        lives(of({"A": most + "true"})), dead(of({"§A": most + "(not A)"})), dead(of({"A": "true", "§B": "B " * 127})),
        lives(of({"A": "true", "B": "B " * 126 + "A"}))])


def large():
    """Least terms past 256 nodes and past every limit: a derivation is not bounded."""
    doubled = {"N%d" % i: "(and N%d N%d)" % (i + 1, i + 1) for i in range(14)}
    yield from named("dead-large", [
        lives(of({"A": "true N0", **doubled, "N14": "true"})), lives(of({"A": "true", "B": "(and%s)" % (" A" * 255)})),
        dead(of({"A": "true N0", "§N0": "(and N1 N1)", **dict(list(doubled.items())[1:]), "N14": "N0"}))])


def patterns():
    """`(Constant σ)`, which derives a literal of every sort, and `(Variable σ)`, which counts only by an argument of its own function and of that sort."""
    yield from named("dead-constant", [
        lives(of({"A": "(Constant Bool)"})), lives(of({"A": "(Constant %s)" % bits(64)}, "", "f", bits(64), {"A": bits(64)}), "", bits(64), "#x0000000000000000"),
        lives(of({"A": "true (= B B)", "B": "(Constant %s)" % bits(1)}, sorts={"B": bits(1)}))])
    x, y, p = "(x %s)" % BYTE, "(y %s)" % bits(9), "(p Bool)"
    yield from named("dead-variable", [
        lives(of({"A": "(Variable Bool)"}, p), p, "Bool", "p"), dead(of({"§A": "(Variable Bool)"})), dead(of({"§A": "(Variable Bool)"}, x)),
        lives(of({"A": "(Variable %s)" % BYTE}, y + x, "f", BYTE, {"A": BYTE}), y + x, BYTE, "x"),
        dead(of({"§A": "(Variable %s)" % BYTE}, y + p, "f", BYTE, {"A": BYTE})),
        dead(of({"A": "true", "§B": "(Variable %s)" % BYTE}, y, sorts={"B": BYTE})), dead("(declare-var v Bool)", of({"§A": "(Variable Bool)"})),
        dead(defined("d"), of({"§A": "(Variable Bool)"})), dead(of({"A": "(Variable Bool)"}, p, "g"), of({"§A": "(Variable Bool)"}, x)),
        dead(of({"§A": "(Variable Bool)", "B": "(Variable Bool) (not A)"}, x)), lives(of({"A": "(Variable Bool) B", "B": "(Constant Bool)"}, x), x)])


def words_of_rules():
    """What in a rule is no non-terminal: operators, `define-fun`s, arguments, and the words of a constant and of `extract`, however a non-terminal is called."""
    d = defined("d", "(a Bool) (b Bool)", "Bool", "(and a b)")
    yield from named("dead-words", [
        lives(of({"bv5": "(_ bv5 8)"}, "", "f", BYTE, {"bv5": BYTE}), "", BYTE, "#x05"),
        lives(of({"A": "(= bv5 bv5) true", "bv5": "(_ bv5 8)"}, sorts={"bv5": BYTE})),
        dead(of({"A": "true", "§bv5": "(bvadd bv5 (_ bv5 8))"}, sorts={"bv5": BYTE})),
        lives(of({"A": "(= B B) true", "B": "((_ extract 3 0) #x05)"}, sorts={"B": bits(4)})),
        dead(of({"§A": "(= ((_ extract 3 0) B) #x5)", "B": "B"}, sorts={"B": BYTE})),
        case(script(d, of({"A": "(d B B)", "B": "true"})), response(defined("f", body="(d true true)")), accepted()), dead(d, of({"§A": "(d true A)"}))])


def beside_others():
    """A dead non-terminal beside each other cause of 9, which comes first wherever it stands; beside 4 to 8 of the same command; and in a command before or behind
    another that is at fault."""
    head = "(synth-fun f () Bool "
    yield from named("dead-behind", [
        case(script(head + text + ")"), TRUE, refused(9)) for text in (
            "((A Bool) (B Bool)) ((A Bool (true §#x00)) (B Bool (B)))", "((A Bool) (B Bool)) ((A Bool (A)) (§C Bool (true)))",
            "((A Bool) (B Bool)) ((A Bool (A)) (§B %s (#x00)))" % BYTE, "((A Bool) (B Bool)) ((A Bool (A))§)", "((A Bool) (B Bool)) ((A Bool (A)) (B Bool (§)))",
            "((§A %s) (B Bool)) ((A %s (A)) (B Bool (B)))" % (BYTE, BYTE), "((B Bool) (A Bool)) ((§A Bool (true)) (B Bool (B)))",
            "((A Bool)) ((A Bool (A)) (§B Bool (true)))", "((A Bool) (B Bool)) ((A Bool (A)) (B Bool (§(Constant %s))))" % BYTE,
            "((A Bool) (B Bool)) ((A Bool (A)) (B Bool (A §(Variable %s))))" % BYTE, "(§) ()")])
    for number, text in (
            (4, "((A Bool)) ((A Bool (A (= #x0 (_ §bv%s 4)))))" % ("1" * 21)), (4, "((A Bool)) ((A Bool (%s§A)))" % ("A " * 128)),
            (7, "((A Bool)) ((A Bool (A §w)))"), (7, "((and2 Bool) (§and Bool)) ((and2 Bool (and2)) (and Bool (and)))"),
            (8, "((A Bool)) ((A Bool (A §(not #x0))))"), (8, "((A §(_ BitVec 0))) ((A Bool (A)))")):
        yield case(script(head + text + ")"), TRUE, refused(number), name="dead-beside-%d-%d" % (number, len(text)))
    yield case(script("§" + head + "((A Bool)) ((A Bool (A ()))))"), TRUE, refused(5), name="dead-beside-5")
    yield case(script("§" + head + "((A Bool)) ((A Bool (A (let ((a true)) a)))))"), TRUE, refused(6), name="dead-beside-6")
    ring = of({"§A": "A"}, name="g")
    yield from named("dead-before", [
        case(given, TRUE, refused(9)) for given in (
            beside(ring, "(declare-sort S 0)"), beside(ring, "(foo)"), beside(ring, constraint("w")), beside(ring, of({"A": "A"}, name="h")),
            beside(ring) + "(check-synth)", "(set-logic BV)" + ring)])
    yield from named("dead-after", [
        case(beside(command, ring.replace("§", "")), TRUE, refused(number))
        for number, command in ((6, "§(declare-sort S 0)"), (7, constraint("§w")), (9, of({"§A": "A"}, name="h")))])
    yield from named("dead-whatever-response", [case(beside(ring), text, refused(9)) for text in ("fail", "00", "", TRUE)])


def unused():
    """Functions whose non-terminals all derive a term, used or not, beside one that has a dead one."""
    yield from named("dead-functions", [
        dead(function("g"), of({"A": "true", "B": "A", "§C": "(not C)"})), dead(of({"A": "true", "§B": "B"}), of({"A": "true"}, name="g")),
        case(script(of({"A": "true"}), of({"A": "(not B)", "B": "true", "C": "A"}, name="g")), response(defined(), defined("g", body="(not true)")), accepted()),
        dead(row(7, lambda i: of({"A": "true"}, name="f%d" % i)), of({"A": "true", "§B": "(=> B A)"}, name="f7"))])


def alive():
    """Bodies that no rule gives, where every non-terminal derives another term: in a ring of chain rules, and the name of a `define-fun` against `(Variable σ)`."""
    both, p = "(x Bool) (y Bool)", "(p Bool)"
    yield case(script(of({"A": "B", "B": "A x"}, both)), response(defined("f", both, "Bool", "§y")), underived(0), name="ring-underived")
    yield case(script(defined("d"), of({"A": "(Variable Bool)"}, p)), response(defined("f", p, "Bool", "§d")), underived(0), name="variable-defined")


def all_dead():
    """Every case of this file."""
    for some in (rings, passes, large, patterns, words_of_rules, beside_others, unused, alive):
        yield from some()
