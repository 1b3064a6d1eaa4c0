"""Cases of names that are taken (request E8: "Each declared name's record must hold the place of its declaration, and answer 7 returns it as second number; 0 for
unknown or reserved."): a name like every kind of name in scope, names alike within one command, the first of several faults, names whose scope has ended, many names
and a name far down, and names that are reserved or unknown."""
from cases import TRUE, accepted, beside, case, constraint, defined, function, grammar_of, named, refused, response, row, script, variables

# What is declared before the name that is looked for, and behind it.
BEFORE = "(declare-var b Bool)" + defined("c", "(n1 Bool)", "Bool", "n1")
BEHIND = "(declare-var n0 Bool)" + defined("e", "(m Bool)", "Bool", "m")

# The commands that declare a name which is then in scope.
DECLARING = ("(declare-var %s Bool)", "(define-fun %s () Bool true)", "(synth-fun %s () Bool ((A Bool)) ((A Bool (true))))")

# The places of a new name.
NEW = DECLARING + (
    "(define-fun d ((a Bool) (%s Bool)) Bool true)", "(synth-fun g ((%s Bool)) Bool ((A Bool)) ((A Bool (true))))",
    "(synth-fun g () Bool ((%s Bool)) ((A Bool (true))))", "(synth-fun g ((a Bool)) Bool ((A Bool) (%s Bool)) ((A Bool (true)) (B Bool (true))))")


def taken(*commands):
    """A script that is refused at its mark because a name is taken, or for another reason where nothing is marked as its declaration."""
    return case(script(*commands), TRUE, refused(7))


def in_scope():
    """A name of each kind, declared before, and a new one of each kind that is spelt alike."""
    for i, earlier in enumerate(DECLARING, 1):
        yield from named("taken-%d" % i, [taken(BEFORE, earlier % "¤n", BEHIND, new % "§n") for new in NEW])


def within():
    """Names alike within one command: its own, arguments and non-terminals, side by side and far apart."""
    def synth(own, arguments, pairs):
        return "(synth-fun %s (%s) Bool (%s) ((A Bool (true))))" % (own, arguments, pairs)

    yield from named("taken-within", [
        taken(BEFORE, command) for command in (
            defined("d", "(¤a Bool) (§a Bool)"), defined("d", "(¤a Bool) (§a Bool) (a Bool)"), defined("d", "(a Bool) (¤x Bool) (y Bool) (§x Bool) (a Bool)"),
            defined("d", "(¤a Bool)" + row(6, "(a%d Bool)".__mod__) + "(§a Bool)"), defined("¤d", "(§d Bool)"), defined("¤d", "(a Bool) (§d Bool) (a Bool)"),
            synth("¤f", "(§f Bool)", "(A Bool)"), synth("f", "(¤a Bool) (§a Bool)", "(A Bool)"), synth("¤f", "", "(§f Bool)"),
            synth("¤f", "(a Bool)", "(A Bool) (§f Bool)"),
            synth("f", "(¤a Bool)", "(§a Bool)"), synth("f", "(a Bool) (¤x Bool)", "(A Bool) (§x Bool)"), synth("f", "", "(¤A Bool) (§A Bool)"),
            synth("f", "", "(¤A Bool) (§A Bool) (A Bool)"), synth("f", "(a Bool)", "(A Bool) (¤B Bool) (C Bool) (§B Bool)"),
            synth("f", "", "(¤A Bool)" + row(14, "(A%d Bool)".__mod__) + "(§A Bool)"))])


def first_fault():
    """Several faults of names in one command: the least place counts, whatever it is."""
    yield from named("taken-first", [
        taken("(declare-var ¤v Bool)", defined("§v", "(v Bool)", "Bool", "w")), taken("(declare-var ¤v Bool)", defined("d", "(§v Bool) (v Bool)")),
        taken("(declare-var ¤v Bool)", "(declare-var §v Int)"), taken("(declare-var ¤v Bool)", defined("d", "(§v Bool) (d Bool) (and Bool)", "Int")),
        taken(defined("d", "(a §Int) (a Bool)")), taken(defined("d", "(§and Bool) (d Bool) (and Bool)")), taken(defined("§let", "(d Bool) (d Bool)")),
        taken(defined("¤d", "(§d Bool) (and Bool)")), taken(defined("d", "(¤a Bool) (§a Bool)", "Int", "w")), taken(defined("d", "(a Bool)", "§Int", "d")),
        taken("(synth-fun ¤f ((a Bool)) Bool ((§f Bool) (a Bool)) ((A Bool (w))))"), taken("(synth-fun f ((a §Int)) Bool ((a Bool)) ((A Bool (true))))")])


def ended():
    """Names whose scope has ended, and the name that is in scope where several were spelt alike."""
    ring = grammar_of("Bool", {"A": "(not A) true"})
    own = "(synth-fun %s ((a Bool)) Bool " + ring + ")"
    body = response(defined("f", "(a Bool)", "Bool", "true"), defined("g", "(a Bool)", "Bool", "(not true)"))
    yield from named("scope-ended", [
        case(beside(defined("d", "(a Bool)"), "(declare-var a Bool)"), TRUE, accepted(0)), case(beside(defined("d", "(a Bool)"), defined("a")), TRUE, accepted()),
        case(beside(defined("d", "(a Bool)"), defined("e", "(a Bool)")), TRUE, accepted()), case(beside("(declare-var A Bool)"), TRUE, accepted(0)),
        case(script(own % "f", own % "g", defined("A", "(a Bool)"), "(declare-var a Bool)"), body, accepted(0))])
    yield from named("taken-again", [
        taken(defined("d", "(a Bool)"), "(declare-var ¤a Bool)", "(declare-var §a Bool)"), taken(defined("d", "(a Bool)"), defined("e", "(¤a Bool) (§a Bool)")),
        taken(function("f", "(a Bool)"), defined("¤A", "(a Bool)"), function("g", "(a Bool)").replace("((A Bool))", "((§A Bool))")),
        taken(function("f", "(a Bool)"), function("g", "(¤a Bool)").replace("((A Bool))", "((§a Bool))"))])


def many():
    """As many names in scope as there may be but for one, and each kind's first and last; and places far down, on later lines and behind comments."""
    given = row(15, "(declare-var v%d Bool)".__mod__) + row(31, lambda i: defined("d%d" % i, "(v Bool)")) + row(7, lambda i: function("f%d" % i))
    for name in ("v0", "v14", "d0", "d30", "f0", "f6"):
        marked = given.replace(" %s " % name, " ¤%s " % name, 1)
        yield from named("taken-many-%s" % name, [taken(marked, new % ("§" + name)) for new in ("(declare-var %s Bool)", "(define-fun %s () Bool true)", NEW[-1])])
    yield from named("taken-far", [
        taken(";" * 300 + "\n(declare-var\n\t¤far Bool)", "\n\n(declare-var §far Bool)"),
        taken(" " * 65400 + "(declare-var ¤far Bool)(declare-var §far Bool)")])


def not_taken():
    """Names that are reserved, and names that are unknown where they stand, declared elsewhere or not: the second number is 0."""
    words = ("and", "let", "BitVec", "bvadd", "Constant", "synth-fun", "true", "extract", "Bool", "assume", "BitVec", "ite", "declare-sort", "Variable")
    yield from named("reserved-0", [taken(BEFORE, new % ("§" + word)) for new, word in zip(NEW + NEW, words)])
    declared = BEFORE + variables("Bool") + defined("d", "(a Bool)", "Bool", "a")
    yield from named("unknown-0", [
        taken(declared, constraint("§w")), taken(declared, constraint("(§w v0)")), taken(declared, constraint("§a")), taken(declared, constraint("§f"), function()),
        taken(declared, defined("e", "", "Bool", "§v0")), taken(declared, defined("e", "", "Bool", "(§e true)")), taken(declared, "(declare-var w §v0)"),
        taken(declared, defined("e", "(a §d)")), taken(declared, function("f", "", "Bool", "(d §v0)")), taken(declared, function("f", "", "Bool", "(§f A)")),
        taken(declared, function("f", "", "Bool", "(Constant §v0)"))])
    seen = script("(declare-var v Bool)", function("f", "(a Bool)"), defined("later"))
    yield from named("unknown-in-response-0", [
        case(seen, response(defined("f", "(a Bool)", "Bool", body)), refused(7)) for body in ("§v", "§A", "(not §f)", "(and a §later)", "(§f a)", "§and2")])


def all_declared():
    """Every case of this file."""
    for some in (in_scope, within, first_fault, ended, many, not_taken):
        yield from some()
