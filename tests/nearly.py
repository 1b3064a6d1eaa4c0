"""Cases of names that are nearly known words (request E2: "The outcome for every word stays as it is"): a known word without its last letter, with a letter more, in the
other case, and a word of another spelling in its slot. What is known and which slot a word has is said by tools/slots; the answers are those of any other name."""
import itertools

from cases import TRUE, accepted, beside, bits, case, constraint, defined, function, named, refused, response, row, script, underived
from slots import KNOWN, TABLES, neighbour

MOST_ARGUMENTS = 8


def near(word):
    """Names near to a known word."""
    return [word[:-1], word + "x", word.swapcase(), neighbour(word)]


def new_names(words):
    """The names near to known words that are not known themselves, each once."""
    return [name for name in dict.fromkeys(itertools.chain(*map(near, words))) if name and name not in KNOWN]


def declared(names):
    """A script that has names as the arguments of `define-fun`s."""
    parts = [" ".join("(%s Bool)" % name for name in names[i:i + MOST_ARGUMENTS]) for i in range(0, len(names), MOST_ARGUMENTS)]
    return beside(row(len(parts), lambda i: defined("d%d" % i, parts[i])))


def arguments():
    """All names near to the words of each table may be declared; `=>` without its last letter and `declare-datatypes` without its are known, and may not."""
    yield from named("nearly-known", [case(declared(new_names(words)), TRUE, accepted()) for words in TABLES])
    yield from named("known-nearly", [case(beside("(declare-var §%s Bool)" % word[:-1]), TRUE, refused(7)) for word in ("=>", "declare-datatypes")])


def in_its_slot():
    """A name where a known word has a meaning of its own, in that word's slot: no command, logic, sort, literal, binder, index, pattern or operator, and no answer of a
    solver that is one word."""
    yield from named("in-its-slot", [
        case("§(set-logic %s)" % neighbour("BV"), TRUE, refused(6)),
        case(beside("§(%s true)" % neighbour("constraint")), TRUE, refused(5)),
        case(beside("(declare-var x §%s)" % neighbour("Bool")), TRUE, refused(7)),
        case(beside("§(declare-var x (_ %s 8))" % neighbour("BitVec")), TRUE, refused(6)),
        case(beside("§(constraint (= #b0 ((_ %s 0 0) #b0)))" % neighbour("extract")), TRUE, refused(6)),
        case(beside(constraint("(not §%s)" % neighbour("false"))), TRUE, refused(7)),
        case(beside(constraint("(§%s true)" % neighbour("let"))), TRUE, refused(7)),
        case(script("§" + function("f", "", bits(8), "(%s (_ BitVec 8))" % neighbour("Constant"))), TRUE, refused(5)),
        case(beside(constraint("(§%s #b0 #b1)" % neighbour("bvuge"))), TRUE, refused(7)),
        case(beside(constraint("(§%s #b0 #b1)" % neighbour("bvult"))), TRUE, refused(7)),
        case(beside(), "§" + neighbour("fail"), refused(5)),
        case(beside(constraint("(§BVAND #b0 #b1)")), TRUE, refused(7)),
        case(beside(constraint("(§bvandx #b0 #b1)")), TRUE, refused(7))])


def used():
    """Names in operators' slots for all that has a name: a variable, a `define-fun`, its argument, a function and a non-terminal. A rule with the name in the slot of `not`
    does not derive a `not`."""
    variable, called, argument, name, rules = map(neighbour, ("bvuge", "not", "or", "and", "bvand"))
    header = "(%s Bool)" % argument
    given = script(
        "(declare-var %s Bool)" % variable, defined(called, header, "Bool", "(not %s)" % argument),
        "(synth-fun %s (%s) Bool ((%s Bool)) ((%s Bool ((%s %s) %s))))" % (name, header, rules, rules, called, rules, argument),
        constraint("(and %s (%s (%s %s)))" % (variable, name, called, variable)))
    yield from named("name-in-slot", [
        case(given, response(defined(name, header, "Bool", "%s %s)" % (head, argument))), answer, points=[1])
        for head, answer in (("(" + called, accepted(1, 11)), ("§(not", underived(0)))])


def all_nearly():
    """Every case of this file."""
    for some in (arguments, in_its_slot, used):
        yield from some()
