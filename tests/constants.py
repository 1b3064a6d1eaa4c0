"""Cases of constants (request E3): "a literal is its value and width", however it is written; and `(_ bvN n)`, its forms, values, widths and digits, beside names
that look like it."""
from cases import (
    MARK, SWAP, TRUE, X, accepted, beside, bits, case, constraint, defined, false_at, function, joined, judged, named, refused, response, script, swapped,
    underived, variables)

BYTE = bits(8)
FIVE = "(_ bv5 8)"
MOST_DIGITS = 20

# Fifteen and fourteen at 8 bits, in every spelling.
FIFTEEN = ("#x0F", "#x0f", "#b00001111", "(_ bv15 8)")
FOURTEEN = ("#x0E", "#x0e", "#b00001110", "(_ bv14 8)")


def decimal(value, width):
    """A constant by its value and width."""
    return "(_ bv%d %d)" % (value, width)


# Spellings

def spellings():
    """A rule in every spelling derives its value in every spelling, and no other value."""
    for i, rule in enumerate(FIFTEEN, 1):
        yield from named("spelled-%d" % i, judged(rule, FIFTEEN + tuple(MARK + other for other in FOURTEEN), sort=BYTE))
    yield from named("spelled-inner", judged("(bvadd A #x0F) (bvadd (_ bv0 8) A) x", [
        "(bvadd x (_ bv15 8))", "(bvadd #b00000000 x)", "(bvadd (bvadd #x00 x) #b00001111)", "§(bvadd x (_ bv0 8))", "§(bvadd (_ bv15 8) x)"], X, BYTE))


def widths():
    """The same value at another width is another literal, and so is a Bool."""
    for i, rule in enumerate(("(= #x0F #x0f)", "(= (_ bv15 8) #b00001111)"), 1):
        yield from named("other-width-%d" % i, judged(rule, [
            "(= #x0F #x0F)", "(= (_ bv15 8) (_ bv15 8))", "(= #b00001111 (_ bv15 8))", "§(= #xF #xF)", "§(= #b1111 #b1111)", "§(= (_ bv15 4) (_ bv15 4))",
            "§(= (_ bv15 9) (_ bv15 9))", "§(= #b000001111 #b000001111)"]))
    yield from named("bool-or-bit", judged("(= true true) (distinct #b1 #b0)", [
        "(= true true)", "§(= #b1 #b1)", "§(= (_ bv1 1) (_ bv1 1))", "(distinct (_ bv1 1) (_ bv0 1))", "§(distinct true false)"]))


def patterns():
    """`(Constant σ)` derives a constant of its width in every spelling; `(Variable σ)` derives none."""
    yield from named("any-constant", judged("(Constant (_ BitVec 8))", FIFTEEN + ("(_ bv255 8)", "§(bvnot (_ bv15 8))"), sort=BYTE))
    given = script("(synth-fun f () Bool ((A Bool) (B (_ BitVec 8))) ((A Bool ((bvult B B))) (B (_ BitVec 8) ((Constant (_ BitVec 8))))))")
    yield from named("any-width", [
        case(given, response(defined(body=body)), underived(0) if MARK in body else accepted())
        for body in ("(bvult (_ bv15 8) #x0f)", "§(bvult (_ bv15 9) (_ bv15 9))", "§(bvult (_ bv15 4) #xF)")])
    yield from named("no-variable", judged("(Variable (_ BitVec 8))", ["x", "§(_ bv15 8)"], X, BYTE))


# Places

def within(term):
    """A term of 8 bits in a constraint, a `define-fun`, a rule and a response: a script and a response of each."""
    plain, sound = function("f", X, BYTE, "x"), response(defined("f", X, BYTE, "x"))
    return [
        (script(plain, constraint("(= #x05 %s)" % term)), sound), (script(defined("d", X, BYTE, term), plain), sound),
        (script(function("f", X, BYTE, "x " + term)), sound), (script(plain), response(defined("f", X, BYTE, term)))]


def command_marked(text, term):
    """A text with the mark before the command that has a term, where one has it."""
    start = max(text.rfind(word, 0, text.find(term) + 1) for word in ("(constraint", "(define-fun", "(synth-fun"))
    return text[:start] + MARK + text[start:] if term in text else text


def in_all_places():
    """A constant in a `define-fun`, a rule, a constraint and a body, of cost 1 in each; in the swap case, as a solver prints it; and with white space within."""
    given = script(defined("d", X, BYTE, "(bvadd x (_ bv5 8))"), function("f", X, BYTE, "(bvadd A (_ bv5 8)) (d A) x"), constraint("(= (f #x01) (_ bv11 8))"))
    body = response(defined("f", X, BYTE, "(bvadd (d x) (_ bv5 8))"))
    yield from named("in-all-places", [case(given, body, accepted(1, 11), budget=11), case(given.replace("bv11", "bv12"), body, false_at(0, 0, 11), budget=11)])
    yield from named("swap-spelled", [
        case(SWAP, swapped("(concat ((_ extract 15 0) x) %s)" % zero), accepted(1, 24), budget=24) for zero in ("#b" + "0" * 16, "(_ bv0 16)")])
    yield from named("spaced", [case(beside(constraint("(= #x05 (%s))" % text)), TRUE, accepted(1, 3)) for text in ("  _\tbv5\n8 ", ";_\r_ ;(\n bv5;8\n8;)\n")])


def nodes():
    """256 nodes of which 128 are constants, in a `define-fun` and in a response; a constant past them is answer 4 at its bracket."""
    term = joined("bvor", "(_ bv1 1)", 128)
    for count, body, answer in ((256, "(bvnot %s)" % term, accepted()), (257, "(bvor %s §(_ bv1 1))" % term, refused(4))):
        yield from named("constant-nodes-%d" % count, [
            case(beside(defined("d", "", bits(1), body)), TRUE, answer),
            case(script(function("f", "", bits(1), "#b1 (bvor A A) (bvnot A)")), response(defined("f", "", bits(1), body)), answer)])


# Forms

MISSHAPEN = ("((_ bv5 8) x)", "(_ bv5)", "(_ bv5 8 8)", "(_ bv5 x)", "(_ bv5 bv5)", "(_ bv5 true)", "(_ bv5 #x8)", "(_ bv5 (8))", "(_ bv5 (_ bv5 8))", "((_ bv5 8))")
UNCARRIED = ("(_ bv 8)", "(_ bv05 8)", "(_ bv5a 8)", "(_ bv00 8)", "(_ bv-5 8)", "(_ bv5. 8)", "(_ BV5 8)", "(_ Bv5 8)", "(_ bvx5 8)", "(_ b5 8)", "(_ (bv5) 8)", "(_ 5 8)")


def forms():
    """Lists that are no constant by their form: 5 where their second word is of that form, 6 where it is not, at their command; the first three in all places."""
    for number, terms in ((5, MISSHAPEN), (6, UNCARRIED)):
        for i, term in enumerate(terms, 1):
            texts = within(term) if i <= 3 else within(term)[:1]
            yield from named("form-%d-%d" % (number, i), [case(*[command_marked(text, term) for text in pair], refused(number)) for pair in texts])


def sorts():
    """A constant where a sort stands, and a constant of another sort than is asked."""
    yield from named("constant-as-sort", [
        case(text, TRUE, refused(5)) for text in (
            beside("§(declare-var v %s)" % FIVE), script("§" + defined("d", "(x %s)" % FIVE), function()), script("§" + defined("d", "", FIVE), function()),
            script("§" + function("f", "(x %s)" % FIVE)), script("§" + function("f", "", FIVE)), script("§" + function(rules="(Constant %s)" % FIVE)))])
    yield from named("constant-of-sort", [
        case(text, TRUE, refused(number)) for number, text in (
            (8, beside("(constraint §(_ bv1 1))")), (8, beside("(constraint §(= #x05 (_ bv5 4)))")), (8, beside("(constraint §(and true (_ bv1 1) true))")),
            (8, beside("(define-fun d () Bool §(_ bv0 1))")), (9, beside("(synth-fun g () Bool ((B Bool)) ((B Bool (true §(_ bv1 1)))))")))])
    yield case(beside(), response(defined(body="§(_ bv1 1)")), refused(8), name="constant-as-body")


def like_pairs():
    """`(_ bv5)` where a name stands with its sort, `(_ bv5 ..)` where a non-terminal stands with its rules, and `(_ bv15 8)` where the rules
    stand: names like others."""
    yield from named("like-a-pair", [
        case(script("(define-fun g ((§_ bv5)) Bool true)", function()), TRUE, refused(7)),
        case(script("(synth-fun f () Bool ((§_ bv5)) ((_ bv5 (true))))"), TRUE, refused(7)),
        case(script("(synth-fun f () Bool ((A Bool)) ((_ §bv5 (true))))"), TRUE, refused(7)),
        case(beside(), "((define-fun f (§(_ bv5)) Bool true))", refused(12))])
    yield from named("forgotten-bracket", [
        case(script("(synth-fun f () (_ BitVec 8) ((A (_ BitVec 8))) ((A (_ BitVec 8) (§_ bv15 8))))"), TRUE, refused(7))])


# Values, widths and digits

def values():
    """The greatest value of a width, and the number after it, which is 8 at its bracket; and values by their digits."""
    for width in (1, 8, 63, 64):
        ones, zero = decimal(2 ** width - 1, width), decimal(0, width)
        yield from named("constant-%d-bits" % width, [
            case(beside(constraint("(= (bvnot %s) %s)" % (zero, ones))), TRUE, accepted(1, 4), budget=4),
            case(beside(constraint("(distinct (bvnot %s) %s)" % (zero, ones))), TRUE, false_at(0, 0, 4), budget=4),
            case(beside(constraint("(= (bvnot %s) §%s)" % (zero, decimal(2 ** width, width)))), TRUE, refused(8))])
    yield from named("constant-value", [
        case(beside(constraint("(= %s %s)" % (decimal(int(word[2:], 16), 4 * (len(word) - 2)), word))), TRUE, accepted(1, 3))
        for word in ("#x0", "#x9", "#xAb", "#x0F1E", "#x123456789", "#x0123456789abcdef", "#x8ac7230489e80000", "#xfedcba9876543210")])


def past_values():
    """Values past 64 bits, which are none for their rest either; and a value past its width in all places."""
    for width in (8, 64):
        yield from named("constant-past-%d-bits" % width, [
            case(beside(constraint("(= %s §%s)" % (decimal(5, width), decimal(value, width)))), TRUE, refused(8))
            for value in (2 ** 64 + 5, 2 ** 65, 10 ** MOST_DIGITS - 1)])
    yield from named("constant-past", [case(*texts, refused(8)) for texts in within("§(_ bv256 8)")])


def past_widths():
    """The width 64, one more, which is 4 at its numeral, and the width 0, which is 8 at the bracket."""
    for width in (64, 65):
        term = "(= (_ bv0 %s%d) (_ bv0 64))" % (MARK if width > 64 else "", width)
        yield case(beside(constraint(term)), TRUE, refused(4) if width > 64 else accepted(1, 3), name="constant-width-%d" % width)
    yield from named("constant-width-past", [case(*texts, refused(4)) for texts in within("(_ bv0 §65)")] + [
        case(beside(constraint("(= #x05 (_ bv5 §999999999))")), TRUE, refused(4))])
    yield from named("constant-width-0", [case(*texts, refused(8)) for texts in within("§(_ bv0 0)")] + [
        case(beside(constraint("§(_ bv0 0)")), TRUE, refused(8)), case(beside(constraint("(not §(_ bv1 0))")), TRUE, refused(8))])


def digits():
    """Twenty digits, one more, which is 4 at their word, and as many as a symbol may have and one more, which is the word's own 4."""
    for count in (MOST_DIGITS, MOST_DIGITS + 1, 62):
        marks = ("", MARK) if count > MOST_DIGITS else (MARK, "")
        term = "(= #x05 %s(_ %sbv%s 8))" % (*marks, "1" * count)
        yield case(beside(constraint(term)), TRUE, refused(4 if count > MOST_DIGITS else 8), name="digits-%d" % count)
    yield case(beside(constraint("(= #x05 (_ §bv%s 8))" % ("1" * 63))), TRUE, refused(4), name="digits-of-symbol")
    yield case(beside(constraint("(= (bvnot #x7538dcfb7617ffff) (_ bv%d 64))" % 10 ** 19)), TRUE, accepted(1, 4), name="digits-that-fit")
    yield from named("digits-past", [case(*texts, refused(4)) for texts in within("(_ §bv%s 8)" % ("1" * 21))])


# Names

def names():
    """A name like the second word of a constant is a name like another: of a `define-fun` without and with an argument, of a variable, of a function."""
    constant = script(defined("bv5", "", BYTE, "#x07"), function(), constraint("(= bv5 #x07)"), constraint("(distinct bv5 (_ bv5 8))"))
    called = script(defined("bv5", X, BYTE, "(bvadd x (_ bv5 8))"), function(), constraint("(= (bv5 #x02) (_ bv7 8))"), constraint("(= (bv5 (_ bv5 8)) #x0A)"))
    variable = beside("(declare-var bv5 (_ BitVec 8))", constraint("(= (bvadd bv5 (_ bv5 8)) #x0C)"))
    yield from named("named", [
        case(constant, TRUE, accepted(1, 8)), case(called, TRUE, accepted(1, 14)), case(variable, TRUE, accepted(1, 5), points=[7]),
        case(script(function("bv5"), constraint("bv5")), response(defined("bv5")), accepted(1, 2)),
        case(script(defined("bv5", X, BYTE, "x"), function(), constraint("(= #x05 (bv5 §8))")), TRUE, refused(8)),
        case(script(defined("bv5", X, BYTE, "x"), function(), constraint("(= #x05 §bv5)")), TRUE, refused(8)),
        case(beside(variables(BYTE), constraint("(= v0 (bvnot §bv5))")), TRUE, refused(7)), case(beside(constraint("(= #x05 (§bv5 #x05))")), TRUE, refused(7)),
        case(beside(defined("¤bv5"), "(declare-var §bv5 Bool)"), TRUE, refused(7))])


def names_in_grammars():
    """An argument of that name, and a non-terminal of that name, beside the constant."""
    header = "(bv5 (_ BitVec 8))"
    yield from named("argument", judged("bv5 (bvadd A (_ bv5 8))", ["bv5", "(bvadd bv5 #x05)", "§(bvadd bv5 bv5)", "§(bvadd (_ bv5 8) (_ bv5 8))"], header, BYTE))
    yield from named("argument-pattern", judged("(Variable (_ BitVec 8)) (bvadd A (_ bv5 8))", ["bv5", "(bvadd bv5 (_ bv5 8))", "§(_ bv5 8)"], header, BYTE))
    yield from named("constant-pattern", judged("(Constant (_ BitVec 8))", ["(_ bv5 8)", "§bv5"], header, BYTE))
    grammar = "(synth-fun f (%s) (_ BitVec 8) ((bv5 (_ BitVec 8))) ((bv5 (_ BitVec 8) (x (bvadd bv5 (_ bv5 8))))))" % X
    yield from named("non-terminal", [
        case(script(grammar), response(defined("f", X, BYTE, body)), underived(0) if MARK in body else accepted())
        for body in ("x", "(bvadd x (_ bv5 8))", "(bvadd (bvadd x #x05) #b00000101)", "§(bvadd x x)", "§(_ bv5 8)")])


# Order

def orders():
    """Two faults in one command: 6, 5, 4, 7 and 8 in this order, and of two of one number the first."""
    long = "bv" + "1" * 21
    yield from named("constant-order", [
        case(beside("§" + constraint("(= (_ bv5) (_ bv 8))")), TRUE, refused(6)), case(beside("§" + constraint("(= (_ bv5) (_ %s 8))" % long)), TRUE, refused(5)),
        case(beside(constraint("(= y (_ §%s 8))" % long)), TRUE, refused(4)), case(beside(constraint("(= (_ bv256 8) §y)")), TRUE, refused(7)),
        case(beside(constraint("(= (_ bv0 §65) (_ %s 8))" % long)), TRUE, refused(4)), case(beside(constraint("(= (_ bv0 0) (_ §%s 0))" % long)), TRUE, refused(4)),
        case(beside(constraint("(and (= #x05 (_ §%s 8))%s)" % (long, " true" * 255))), TRUE, refused(4)),
        case(beside(constraint("(and%s §true (= #x05 (_ %s 8)))" % (" true" * 255, long))), TRUE, refused(4)),
        case(beside(constraint("(distinct%s §(_ %s 8))" % (" #x00" * 255, long))), TRUE, refused(4))])
    yield from named("constant-header", [
        case(beside(), response(defined("g", body="(= #x05 (_ §%s 8))" % long)), refused(4)), case(beside(), response(defined("§g", body="(_ bv256 8)")), refused(12))])


def all_constants():
    """Every case of this file."""
    for some in (
            spellings, widths, patterns, in_all_places, nodes, forms, sorts, like_pairs, values, past_values, past_widths, digits, names, names_in_grammars, orders):
        yield from some()
