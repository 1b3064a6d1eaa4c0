"""Cases of ends, lines and columns (request E6): places at a text's end, bytes that end no line, ends of words, places far down and far to the right, refusals on
later lines of either text, and answers that carry 0. Each case says the line and the column of its place and the word there, whose length leads to its end, as
they are read off the text."""
from cases import (
    TRUE, accepted, bad_points, beside, bits, case, constraint, defined, ended_at, false_at, function, named, refused, script, too_long, underived,
    variables)

MOST_RESPONSE, MOST_POINTS = 8192, 1024

# "the other answers carry 0"
NOTHING = (0, 0, 0)


def at(line, column, word, one):
    """A case whose place has a line, a column and a word; the word is empty where none starts there."""
    return one._replace(location=(one.answer[2] + len(word), line, column))


def lines(*some):
    """A text of lines, each ended by byte 10."""
    return "".join(line + "\n" for line in some)


def in_lines(*commands):
    """A script in lines, whose commands begin on the fifth."""
    return lines("(set-logic BV)", "(synth-fun f () Bool", "  ((A Bool))", "  ((A Bool (true (not A)))))", *commands, "(check-synth)")


def of_script(number, text, line, column, word=""):
    """A script that is refused at its mark."""
    return at(line, column, word, case(text, TRUE, refused(number)))


def of_response(number, text, line, column, word=""):
    """A response that is refused at its mark; the script has lines too."""
    return at(line, column, word, case(in_lines(), text, refused(number)))


# Places at the end

def ends():
    """Texts that end early or leave a bracket open: "a place at the text's end has the line and column after the last byte"."""
    yield from named("located-end", [
        of_script(5, "(set-logic BV)§", 1, 15), of_script(5, "(set-logic BV) ;c§", 1, 18), of_script(5, "(set-logic\nBV)§", 2, 4),
        of_script(3, "(set-logic\nBV§", 2, 3), of_response(5, "; nothing§", 1, 10), of_response(3, "((define-fun f ()\n Bool true)§", 2, 12)])
    yield from named("located-end-behind-10", [
        of_script(5, "(set-logic BV)\n§", 2, 1), of_script(5, "(set-logic BV)\n\n§", 3, 1), of_script(5, "(set-logic BV);c\n§", 2, 1), of_script(5, "\n§", 2, 1),
        of_script(3, "(set-logic\nBV\n§", 3, 1), of_response(5, "; nothing\n§", 2, 1), of_response(3, "((define-fun f ()\n Bool true)\n§", 3, 1)])
    yield from named("located-end-behind-13", [
        of_script(5, "(set-logic BV)\r§", 1, 16), of_script(5, "(set-logic BV)\n\r§", 2, 2), of_script(5, "(set-logic BV)\r\n§", 2, 1),
        of_response(3, "(\r§", 1, 3)])
    yield of_script(5, "§", 1, 1)._replace(name="located-empty-script")
    yield of_response(5, "§", 1, 1)._replace(name="located-empty-response")


# Bytes before the place

def before():
    """Bytes before the place: "a line ending at byte 10 only"; any other byte is a column, in a comment too."""
    yield from named("located-behind-10", [
        of_script(2, "\n§00", 2, 1, "00"), of_script(2, "\n\n\n§00", 4, 1, "00"), of_script(2, ";c\n§00", 2, 1, "00"),
        of_script(5, "(set-logic BV)\n§(foo)", 2, 1, "("), of_response(2, "(\n§00)", 2, 1, "00")])
    yield from named("located-behind-13", [
        of_script(2, "\r§00", 1, 2, "00"), of_script(2, "(set-logic\r\rBV)\r§00", 1, 17, "00"), of_script(2, ";c\r§00", 1, 4, "00"),
        of_script(2, "\r\n§00", 2, 1, "00"), of_script(2, "\n\r§00", 2, 2, "00"), of_script(2, ";c\n;d\r §00", 2, 5, "00"),
        of_response(2, "(\r\n\r§00)", 2, 2, "00")])
    yield from named("located-behind-tab", [
        of_script(2, "\t§00", 1, 2, "00"), of_script(2, "\n \t\t§00", 2, 4, "00"), of_response(2, "(\t§00)", 1, 3, "00")])
    yield from named("located-behind-above-127", [
        of_script(2, ";\xc3\xa9\r§00", 1, 5, "00"), of_script(2, ";\xff\n§00", 2, 1, "00"), of_script(2, ";\xe2\x80\xa8\r\t§00", 1, 7, "00"),
        of_response(7, "((define-fun f () Bool;\xe9\xe8\r§x))", 1, 27, "x")])
    yield of_script(2, ";\x00\x0b\x0c\x1c\x1d\x1e\x85\r§00", 1, 10, "00")._replace(name="located-behind-controls")


def far():
    """Places far down and far to the right."""
    yield from named("located-far", [
        of_script(2, "\n" * 1999 + "§00", 2000, 1, "00"), of_script(2, " " * 1999 + "§00", 1, 2000, "00"),
        of_script(2, "\n" * 255 + " " * 255 + "§00", 256, 256, "00"), of_response(2, "(" + "\n" * 299 + "§00)", 300, 1, "00"),
        of_response(5, "\n" * MOST_RESPONSE + "§", MOST_RESPONSE + 1, 1)])


# Ends

def long_words():
    """Words past their size: the end is that of the whole word."""
    yield from named("located-long-word", [
        of_script(4, "§%s%s" % (word, behind), 1, 1, word)
        for word in ("a" * 65, "a" * 70, "1" * 10, "1" * 300, "#x" + "0" * 17, "#b" + "0" * 65) for behind in ("", "\n")])
    long = "a" * 70
    yield from named("located-long-word-inside", [
        of_script(4, in_lines("(constraint §%s)" % long), 5, 13, long), of_response(4, lines("((define-fun f () Bool", "§%s))" % long), 2, 1, long)])


def faulty_words():
    """Words that are refused for their bytes, words that are not carried, and what may stand behind a word."""
    bad = ("00", "1a", "#", "#xg", "a'b", "\xc3\xa9", "\xff", "\x00\x0b\x0c", "\x85\xa0", "a" * 300 + "'", "\xe9" * 300)
    yield from named("located-bad-word", [of_script(2, "§" + word, 1, 1, word) for word in bad])
    yield from named("located-uncarried-word", [
        of_script(6, "§" + word + behind, 1, 1, word) for word, behind in ((":" + "k" * 70, ""), ("\"a", " b\""), ("|a", "\nb|"), ("\"", "(a)\""))])
    yield from named("located-word-end", [
        of_script(2, "§00" + behind, 1, 1, "00") for behind in ("", "\n", "\r", "\t", " ", ";c", "(", ")", "\n00", "\r00")])


def brackets():
    """The word at a bracket is the bracket: one closed too often, and one at which a list begins."""
    yield from named("located-closed", [
        of_script(3, "§)", 1, 1, ")"), of_script(3, "§))", 1, 1, ")"), of_script(3, "(set-logic BV)§)", 1, 15, ")"),
        of_script(3, in_lines("(constraint true)§)"), 5, 18, ")"), of_response(3, "()§)", 1, 3, ")"), of_response(3, lines(TRUE, "§)"), 2, 1, ")")])
    yield from named("located-opened", [
        of_script(5, "(set-logic BV)§(foo)", 1, 15, "("), of_script(5, "§((set-logic) BV)", 1, 1, "("), of_script(4, "(" * 64 + "§((a))", 1, 65, "("),
        of_script(5, in_lines("  §(foo (bar))"), 5, 3, "("), of_response(5, "(§(foo))", 1, 2, "("), of_response(5, lines("(", "\t§(foo)", ")"), 2, 2, "(")])


# Refusals on later lines

def refused_scripts():
    """Refusals of a script behind its fourth line, by their number: its lines, and the line, the column and the word of the place."""
    grammar = "(synth-fun g () Bool ((B Bool))"
    return {
        2: [(["(constraint §00)"], 5, 13, "00")],
        3: [(["", "§)"], 6, 1, ")")],
        4: [(["(declare-var v", "  (_ BitVec §65))"], 6, 13, "65"), (["(constraint", "(= #x0 (_ §bv%s 4)))" % ("1" * 21)], 6, 11, "bv" + "1" * 21)],
        5: [(["", " §foo"], 6, 2, "foo"), (["§(constraint", "(true))"], 5, 1, "(")],
        6: [(["§(define-sort", "B () Bool)"], 5, 1, "("), (["(constraint", "§\"x\")"], 6, 1, "\"x\"")],
        7: [(["(constraint", "(not §unknown))"], 6, 6, "unknown"), (["(declare-var", "\t§and Bool)"], 6, 2, "and")],
        8: [(["(constraint", "", "§#x00)"], 7, 1, "#x00"), (["(declare-var x", " §(_ BitVec", "0))"], 6, 2, "(")],
        9: [
            ([grammar, "((B Bool (true §#x00))))"], 6, 16, "#x00"), ([grammar, "((B Bool (", "§))))"], 7, 1, ")"),
            ([grammar, "(", " (§C Bool (true))))"], 7, 3, "C")],
    }


def refused_responses():
    """Refusals of a response behind its first line, by their number, likewise."""
    header = "(define-fun f () Bool"
    return {
        2: [(["(", header, "§#xg))"], 3, 1, "#xg")],
        3: [([TRUE, "", "  §)"], 3, 3, ")")],
        4: [(["(", header, " §1234567890))"], 3, 2, "1234567890")],
        5: [(["(", "", "§(foo))"], 3, 1, "("), ([TRUE, "§true"], 2, 1, "true")],
        6: [(["(", "§" + header, "(let ((a true)) a)))"], 2, 1, "("), (["(error", "§\"no\")"], 2, 1, "\"no\"")],
        7: [(["(", header, "(not §other)))"], 3, 6, "other")],
        8: [(["(", header, "(or true", "§(not #x00))))"], 4, 1, "("), (["(", header, "§5))"], 3, 1, "5")],
        12: [
            (["((define-fun", "§g () Bool true))"], 2, 1, "g"), (["(", "(define-fun f () §(_ BitVec 8)", "#x00))"], 2, 18, "("), (["(", "", " §)"], 3, 2, ")"),
            (["(", defined(), "", "§(define-fun g () Bool true))"], 4, 1, "(")],
    }


def refused_in_lines():
    """Refusals of either text on later lines, and bodies that have no derivation."""
    for number, some in refused_scripts().items():
        yield from named("located-script-%d" % number, [of_script(number, in_lines(*commands), *place) for commands, *place in some])
    for number, some in refused_responses().items():
        yield from named("located-response-%d" % number, [of_response(number, lines(*bodies), *place) for bodies, *place in some])
    one, two = in_lines(), script(function(), function("g", "", bits(8), "#x00"))
    second = "(define-fun g () (_ BitVec 8)"
    yield from named("located-response-13", [
        at(line, column, word, case(given, lines(*bodies), underived(number))) for given, number, bodies, line, column, word in (
            (one, 0, ["(", "(define-fun f () Bool", "  §false))"], 3, 3, "false"), (one, 0, ["((define-fun f () Bool", "§(and true", "true)))"], 2, 1, "("),
            (two, 1, ["(", defined(), second, "", "\t§(_ bv1 8)))"], 5, 2, "("), (two, 1, ["(", defined() + second, "§#b00000001))"], 3, 1, "#b00000001"))])


def other_text():
    """A place in one text, where the other has its lines elsewhere: the lines are those of the text that the answer speaks of."""
    yield at(1, 24, "x", case("\n" * 200 + beside(), "((define-fun f () Bool §x))", refused(7)))._replace(name="located-script-in-lines")
    yield at(1, 27, "x", case("(set-logic BV)(constraint §x)", "\n" * 200 + TRUE, refused(7)))._replace(name="located-response-in-lines")
    yield at(3, 1, "00", case(";\n\n§00", "00", refused(2)))._replace(name="located-both-faulty")


# Answers that carry 0

def carrying_nothing():
    """The answers that carry 0, where a word starts at the place that they name, or at the start of a text."""
    constrained = in_lines(variables("Bool"), constraint("v0"))
    body = lines("(", defined(), ")")
    cases = {
        "accepted": case(constrained, body, accepted(2, 2), points=[1, 1]),
        "points-too-long": case(constrained, body, too_long(2, MOST_POINTS + 1), points=[1] * (MOST_POINTS + 1)),
        "area-of-14": case(constrained, body, too_long(3, 14), points=[1], area=14),
        "area-of-0": case(constrained, body, too_long(3, 0), points=[1], area=0),
        "fail": case(in_lines(), "fail", (10, 1, 0, 0, 0)),
        "fail-below": case(in_lines(), ";c\n\n fail\n", (10, 1, 0, 0, 0)),
        "infeasible": case(in_lines(), "infeasible\n", (11, 1, 0, 0, 0)),
        "infeasible-below": case(in_lines(), "\n\ninfeasible", (11, 1, 0, 0, 0)),
        "false": case(constrained, body, false_at(0, 0, 1), points=[0, 1]),
        "false-later": case(constrained, body, false_at(2, 0, 3), points=[1, 1, 0]),
        "ended": case(constrained, body, ended_at(0, 0, 0), points=[1], budget=0),
        "ended-later": case(constrained, body, ended_at(2, 0, 2), points=[1, 1, 1], budget=2),
        "bad-points": case(constrained, body, bad_points(0), points=[2]),
        "bad-points-later": case(constrained, body, bad_points(2), points=[0, 1, 2]),
    }
    for name, one in cases.items():
        yield one._replace(name="located-nowhere-" + name, location=NOTHING)


def all_located():
    """Every case of this file."""
    for some in (ends, before, far, long_words, faulty_words, brackets, refused_in_lines, other_text, carrying_nothing):
        yield from some()
