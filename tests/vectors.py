#!/usr/bin/env python3
"""The records of the program `test_vectors` and what it must write of them: tests/vectors.py [--check]

It takes the readings of readings.jsonl, texts of its own whose words decide, and the cases of cases.py, operands.py, constants.py, signed.py, assumed.py,
located.py, declared.py, dead.py, least.py, weights.py and limits.py, and writes crates/test_vectors/stdin and crates/test_vectors/stdout; with --check it only says whether these two files are what it would
write, and replays every list of rules in them (derivations.py), which is the least derivation by a search of its own. What the words of a text are is said by words.py, which is held to each reading whose answer arises
from words. The checker's answer is that of the reading, or is known from how a text is made; the list shown is the least derivation that there is, with its total weight. The end, the line
and the column that an answer carries are computed by words.py from its text and its place, and held to what the readings and the cases of located.py say of them.
The last records are names that are nearly known words (nearly.py).
"""
import functools
import json
import os
import sys

sys.dont_write_bytecode = True
import derivations
import words
from assumed import all_assumed
from cases import AREA, Case, all_cases
from constants import all_constants
from dead import all_dead
from declared import all_declared
from least import all_least
from limits import all_limits
from located import all_located
from nearly import all_nearly
from operands import all_operands
from signed import all_signed
from weights import all_weights
from words import RESPONSE, SCRIPT

HERE = os.path.dirname(os.path.abspath(__file__))
CRATE = os.path.join(HERE, "..", "crates", "test_vectors")
MOST_INPUT = 5000000
READINGS_FROM_WORDS = 49

# Answers to texts that both pass, and those of them that show derivations.
JUDGED = (0, 13, 14, 15, 16)
SHOWING = (0, 14, 15)

# "Answers 2 to 9, 12 and 13 carry the new numbers; .. the other answers carry 0." (E6)
CARRYING = (2, 3, 4, 5, 6, 7, 8, 9, 12, 13)

# How many functions a script may have, and so how many totals an answer.
FUNCTIONS = 8


# Readings

def readings():
    """Each reading, with its two texts as bytes."""
    with open(os.path.join(HERE, "readings.jsonl"), encoding="utf-8") as lines:
        for line in lines:
            reading = json.loads(line)
            yield reading, bytes.fromhex(reading["script"]), bytes.fromhex(reading["response"])


def answer_from_words(script, response, answer):
    """The number, text and place that the words of the two texts give to a reading; None where its answer does not arise from words.

    The answer is looked at only to know how far the checker came: to the lengths of points and area, to the script's commands, or further.
    """
    of_script, of_response = words.read(script, SCRIPT), words.read(response, RESPONSE)
    if of_script.number == 1:
        return (1, 0, of_script.place)
    if of_response.number == 1:
        return (1, 1, of_response.place)
    if answer[0] == 1:
        return None
    if of_script.number:
        return (of_script.number, 0, of_script.place)
    if of_response.number and answer[1] != 0:
        return (of_response.number, 1, of_response.place)
    return None


def check_readings():
    """Stops unless words.py gives each reading that arises from words its number, text and place."""
    count = 0
    for reading, script, response in readings():
        answer = reading["answer"]
        found = answer_from_words(script, response, answer)
        is_of_words = answer[0] in (2, 3) or (answer[0] == 1 and answer[1] < 2)
        expected = tuple(answer[:3]) if found or is_of_words else None
        if found != expected:
            sys.exit("reading %s: words.py has %s, the reading %s" % (reading["item"], found, answer))
        count += found is not None
    if count != READINGS_FROM_WORDS:
        sys.exit("%d readings arise from words, and %d are expected" % (count, READINGS_FROM_WORDS))


# Texts

def named(name, texts):
    """Texts under one name, numbered from 1."""
    return [("%s-%d" % (name, i), text) for i, text in enumerate(texts, 1)]


def texts_of_bytes():
    """Each byte alone, between two letters, and past the beginning of a word of each form."""
    places = [("alone", b"", b""), ("between", b"a", b"b"), ("numeral", b"1", b""), ("hash", b"#", b"1"), ("hex", b"#x1", b""), ("binary", b"#b1", b"")]
    for b in range(256):
        for name, before, after in places:
            yield "byte-%d-%s" % (b, name), before + bytes([b]) + after


def texts_of_forms():
    """Words at the size that their form has and one past it, and words that are nearly of a form."""
    yield from named("numeral", [
        b"0", b"00", b"01", b"9", b"1" * 9, b"1" * 10, b"9" * 9, b"9" * 10, b"0" * 9, b"0123456789", b"1" * 9 + b"a", b"1" * 10 + b"a",
        b"1" * 5000])
    yield from named("hex", [
        b"#x", b"#X1", b"#xg", b"#x0", b"#xaF", b"#x" + b"f" * 16, b"#x" + b"0" * 16, b"#x" + b"F" * 17, b"#x" + b"0" * 17,
        b"#x" + b"0" * 17 + b"g", b"#x0123456789abcdef", b"#x" + b"FEDCBA9876543210", b"x#1"])
    yield from named("binary", [
        b"#b", b"#B1", b"#b2", b"#b0", b"#b10", b"#b" + b"1" * 64, b"#b" + b"0" * 64, b"#b" + b"1" * 65, b"#b" + b"0" * 65,
        b"#b" + b"1" * 65 + b"2", b"#b1" + b"0" * 63, b"#", b"#o7"])
    yield from named("symbol", [
        b"a" * 64, b"a" * 65, b"-" * 64, b"-" * 65, b"a" * 65 + b"#", b"a" * 64 + b"#", b"1a", b"a1", b"~!@$%^&*_-+=<>.?/", b"a\xc3\xa9",
        b"a\x00"])
    yield from named("uncarried", [b'"', b"|", b":", b'""', b'"a b"', b"|a|", b":a", b"a:", b'a"', b"a|", b":" + b"a" * 65, b'"00', b":Weight", b":weight:", b":weigh", b":weights2", b":w", b'":weight"', b"|:weight|"])
    yield from named("keyword", [b":weights", b":weight", b":weight:weight", b":weights :weight", b"(:weight 1)", b"a:weight", b":weight;c", b":weight(", b"(:weights)"])


def texts_of_comments():
    """Comments ended by 10, by 13 and by the end, and `;` glued to a word."""
    every = bytes(b for b in range(256) if b not in (10, 13))
    yield from named("comment", [
        b";", b";;", b";\n", b";\r", b";\r\n", b"a;b\nc", b"a;b\rc", b"a;b", b"a ;b\n;c\rd", b"(;)\n)", b"(;)\r)", b"(;)", b"a;( \" | :\nb",
        b";" + every, b";" + every + b"\na", b";" + every + b"\ra", b";\n00", b";\r00", b"a\x0c;b\nc"])
    glued = (b"a", b"12", b"#x1", b"#b1", b"(", b")", b'"a', b":a", b"00")
    yield from named("glued", [w + b";" + rest for w in glued for rest in (b"", b"b", b"b\nc")])
    yield from named("white", [b" ", b"\t\n\r ", b"a\tb\nc\rd e", b" a ", b"a\x0bb", b"\x0c", b"a\x00b", b"a\xa0b"])


def texts_of_brackets():
    """Lists, brackets closed too often or never, and refusals within lists."""
    yield from named("bracket", [
        b"", b"(", b")", b"()", b")(", b"(()", b"())", b"())(", b"((((", b"))))", b"(a)b)", b"(a(b)c", b"a)b", b"(a)(b)(c)",
        b"(a (b c) (d (e) f) g) h", b"((((a))))", b"(()(()()))", b"(a (b 00", b"(a (b) :c)", b"(a (b c) 1111111111)", b"(a)) 00", b"(00))",
        b"(()())(#x1F 7 #b01)", b"fail", b"infeasible"])
    yield from named("nesting", [
        b"(" * 64 + b")" * 64, b"(" * 65 + b")" * 65, b"(" * 64, b"(" * 65, b"(" * 64 + b")" * 65, b"(" * 63 + b"()()" + b")" * 63,
        b"(" * 63 + b"(a)((b))" + b")" * 63, b"(" * 64 + b"00", b"(" * 64 + b" a;(\n" + b")" * 64, b"()" * 65])


def balanced(pieces):
    """Pieces without the brackets closed too often, and with those that close the rest."""
    kept, depth = [], 0
    for piece in pieces:
        after = depth if piece.startswith(b";") else depth + piece.count(b"(") - piece.count(b")")
        if after >= 0:
            kept.append(piece)
            depth = after
    return kept + [b")"] * depth


def made_up(count):
    """Texts put together from pieces by a fixed row of numbers: one in four has pieces of faulty words too, two in three have balanced brackets."""
    sound = [
        b"(", b"(", b")", b")", b" ", b"\n", b"\t", b";c\n", b";(c\r", b"a ", b"bvadd ", b"0 ", b"7 ", b"12 ", b"#xaB ", b"#b10 ", b"x-1 ",
        b"(a)", b"(b c)"]
    faulty = [b"0", b"#x", b"f", b":k", b'"', b"\xff", b"1111111111"]
    state = 1
    for i in range(1, count + 1):
        choice = sound + faulty if i % 4 == 0 else sound
        pieces = []
        for _ in range(i % 40 + 1):
            state = (state * 6364136223846793005 + 1442695040888963407) % 2 ** 64
            pieces.append(choice[(state >> 33) % len(choice)])
        yield "made-up-%d" % i, b"".join(balanced(pieces) if i % 3 else pieces)


def texts_past_words(limits):
    """As many words as the limit allows, and then what is past it."""
    n = limits.words
    row = b"a " * n
    past = [
        ("", b""), ("-white", b" \n"), ("-comment", b";a"), ("-symbol", b"a"), ("-numeral", b"7"), ("-bad", b"00"), ("-long", b"1" * 10),
        ("-uncarried", b":x"), ("-open", b"("), ("-close", b")"), ("-comment-bad", b";a\n00")]
    for name, text in past:
        yield "words" + name, row + text
    yield "words-list", b"(" + b"a " * (n - 2) + b")"
    yield "words-list-past", b"(" + b"a " * (n - 1) + b")"
    yield "words-list-bad", b"(" + b"a " * (n - 1) + b"a00#)"
    yield "words-pairs", b"()" * (n // 2)
    yield "words-pairs-past", b"()" * (n // 2) + b"()"
    yield "words-deep", (b"(" * 63 + b"#x1" + b")" * 63 + b" 7") * (n // 128)
    yield "words-before-last", b"a " * (n - 1) + b"00"


def texts_past_bytes(limits):
    """As many bytes as the limit allows, and one more."""
    size = limits.bytes
    row = (b"a" * (size // limits.words - 1) + b" ") * limits.words
    yield "bytes-words", row
    yield "bytes-words-past", row + b"a"
    yield "bytes-comment", b"a;" + b"(" * (size - 2)
    yield "bytes-white", b" " * (size - 1) + b"a"
    yield "bytes-bad-past", b"00" + b" " * (size - 1)
    yield "bytes-long-word", b"a" * size
    yield "bytes-open", b"(" + b" " * (size - 1)


# Records

def answer_of_words(script, response):
    """The answer to texts of which no list is a command: what the words give, else 5 at the first word or at the end."""
    of_script, of_response = words.read(script, SCRIPT), words.read(response, RESPONSE)
    if of_script.number == 1:
        return (1, 0, of_script.place, 0, 0)
    if of_response.number == 1:
        return (1, 1, of_response.place, 0, 0)
    if of_script.number:
        return (of_script.number, 0, of_script.place, 0, 0)
    return (5, 0, of_script.rows[0][1] if of_script.rows else len(script), 0, 0)


def records_of_readings():
    """The readings, each with its answer and what that carries."""
    for reading, script, response in readings():
        answer, location = tuple(reading["answer"]), tuple(reading["end_line_column"])
        yield Case("reading-%s" % reading["item"], script, response, tuple(reading["points"]), reading["budget"], reading["area_len"], answer, location,
                   weights=tuple(reading["weights"]) if "weights" in reading else None)


def records_of_words():
    """Texts whose words alone decide."""
    texts = [("empty-script", b"", b"a"), ("empty-response", b"a", b"")]
    for some in (texts_of_bytes(), texts_of_forms(), texts_of_comments(), texts_of_brackets(), made_up(400)):
        texts += [(name, text, text) for name, text in some]
    for some in (texts_past_words, texts_past_bytes):
        texts += [(name, script, response) for (name, script), (_, response) in zip(some(SCRIPT), some(RESPONSE))]
    for name, script, response in texts:
        yield Case(name, script, response, (), 0, AREA, answer_of_words(script, response))


def records():
    """Each record as a case."""
    yield from records_of_readings()
    yield from records_of_words()
    yield from all_cases()
    yield from all_operands()
    yield from all_constants()
    yield from all_signed()
    yield from all_assumed()
    yield from all_located()
    yield from all_declared()
    yield from all_dead()
    yield from all_least()
    yield from all_weights()
    yield from all_limits()
    yield from all_nearly()


# What is to be written of them

def digest(reading):
    """FNV-1a of 64 bits, a step for each number of each row and its value."""
    found = 14695981039346656037
    for row, value in zip(reading.rows, reading.values):
        for n in row + (value,):
            found = ((found ^ n) * 1099511628211) % 2 ** 64
    return found


def report(text, limits):
    """What is to be written of a text."""
    reading = words.read(text, limits)
    count = len(reading.rows)
    if reading.number:
        outcome = "refused %d at %d after %d" % (reading.number, reading.place, count)
    else:
        outcome = "words %d" % count
    length = len(words.word_at(text, reading.place)) if reading.number else 0
    return "%s table %016x word %d" % (outcome, digest(reading), length)


@functools.lru_cache(maxsize=None)
def shown_lists(script, response):
    """The list of each function that two texts show, its least derivation, and the weight of each."""
    functions = list(zip(derivations.grammars(script), derivations.bodies(response)))
    lists = [derivations.least(grammar, body) for grammar, body in functions]
    return lists, [derivations.total(grammar, numbers or []) for (grammar, _), numbers in zip(functions, lists)]


def weights_of(record):
    """The total weight of each function of a record, 0 where no derivation is shown."""
    shown = record.answer[0] in SHOWING and record.area == AREA
    weights = shown_lists(record.script, record.response)[1] if shown else []
    found = tuple(weights + [0] * (FUNCTIONS - len(weights)))
    if record.weights not in (None, found):
        sys.exit("%s: the weights are %s, and the record says %s" % (record.name, found, record.weights))
    return found


def area_of(record):
    """What stands in the area of a record afterwards; it stops where the answer does not agree with the derivations that there are."""
    if record.area != AREA:
        return "unchanged"
    if record.answer[0] not in JUDGED:
        return "blank"
    lists, _ = shown_lists(record.script, record.response)
    without = [k for k, numbers in enumerate(lists) if numbers is None]
    if without[:1] != ([record.answer[3]] if record.answer[0] == 13 else []):
        sys.exit("%s: functions %s have no derivation, and the answer is %s" % (record.name, without, record.answer))
    if record.answer[0] not in SHOWING:
        return "blank"
    if record.shown not in (None, tuple(lists)):
        sys.exit("%s: the least lists are %s, and the record says %s" % (record.name, lists, record.shown))
    return "/".join(",".join(map(str, numbers)) for numbers in lists)


def location_of(record):
    """The end, the line and the column that the answer of a record carries; it stops where the record says that they are others."""
    number, text, place = record.answer[:3]
    found = words.location((record.script, record.response)[text], place) if number in CARRYING else (0, 0, 0)
    if record.location not in (None, found):
        sys.exit("%s: words.py has %s, the record %s" % (record.name, found, record.location))
    return found


def given_line(record):
    """The line of standard input for a record."""
    points = ",".join("%x" % n for n in record.points)
    texts = [text.hex() or "-" for text in (record.script, record.response)]
    return "%s %s %s %s %x %x\n" % (record.name, texts[0], texts[1], points or "-", record.budget, record.area)


def wanted_line(record):
    """The line that is to be written of a record."""
    texts = "script %s response %s" % (report(record.script, SCRIPT), report(record.response, RESPONSE))
    numbers = record.answer + location_of(record) + weights_of(record)
    return "%s %s answer %s area %s\n" % (record.name, texts, " ".join(map(str, numbers)), area_of(record))


def files():
    """What the two files have to hold."""
    given = [given_line(record) for record in records()]
    if len({line.split()[0] for line in given}) != len(given):
        sys.exit("two records have one name")
    if sum(map(len, given)) > MOST_INPUT:
        sys.exit("the records have %d bytes, more than %d" % (sum(map(len, given)), MOST_INPUT))
    return {"stdin": "".join(given), "stdout": "".join(map(wanted_line, records()))}


# What is stored

def check_lists():
    """Stops unless every list that is stored is a derivation, by a replay that shares nothing with the search; answers how many were replayed."""
    path, count = os.path.join(CRATE, "stdout"), 0
    with open(path, encoding="ascii") as lines:
        for record, line in zip(records(), lines):
            area = line.split()[-1]
            if record.answer[0] in SHOWING and record.area == AREA:
                lists = [[int(n) for n in part.split(",")] for part in area.split("/")]
                fault = derivations.fault_of_lists(record.script, record.response, lists)
                if fault:
                    sys.exit("%s: %s" % (record.name, fault))
                count += len(lists)
    return count


def is_stored(name, text):
    """Whether a file of the crate holds a text."""
    path = os.path.join(CRATE, name)
    return os.path.exists(path) and open(path, encoding="ascii", newline="").read() == text


def check():
    """Says whether the two files are what would be written, and whether every list that they show is a derivation."""
    other = [name for name, text in files().items() if not is_stored(name, text)]
    for name in other:
        print("crates/test_vectors/%s is not what tests/vectors.py writes" % name)
    if not other:
        print("%d lists of rules are derivations" % check_lists())
    return 1 if other else 0


def main():
    """Writes the two files, or checks them."""
    check_readings()
    if sys.argv[1:] == ["--check"]:
        sys.exit(check())
    for name, text in files().items():
        with open(os.path.join(CRATE, name), "w", encoding="ascii", newline="") as out:
            out.write(text)


main()
