#!/usr/bin/env python3
"""The crate test_decided's tables of decided readings, of limits and of places: tests/decided.py [--check]

Writes crates/test_decided/proofs/Readings.antt from tests/readings.jsonl: the readings whose texts have no fault in a word and at most 200 printable bytes each, without
comments. Writes proofs/Limits.antt from crates/test_vectors: the records at the limits on commands, arguments, non-terminals, rules, nodes, operands, weights, and digits and
widths of constants, and one past them. Each is proved of the definitions by its answer's number and the index of the word at its place, of a script also by that of the word
of its second number, 0 for none. Writes proofs/Located.antt from the readings and the records on places (tests/located.py) whose answers carry an end, a line and a
column, of texts of at most 200 bytes, whatever these are. With --check it says whether these files are what it would write.
"""
import glob
import json
import os
import re
import sys

HERE = os.path.dirname(os.path.abspath(__file__))
CRATES = os.path.join(HERE, "..", "crates")
READINGS = os.path.join(HERE, "readings.jsonl")
RECORDS = os.path.join(CRATES, "test_vectors")
PROOFS = os.path.join(CRATES, "test_decided", "proofs")

LONGEST = 200                       # bytes of a reading's text that the prover computes with
LONGEST_AT_LIMIT = 1400             # and of a text at a limit
NESTING = 64
NOT_BY_WORDS = (1, 2, 3)            # answers that stand before the words are known
WITHOUT_WORD = (10, 11)             # answers whose place is 0 and no word
SCRIPT, RESPONSE = 0, 1             # the texts that an answer speaks of
NO_DERIVATION = 13

# The records at a limit on what a script or a response says, and one past it; the table of each kind is proved by itself, since the prover's steps have a limit too.
AT_LIMIT = re.compile(
    r"(functions|(?:defined-)?arguments|defined|variables|constraints|assumptions|non-terminals|rules|nodes-\w+|operands-(?:constraint|rule)|digits|constant-width|weight)-\d+")

# A word that is too large or of no form.
FAULTY = re.compile(r"[^ ()]{65,}|(?<![^ ()])[0-9]{10,}|#x[0-9a-fA-F]{17,}|#b[01]{65,}|(?<![^ ()])(#x|#b|#)(?=[ ()]|$)|#[^xb]")

# A byte that the table does not write: `:` stands in the two keywords alone.
UNWRITTEN = re.compile(rb'["\\|;]|:(?!weights?(?![^ ()]))|(?<=[^ ()]):')

# The crates whose definitions the prover unfolds, without the files that the reader does not reach and single definitions that clash or are not reached.
UNFOLDED = ("forest", "word_kinds", "words", "operators", "terms", "derivation", "lexemes", "shapes", "term_sorts", "written_sorts", "term_nodes", "names",
            "term_faults", "headers", "grammars", "script")
UNREACHED = {("terms", "Costs"), ("terms", "Values"), ("words", "Answers"), ("words", "Limits"), ("words", "Reading"), ("derivation", "Derivation"),
             ("derivation", "Answer"), ("script", "Outcome"), ("forest", "Tables"), ("words", "Table"), ("words", "Positions")}
LEFT_OUT = {"sorts_of", "operator_value", "enquired"}

# Definitions of one name in two files: the kinds of words are imported under another.
RENAMED = {("word_kinds", "Kinds", name): name + "_kind" for name in ("numeral", "literal", "symbol")}

# What the table's own definitions name.
NAMED = {"Rattle.forest.specs.Limits": ["allowed"],
         "Rattle.script.specs.Script": ["Known", "Read", "passed", "refused", "nothing_known"],
         "Rattle.script.specs.Response": ["Answered", "bodies", "refused as refusedBody"]}

READINGS_HEAD = "-- Decided readings of document 01 and of the requests, computed from the definitions: one table under one statement. A place is a word.\n"

LIMITS_HEAD = """\
-- "The limit itself passes; one more is refused": texts at the limits on commands, arguments, non-terminals, rules, nodes, operands, weights, and digits and widths of
-- constants and one past them, computed from the definitions. A place is a word.
"""

LOCATED = """\
-- Places of decided readings and of other texts, computed from the definitions: the end of the word there, the line and the column, one table under one statement.
use Prim.Native.Nat.{ℕ}
use Prim.Native.String.{String}
use mathlib.Core.List.{List, [], ◌∷◌, map}
use mathlib.Core.Path.{◌≡◌, refl}
use Rattle.forest.specs.Lists.{spelling}
use Rattle.words.specs.Positions.{column_of, end_of, in_last_line, line_of, lines_ended}
use Rattle.words.specs.Spans.{run_end, starts_from, word_end, word_starts}
use Rattle.words.specs.Words.{bytes_at, enquired}

-- A place of a text, and what is carried of it: an end, a line and a column.
pub record Place : Type 0 where
  pub text : String
  pub place : ℕ
  pub numbers : List ℕ

-- One row of the table.
abbrev pub row : (text : String) → (place end line column : ℕ) → Place
row t p e l c = record { text = t; place = p; numbers = e ∷ l ∷ c ∷ [] }

-- What the definitions say of a place of a text.
abbrev pub placed : (text : List ℕ) → (place : ℕ) → List ℕ
placed text place = end_of text place ∷ line_of text place ∷ column_of text place ∷ []

-- The places.
abbrev places : List Place
places =
    %s

-- The definitions say so of every one of them.
pub located : map (λ (p : Place). placed (spelling p.text) p.place) places ≡ map (λ (p : Place). p.numbers) places
unfolding bytes_at column_of end_of enquired in_last_line line_of lines_ended run_end starts_from word_end word_starts
located = refl
"""

# How a quoted text writes bytes that are no characters of their own.
QUOTED = {0: "\\0", 9: "\\t", 10: "\\n", 13: "\\r", 34: "\\\"", 92: "\\\\"}

HEAD = """\
use Prim.Native.Nat.{ℕ}
use Prim.Native.String.{String}
use mathlib.Core.List.{List, [], ◌∷◌, map}
use mathlib.Core.Path.{◌≡◌, refl}
use lib.ListN.{length}
use Rattle.forest.specs.Lists.{spelling}
"""

DEFINITIONS = """
-- A reading: a script, a response, and the number and the word of the refusal, of a script also the word of its second number; nothing where both pass.
pub record Reading : Type 0 where
  pub script : String
  pub response : String
  pub answer : List ℕ

-- One row of the table.
abbrev pub row : (script response : String) → List ℕ → Reading
row s r a = record { script = s; response = r; answer = a }

-- The answer to a response.
abbrev pub bodies_answer : Answered → List ℕ
bodies_answer (refusedBody number place) = number ∷ place ∷ []
bodies_answer (bodies ts) = []

-- The answer to a script, and where it passes to the response, a text.
abbrev pub both_answer : (response : List ℕ) → Read → List ℕ
both_answer response (refused number place second) = number ∷ place ∷ second ∷ []
both_answer response (passed k) =
    bodies_answer (answered allowed (length (words_of response)) k.defined (in_script_order k.functions) (items_of response))

-- What the definitions answer to two texts.
abbrev pub texts_answer : (script response : List ℕ) → List ℕ
texts_answer script response = both_answer response (read_all allowed (length (words_of script)) nothing_known (items_of script))

-- What they answer to a reading.
abbrev pub defined : Reading → List ℕ
defined reading = texts_answer (spelling reading.script) (spelling reading.response)

"""

TABLE = """
-- %s
abbrev %s : List Reading
%s =
"""

THEOREM = """
-- The definitions answer every one of them so.
pub %s : map defined %s ≡ map (λ (r : Reading). r.answer) %s
unfolding %s
%s = refl
"""


# Texts

def word_starts(text):
    """Where the words of a text without comments start."""
    return [found.start() for found in re.finditer(r"[()]|[^ ()]+", text)]


def plain(digits, longest):
    """A text from its bytes in hexadecimal; None where it is long, or has a byte that the table does not write."""
    text = bytes.fromhex(digits)
    if len(text) > longest or any(not 32 <= byte < 127 for byte in text) or UNWRITTEN.search(text):
        return None
    return text.decode()


def well_formed(text):
    """Whether no word of a text is at fault, by its bytes or its bracket."""
    depth = 0
    for byte in text:
        depth += (byte == "(") - (byte == ")")
        if not 0 <= depth <= NESTING:
            return False
    return depth == 0 and not FAULTY.search(text)


def word_at(text, offset):
    """The index of the word at an offset, their number for the text's end; None where there is none."""
    starts = word_starts(text)
    if offset in starts:
        return starts.index(offset)
    return len(starts) if offset == len(text) else None


# Readings

def case_of(script, response, answer, longest):
    """A case from its texts in hexadecimal and its answer, as (script, response, answer) in words; None where the table does not have it."""
    script, response = plain(script, longest), plain(response, longest)
    number, text, place, second = answer[:4]
    if script is None or number in NOT_BY_WORDS or not well_formed(script):
        return None
    if text == SCRIPT:
        word = word_at(script, place)
        return None if word is None else (script, "", (number, word, word_at(script, second) if second else 0))
    if response is None or not well_formed(response):
        return None
    if number in WITHOUT_WORD:
        return script, response, (number, 0)
    if text != RESPONSE or number == NO_DERIVATION:
        return script, response, None
    word = word_at(response, place)
    return None if word is None else (script, response, (number, word))


def readings():
    """The cases of the readings, each pair of texts once."""
    with open(READINGS, encoding="utf-8") as lines:
        given = [case_of(reading["script"], reading["response"], reading["answer"], LONGEST) for reading in map(json.loads, lines)]
    return list({case[:2]: case for case in given if case}.values())


# Records

def records():
    """The name, the script, the response and the answer of each record, the texts in hexadecimal."""
    with open(os.path.join(RECORDS, "stdin"), encoding="ascii") as given, open(os.path.join(RECORDS, "stdout"), encoding="ascii") as written:
        for record, line in zip(given, written):
            yield *record.split()[:3], [int(number) for number in line.split(" answer ")[1].split(" area ")[0].split()]


def limits():
    """The cases of the records at the limits, by their kind."""
    found = {}
    for name, script, response, answer in records():
        kind = AT_LIMIT.fullmatch(name)
        if kind:
            found.setdefault(kind.group(1), []).append(case_of(script, response, answer, LONGEST_AT_LIMIT))
    return found


# Places

def quoted(text):
    """The bytes of a text as a quoted text has them, in the layout of `rt fmt`: a character is the byte of its number."""
    return '"%s"' % "".join(QUOTED.get(byte) or (chr(byte) if chr(byte).isprintable() else "\\u{%x}" % byte) for byte in text)


def carrying():
    """The two texts of each reading and of each record on places, with the answer's text and place and what it carries."""
    with open(READINGS, encoding="utf-8") as lines:
        for reading in map(json.loads, lines):
            yield reading["script"], reading["response"], *reading["answer"][1:3], reading["end_line_column"]
    for name, script, response, answer in records():
        if name.startswith("located-"):
            yield script.strip("-"), response.strip("-"), *answer[1:3], answer[5:8]


def places():
    """The text, the place, the end, the line and the column of each answer that carries them, each place once."""
    found = {}
    for script, response, of, place, numbers in carrying():
        text = bytes.fromhex((script, response)[of]) if any(numbers) else None
        if text is not None and len(text) <= LONGEST:
            found[text, place] = numbers
    return [(quoted(text), place, *numbers) for (text, place), numbers in found.items()]


# The files

def in_use(text):
    """A file's text without the imported names that it does not use, as `rt tidy` leaves it."""
    body = re.sub(r'"(?:[^"\\]|\\.)*"', "", re.sub(r"^(?:use|--) .*$", "", text, flags=re.MULTILINE))
    words = set(re.split(r"[\s(){}.,;]+", body))

    def kept(found):
        names = [name for name in found[2].split(", ") if "◌" in name or name.split(" ")[-1] in words]
        return "use %s.{%s}\n" % (found[1], ", ".join(names)) if names else ""
    return re.sub(r"^use (\S+)\.\{(.*)\}\n", kept, text, flags=re.MULTILINE)


def definitions(crate):
    """The definitions of a crate that the prover unfolds: (module, names), each name as it is imported."""
    folder = os.path.join(CRATES, crate, "specs")
    for path in sorted(glob.glob(os.path.join(folder, "*.antt"))):
        module = os.path.basename(path)[:-5]
        if (crate, module) in UNREACHED:
            continue
        with open(path, encoding="utf-8") as file:
            names = re.findall(r"^unfoldable pub (\S+) :", file.read(), re.MULTILINE)
        yield module, [name for name in names if name not in LEFT_OUT]


def unfolded():
    """The imports of the file by their modules, and the names that the proof unfolds."""
    imports, names = {}, []
    for crate in UNFOLDED:
        for module, found in definitions(crate):
            shown = {name: RENAMED.get((crate, module, name), name) for name in found}
            names += shown.values()
            if shown:
                imports["Rattle.%s.specs.%s" % (crate, module)] = [name if name == other else "%s as %s" % (name, other) for name, other in shown.items()]
    for module, found in NAMED.items():
        imports[module] = imports.get(module, []) + found
    return imports, sorted(names)


def row(case):
    """A row of the table."""
    script, response, answer = case
    return 'row "%s" "%s" %s' % (script, response, "(%s ∷ [])" % " ∷ ".join(map(str, answer)) if answer else "[]")


def table(sentence, name, theorem, cases, names):
    """A table of cases, and the theorem on it."""
    rows = "    " + "\n    ∷ ".join([row(case) for case in cases] + ["[]"]) + "\n"
    return TABLE % (sentence, name, name) + rows + THEOREM % (theorem, name, name, " ".join(names), theorem)


def files():
    """The text of each file."""
    imports, names = unfolded()
    uses = "".join("use %s.{%s}\n" % (module, ", ".join(sorted(imports[module], key=lambda name: (name.lower(), name)))) for module in sorted(imports))
    weighted = [case for case in readings() if ":weight" in case[0] + case[1]]
    decided = table("The readings.", "readings", "decided", [case for case in readings() if case not in weighted], names)
    decided += table("Those with the words of request E13.", "weighted", "weighted_decided", weighted, names)
    held = "".join(table("The limit on %s." % kind.replace("-", " "), kind.replace("-", "_") + "_texts", kind.replace("-", "_") + "_held", cases, names) for kind, cases in limits().items())
    own = "use Rattle.test_decided.proofs.Readings.{Reading, bodies_answer, both_answer, defined, row, texts_answer}\n"
    located = LOCATED % "\n    ∷ ".join(["row %s %d %d %d %d" % place for place in places()] + ["[]"])
    written = {
        "Readings.antt": READINGS_HEAD + HEAD + uses + DEFINITIONS.rstrip("\n") + "\n" + decided, "Limits.antt": LIMITS_HEAD + HEAD + uses + own + held,
        "Located.antt": located}
    return {name: in_use(text) for name, text in written.items()}


def main():
    """Writes the files, or compares them with what stands there."""
    wrong = False
    for name, text in files().items():
        path = os.path.join(PROOFS, name)
        if "--check" in sys.argv[1:]:
            with open(path, encoding="utf-8") as file:
                wrong = wrong or file.read() != text
        else:
            with open(path, "w", encoding="utf-8") as file:
                file.write(text)
    return wrong


if __name__ == "__main__":
    sys.exit(main())
