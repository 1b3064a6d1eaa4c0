"""The words of both texts as document 01 has them: a second implementation, to which the reader of words is held.

It shares no code with the reader; only the layout of the word table (the numbers of kinds, the columns, `next`) is the reader's. It takes the
obvious way, so that it can be read beside the document: it splits the whole text, finds every fault of every word, and then takes the
least. The reader of words goes through a text once and stops at the first fault.
"""
import re
from collections import namedtuple

Limits = namedtuple("Limits", "bytes words nesting")
SCRIPT = Limits(65536, 8192, 64)
RESPONSE = Limits(8192, 2048, 64)

# What is read of a text: the answer's number (0: none), its place, and of the words passed the rows and the values.
Reading = namedtuple("Reading", "number place rows values")

# What a word is: the number of its fault (0: none), its kind, a literal's width, and its value.
Word = namedtuple("Word", "fault kind width value")
OPEN, CLOSE, NUMERAL, LITERAL, SYMBOL, KEYWORD = 1, 2, 3, 4, 5, 6
BAD_WORD, PAST_LIMIT, NOT_CARRIED = Word(2, 0, 0, 0), Word(4, 0, 0, 0), Word(6, 0, 0, 0)

# "The words for this leave answer 6" (E13).
KEYWORDS = (b":weights", b":weight")

PIECE = re.compile(
    rb"(?P<white>[\x09\x0a\x0d\x20]+)"
    rb"|(?P<comment>;[^\x0a\x0d]*)"
    rb"|(?P<word>[()]|[^\x09\x0a\x0d\x20();]+)")
NUMERAL_FORM = re.compile(rb"0|[1-9][0-9]*")
HEX_FORM = re.compile(rb"#x([0-9a-fA-F]+)")
BINARY_FORM = re.compile(rb"#b([01]+)")
SYMBOL_FORM = re.compile(rb"[A-Za-z~!@$%^&*_\-+=<>.?/][A-Za-z0-9~!@$%^&*_\-+=<>.?/]*")


def spans(text):
    """The start and the end of each word of a text."""
    return [m.span() for m in PIECE.finditer(text) if m.lastgroup == "word"]


def literal(digits, base, bits):
    """A literal of so many bits a digit."""
    width = bits * len(digits)
    return Word(0, LITERAL, width, int(digits, base)) if width <= 64 else PAST_LIMIT


def word(w):
    """What a word is by its own bytes."""
    if w == b"(":
        return Word(0, OPEN, 0, 0)
    if w == b")":
        return Word(0, CLOSE, 0, 0)
    if w in KEYWORDS:
        return Word(0, KEYWORD, 0, 0)
    if w[:1] in (b'"', b"|", b":"):
        return NOT_CARRIED
    if NUMERAL_FORM.fullmatch(w):
        return Word(0, NUMERAL, 0, int(w)) if len(w) <= 9 else PAST_LIMIT
    if HEX_FORM.fullmatch(w):
        return literal(w[2:], 16, 4)
    if BINARY_FORM.fullmatch(w):
        return literal(w[2:], 2, 1)
    if SYMBOL_FORM.fullmatch(w):
        return Word(0, SYMBOL, 0, 0) if len(w) <= 64 else PAST_LIMIT
    return BAD_WORD


def faults(text, limits):
    """Each fault of a text's words, as a pair of its place and its number."""
    depth = 0
    for n, (start, end) in enumerate(spans(text), 1):
        w = word(text[start:end])
        if w.fault:
            yield start, w.fault
        if n > limits.words:
            yield start, 4
        if w.kind == OPEN:
            depth += 1
            if depth > limits.nesting:
                yield start, 4
        if w.kind == CLOSE:
            if depth == 0:
                yield start, 3
            else:
                depth -= 1
    if depth > 0:
        yield len(text), 3


def nexts(kinds):
    """For each word the index past it, or past the list that it begins; past all words where that list is not closed among them."""
    found = [i + 1 for i in range(len(kinds))]
    begun = []
    for i, kind in enumerate(kinds):
        if kind == OPEN:
            begun.append(i)
        if kind == CLOSE:
            found[begun.pop()] = i + 1
    for i in begun:
        found[i] = len(kinds)
    return found


def read(text, limits):
    """What is read of a text: "least offset, at one offset the least number"."""
    if len(text) > limits.bytes:
        return Reading(1, len(text), [], [])
    place, number = min(faults(text, limits), default=(len(text), 0))
    passed = [(start, end) for start, end in spans(text) if start < place]
    words = [word(text[start:end]) for start, end in passed]
    after = nexts([w.kind for w in words])
    rows = [(w.kind, start, end, w.width, next_) for w, (start, end), next_ in zip(words, passed, after)]
    return Reading(number, place if number else 0, rows, [w.value for w in words])


def word_at(text, place):
    """The enquiry: the word that starts at a place, empty if none does."""
    for start, end in spans(text):
        if start == place:
            return text[start:end]
    return b""


def location(text, place):
    """The end of the word that starts at a place, which is the place itself where none does, and the place's line and column.

    "Its line and column, from 1, a line ending at byte 10 only"; "a place at the text's end has the line and column after the last byte" (E6).
    """
    lines = text[:place].split(b"\n")
    return place + len(word_at(text, place)), len(lines), len(lines[-1]) + 1
