#!/usr/bin/env python3
"""Whether both tables of slots are as tools/slots writes them, and whether it tells two words that share a slot: tests/slots.py

It prints what is not so; the exit status is 1 if anything is.
"""
import importlib.machinery
import importlib.util
import itertools
import os
import re
import string
import subprocess
import sys

sys.dont_write_bytecode = True
PATH = os.path.join(os.path.dirname(os.path.abspath(__file__)), "..", "tools", "slots")


def loaded():
    """The tool as a module."""
    loader = importlib.machinery.SourceFileLoader("tools_slots", PATH)
    module = importlib.util.module_from_spec(importlib.util.spec_from_loader(loader.name, loader))
    loader.exec_module(module)
    return module


TOOL = loaded()
NUMBERS = TOOL.numbers(TOOL.text_of(TOOL.SEARCH))

# The known words: those of the reader, and the operators.
TABLES = [TOOL.words_of(TOOL.text_of(path)) for path in TOOL.TABLES]
KNOWN = TABLES[0] + TABLES[1]


def neighbour(word):
    """A word that is not known and has the slot of a known one: it is spelled alike but for the last three letters, or has three."""
    others = (word[:-3] + "".join(letters) for letters in itertools.product(string.ascii_lowercase, repeat=3))
    return next(other for other in others if other not in KNOWN and TOOL.slot_of(other, *NUMBERS) == TOOL.slot_of(word, *NUMBERS))


def said(*words):
    """The exit status of the tool, and what it prints."""
    done = subprocess.run([PATH, *words], capture_output=True, text=True)
    return done.returncode, done.stdout + done.stderr


def faults():
    """What is not as it should be."""
    if said("--check") != (0, ""):
        yield "tools/slots --check: %d, %s" % said("--check")
    status, text = said("--numbers")
    found = re.fullmatch(r"first (\d+), factor (\d+)\n", text)
    if status or not found:
        yield "tools/slots --numbers finds none: %s" % text
    elif TOOL.shared(dict.fromkeys(KNOWN + TOOL.COMING), (int(found[1]), int(found[2]), NUMBERS[2])):
        yield "the numbers that tools/slots --numbers finds let two words share a slot: %s" % text
    pair = ("bvand", neighbour("bvand"))
    if TOOL.shared(["not", pair[0], "or", pair[1]], NUMBERS) != pair:
        yield "tools/slots does not tell that %s and %s share a slot" % pair
    if TOOL.shared(pair, (*TOOL.search(pair, NUMBERS[2]), NUMBERS[2])):
        yield "tools/slots finds no numbers by which %s and %s have slots of their own" % pair
    for path in TOOL.TABLES:
        text = TOOL.text_of(path)
        if TOOL.with_table(text.replace("\\x1c", "\\x1b"), NUMBERS) != text:
            yield "tools/slots does not put a wrong number of %s right" % os.path.relpath(path)


def main():
    """Prints each fault."""
    found = list(faults())
    for fault in found:
        print(fault)
    return 1 if found else 0


if __name__ == "__main__":
    sys.exit(main())
