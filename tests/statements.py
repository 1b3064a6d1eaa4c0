#!/usr/bin/env python3
"""Whether every name that docs/STATEMENTS.md gives exists: tests/statements.py

It takes each code span that names a definition or a theorem (`crate/specs/File: name, name`, `crate/specs/code/File: name`, `crate/proofs/File, File`), a function
(`crate::module::function, function`), a must-fail edit (`crate/label`), a file of the repository, or after "vector" a record of crates/test_vectors/stdin. It prints
each name that is not found, and each decided reading that no row has; the exit status is 1 if there is any.
"""
import glob
import os
import re
import sys

HERE = os.path.dirname(os.path.abspath(__file__))
ROOT = os.path.join(HERE, "..")
CRATES = os.path.join(ROOT, "crates")
PAPER = os.path.join(ROOT, "docs", "STATEMENTS.md")
RECORDS = os.path.join(CRATES, "test_vectors", "stdin")

SPAN = re.compile(r"`([^`]+)`")
FILES = re.compile(r"(\w+)/(specs|specs/code|proofs)/(\w+(?:, \w+)*)(?:: (.+))?")
FUNCTIONS = re.compile(r"(\w+)((?:::\w+)+)((?:, \w+)*)")
EDIT = re.compile(r"(\w+)/(\w+)")
FOLDERS = ("crates", "docs", "include", "rust", "tests", "tools")
ANY_CRATE = re.compile(r"crate(/|::)")
VECTORS = re.compile(r"\bvectors?,? ([^;|]*)")
RECORD = re.compile(r"`([a-z0-9-]+)`")
READING = re.compile(r"\b(R|E[0-9]+\.)([0-9]+)(?: to \1([0-9]+))?")


# What stands in crates/

def text_of(*parts):
    """The text of a file of crates/; None where there is none."""
    path = os.path.join(CRATES, *parts)
    if not os.path.isfile(path):
        return None
    with open(path, encoding="utf-8") as file:
        return file.read()


def declares(text, name):
    """Whether a text of definitions declares the name, as a definition, a type, a field or a case, or passes it on."""
    own = re.escape(name)
    declared = r"^ *(?:(?:unfoldable|abbrev|pub|ghost) +)*(?:(?:data|record) +%s(?![\w·-])|%s +:)" % (own, own)
    passed_on = r"^(?:unfoldable +)?pub use .*[{ ]%s[,}]" % own
    return re.search(declared + "|" + passed_on, text, re.MULTILINE) is not None


def has_function(text, name):
    """Whether a text of code has the function."""
    return re.search(r"\bfn %s\b" % re.escape(name), text) is not None


# What a span names

def missing_files(crate, folder, files, names):
    """The files of a span that are not there, and the names that its one file does not declare."""
    missing = []
    for file in files.split(", "):
        text = text_of(crate, folder, file + ".antt")
        where = "%s/%s/%s" % (crate, folder, file)
        if text is None:
            missing.append(where)
            continue
        wanted = names.split(", ") if names else []
        missing += ["%s: %s" % (where, name) for name in wanted if not declares(text, name)]
    return missing


def missing_functions(crate, path, more):
    """The functions of a span that are not there: those after the first stand in the same module; a module by itself may be named too."""
    parts = path.split("::")[1:]
    if not more and text_of(crate, "src", *parts[:-1], parts[-1] + ".rt") is not None:
        return []
    module = parts[:-1] or ["lib"]
    text = text_of(crate, "src", *module[:-1], module[-1] + ".rt")
    wanted = [parts[-1]] + [name for name in more.split(", ") if name]
    start = "::".join([crate] + parts[:-1])
    return ["%s::%s" % (start, name) for name in wanted if text is None or not has_function(text, name)]


def missing_edit(crate, label):
    """The must-fail edit of a span, where no file of the crate has it."""
    for path in glob.glob(os.path.join(CRATES, crate, "must-fail", "*.edit")):
        with open(path, encoding="utf-8") as file:
            if "edit: %s\n" % label in file:
                return []
    return ["%s/%s" % (crate, label)]


def missing_path(path):
    """A folder or file of the repository that a span names, where it is not there."""
    return [] if os.path.exists(os.path.join(ROOT, path)) else [path]


def missing_of(span):
    """The names of a span that are not found; none of a span that is of no form, or that only shows a form."""
    if ANY_CRATE.match(span):
        return []
    if span.split("/")[0] in FOLDERS:
        return missing_path(span)
    for form, missing in ((FILES, missing_files), (FUNCTIONS, missing_functions), (EDIT, missing_edit)):
        found = form.fullmatch(span)
        if found:
            return missing(*found.groups())
    return []


# Records and readings

def line_of(text, place):
    """The number of the line at a place of a text."""
    return text.count("\n", 0, place) + 1


def missing_records(text, names):
    """Each record that the text names after "vector" and that is not there, with its line."""
    for part in VECTORS.finditer(text):
        for found in RECORD.finditer(part.group(1)):
            if found.group(1) not in names:
                yield line_of(text, part.start()), "vector " + found.group(1)


def reading_of(name):
    """The reading that a record is, as the paper names it: R12 of document 01, E3.1 of a request."""
    item = name.partition("-")[2]
    return "R" + item if item.isdecimal() else item


def missing_readings(text, names):
    """Each reading that the text names and that is not there, with its line, and each that it does not name."""
    stored, named = [reading_of(name) for name in names if name.startswith("reading-")], set()
    for found in READING.finditer(text):
        kind, first, last = found.group(1), int(found.group(2)), int(found.group(3) or found.group(2))
        readings = ["%s%d" % (kind, n) for n in range(first, last + 1)]
        named.update(readings)
        yield from ((line_of(text, found.start()), reading) for reading in readings if reading not in stored)
    yield from ((line_of(text, len(text)), "no row has " + reading) for reading in stored if reading not in named)


def spans_of(text):
    """Each code span of a text with its line; a span may run on over a line's end."""
    for found in SPAN.finditer(text):
        yield line_of(text, found.start()), " ".join(found.group(1).split())


def main():
    """Prints each name that is not found, with its line."""
    with open(PAPER, encoding="utf-8") as file:
        text = file.read()
    with open(RECORDS, encoding="ascii") as lines:
        names = [line.split()[0] for line in lines]
    lost = [(line, name) for line, span in spans_of(text) for name in missing_of(span)]
    lost += [*missing_records(text, names), *missing_readings(text, names)]
    for line, name in lost:
        print("docs/STATEMENTS.md:%d: %s" % (line, name))
    return 1 if lost else 0


if __name__ == "__main__":
    sys.exit(main())
