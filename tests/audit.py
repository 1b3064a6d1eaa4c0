#!/usr/bin/env python3
"""Whether what an auditor reads is listed and closed: tests/audit.py [--write]

It follows the names in the statements of the theorems that docs/AUDIT.md names and in the contracts of the sold calls, through the definitions of
crates/*/specs to the types of crates/*/src. It prints each definition or type that is reached and that docs/AUDIT.md does not list, each definition of a
listed file that is not reached, each file of specs/ that is not listed, each import of a listed file from a file that is not listed before it, each theorem
that is not there or whose statement has a word of proofs/, and each line of docs/AUDIT.md with a wrong count or place; the exit status is 1 if there is any. With
--write it first writes the right counts and places into docs/AUDIT.md.
"""
import collections
import glob
import os
import re
import sys

HERE = os.path.dirname(os.path.abspath(__file__))
ROOT = os.path.join(HERE, "..")
PAPER = os.path.join(ROOT, "docs", "AUDIT.md")

# The calls that are sold, with the crates whose calls for C are, and how many steps are enough for the reader of words.
CHECKER = (("checker", "lib", ("check", "answer", "read")), ("checker", "stepping", ("step_list",)), ("checker_c", "lib", ()))
RUNNER = (("runner", "lib", ("run_steps",)), ("runner_c", "lib", ()))
READER = (("words", "lib", ("read_words", "word_at")), ("words", "positions", ("position", "end_of")), ("words_c", "lib", ()))
EVIDENCE = (("auditing", "lib", ("check_evidence",)), ("auditing_c", "lib", ()), ("filing", "lib", ("write_evidence",)))
READER_STEPS = 2

# The module in which the definitions find the types of src/.
DECLARED = "declared"
LIBRARY = re.compile(r"(Prim|mathlib|lib|Rattle\.(?:std|core))\.")

USE = re.compile(r"^(?:unfoldable )?(?:pub )?(?:ghost )?use ([^{]+)\.\{([^}]*)\}", re.MULTILINE)
SPECS = re.compile(r"Rattle\.(?!(?:std|core)\.)(\w+)\.specs\.(.+)")
PROOFS = re.compile(r"Rattle\.(?!(?:std|core)\.)\w+\.proofs\..+")
NAME = re.compile(r"[\w'₀-₉!?-]+")
START = re.compile(r"^(?:abbrev |unfoldable )?pub (?!use |mod )(?:record |data )?([\w'!-]+)")
CASE = re.compile(r"^  ([\w'!-]+) :", re.MULTILINE)
STATEMENT = re.compile(r"^( *)pub (\S+) :.*\n(?:\1 .*\n)*", re.MULTILINE)
MODULE = re.compile(r"^( *)module _ .*?\bwhere\n", re.MULTILINE | re.DOTALL)
DEFINED = re.compile(r"^ *(?:(?:abbrev|unfoldable) (?:pub )?|(?:pub )?(?:record|data) )([\w'!-]+)", re.MULTILINE)
CONTRACT = re.compile(r'^pub (?:extern "C" )?fn (\w+).*\n(?:[^{\n].*\n)*', re.MULTILINE)
TYPE = re.compile(r"^pub (?:struct|enum) (\w+) \{\n(?: .*\n)*\}", re.MULTILINE)
RUST_USE = re.compile(r"^use (\w+)::(?:\w+::)*(?:(\w+)|\{([\w, \n]+)\});", re.MULTILINE)

THEOREMS = re.compile(r"^\| `(\w+)/proofs/(\w+): ([^`]*)` \|", re.MULTILINE)
STEP = re.compile(r"^\| (\d+\. [^|]*) \| ([^|]*) \| [\d,]* \|$", re.MULTILINE)
TOTAL = re.compile(r"^\| In all \| [\d,]* files \| [\d,]* \|$", re.MULTILINE)
TYPES = re.compile(r"^\| (\w+)/src/(\w+)\.rt \| ([^|]*) \|$", re.MULTILINE)

# A file of specs/: how many lines it has, what its imports stand for, its definitions, and for each case of a type the type.
File = collections.namedtuple("File", "lines imports texts types")
# A type of src/: its file, its first and last line, its text, and the crates of the types that its file imports.
Type = collections.namedtuple("Type", "file first last text imports")


# What stands in crates/

def text_of(*parts):
    """The text of a file of the repository."""
    with open(os.path.join(ROOT, *parts), encoding="utf-8") as file:
        return file.read()


def imports_of(text):
    """For each name that a file imports from a crate, the crate, the module and its name there."""
    found = {}
    for path, names in USE.findall(text):
        crate = SPECS.fullmatch(path)
        for name in (name.strip() for name in names.split(",")):
            if crate and name:
                there, _, here = name.partition(" as ")
                found[here or there] = (*crate.groups(), there)
    return found


def definitions_of(text):
    """The text of each definition of a file, without comments."""
    found, name = {}, None
    for line in text.split("\n"):
        start = START.match(line)
        name = start.group(1) if start else None if USE.match(line) else name
        if name and not line.lstrip().startswith("--"):
            found[name] = found.get(name, "") + line + "\n"
    return found


def specs():
    """The files of specs/, by crate and module."""
    found = {}
    for path in glob.glob(os.path.join(ROOT, "crates", "*", "specs", "**", "*.antt"), recursive=True):
        crate, _, *module = os.path.relpath(path, os.path.join(ROOT, "crates"))[:-5].split(os.sep)
        text = text_of(path)
        texts = definitions_of(text)
        types = {case: name for name, data in texts.items() if data.startswith("pub data") for case in CASE.findall(data)}
        if texts or USE.search(text):
            found[crate, ".".join(module)] = File(text.count("\n"), imports_of(text), texts, types)
    return found


def types_of_code():
    """The types of src/, by crate and name."""
    found = {}
    for path in glob.glob(os.path.join(ROOT, "crates", "*", "src", "*.rt")):
        text = text_of(path)
        crate, file = path.split(os.sep)[-3], os.path.basename(path)[:-3]
        imports = {name: origin for origin, *names in RUST_USE.findall(text) for name in re.findall(r"\w+", " ".join(names))}
        for type in TYPE.finditer(text):
            first = text.count("\n", 0, type.start()) + 1
            found[crate, type.group(1)] = Type(file, first, first + type.group().count("\n"), type.group(), imports)
    return found


# What is reached

def meant(files, crate, module, name):
    """The definition or type that a name stands for in a file; None where it is a variable, a field or a name of the library."""
    if module.startswith(DECLARED + "."):
        return crate, DECLARED, module.split(".")[1]
    file = files.get((crate, module))
    if file is None:
        return meant(files, crate, *module.rsplit(".", 1)) if "." in module else None
    if name in file.texts:
        return crate, module, name
    if name in file.types:
        return crate, module, file.types[name]
    return meant(files, *file.imports[name]) if name in file.imports else None


def named_by(files, types, crate, module, name):
    """What a definition or type names."""
    if module != DECLARED:
        return {meant(files, crate, module, word) for word in NAME.findall(files[crate, module].texts[name])} - {None}
    type = types[crate, name]
    named = {(type.imports.get(word, crate), word) for word in NAME.findall(type.text)}
    return {(origin, DECLARED, word) for origin, word in named if (origin, word) in types}


def reached(files, types, roots):
    """All that the roots name, and what that names, and so on."""
    found, more = set(), set(roots)
    while more:
        found |= more
        more = {name for known in more for name in named_by(files, types, *known)} - found
    return found


def heads_above(text, place):
    """The heads of the modules around a place of a text: what is assumed there is part of a statement."""
    heads = ""
    for head in MODULE.finditer(text, 0, place):
        within = " " * (len(head.group(1)) + 1)
        if all(line.startswith(within) for line in text[head.end():place].split("\n") if line):
            heads += head.group()
    return heads


def statements(paper):
    """The theorems that docs/AUDIT.md names, each with its statement and what its file imports."""
    for crate, file, names in THEOREMS.findall(paper):
        text = text_of("crates", crate, "proofs", file + ".antt")
        found = {one.group(2): heads_above(text, one.start()) + one.group() for one in STATEMENT.finditer(text)}
        yield from ((name, found.get(name, ""), imports_of(text)) for name in names.split(", "))


def words_of_proofs(paper):
    """The words of proofs/ in the statements of the theorems: what they mean is in no file that is listed."""
    for crate, file, names in THEOREMS.findall(paper):
        text = text_of("crates", crate, "proofs", file + ".antt")
        laws = {name.partition(" as ")[2] or name.partition(" as ")[0] for path, names in USE.findall(text) if PROOFS.fullmatch(path) for name in re.split(", *", names)}
        words = laws | set(DEFINED.findall(text))
        for one in STATEMENT.finditer(text):
            if one.group(2) in names.split(", "):
                said = set(NAME.findall(heads_above(text, one.start()) + one.group())) - {one.group(2)}
                yield from ("docs/AUDIT.md: the theorem %s of %s has %s of proofs/" % (one.group(2), crate, word) for word in sorted(said & words))


def contracts(calls):
    """The calls and those for C beside them, each with its contract and what its file imports."""
    for crate, file, names in calls:
        text = text_of("crates", crate, "src", file + ".rt")
        found = {contract.group(1): contract.group() for contract in CONTRACT.finditer(text)}
        for_c = [name for name in found if 'extern "C"' in found[name]]
        yield from ((name, found[name], imports_of(text)) for name in [*names, *for_c])


def roots_of(files, texts):
    """What the texts name."""
    named = {meant(files, *imports[word]) for _, text, imports in texts for word in NAME.findall(text) if word in imports}
    return named - {None}


# What docs/AUDIT.md lists

def steps_of(paper):
    """The files of each step, by crate and module."""
    found = []
    for _, listed in STEP.findall(paper):
        crates = (crate.split("/specs: ") for crate in listed.split("; "))
        found.append([(crate, file) for crate, names in crates for file in names.split(", ")])
    return found


def types_listed(paper):
    """The types of src/, by crate and name."""
    return {(crate, place.split(" ")[0]) for crate, _, places in TYPES.findall(paper) for place in places.split(", ")}


def counted(files, types, paper):
    """docs/AUDIT.md with the right counts and places."""
    sizes = [sum(files[file].lines for file in step if file in files) for step in steps_of(paper)]
    size = iter(sizes)
    paper = STEP.sub(lambda row: "| %s | %s | %s |" % (*row.groups(), format(next(size), ",")), paper)
    paper = TOTAL.sub("| In all | %d files | %s |" % (sum(map(len, steps_of(paper))), format(sum(sizes), ",")), paper)
    return TYPES.sub(lambda row: placed(types, *row.groups()), paper)


def placed(types, crate, file, places):
    """A row of types with their right places; of a type that does not stand in the file, none."""
    found = [(name, types.get((crate, name))) for name in (place.split(" ")[0] for place in places.split(", "))]
    rows = ["%s %d-%d" % (name, type.first, type.last) for name, type in found if type and type.file == file]
    return "| %s/src/%s.rt | %s |" % (crate, file, ", ".join(rows))


# What is wrong

def path_of(crate, module):
    """The path of a file of specs/."""
    return "%s/specs/%s" % (crate, module.replace(".", "/"))


def unlisted(found, steps, types, where):
    """Each definition or type of those found that is not in the steps or among the types; `where` says what these are."""
    files = {file for step in steps for file in step}
    for crate, module, name in sorted(found):
        if module == DECLARED and (crate, name) not in types:
            yield "%s: the type %s is reached and not in %s" % (crate, name, where)
        elif module != DECLARED and (crate, module) not in files:
            yield "%s: %s is reached and not in %s" % (path_of(crate, module), name, where)


def unreached(files, found, steps, types):
    """Each definition of a listed file and each listed type that is not among those found, and each file that is not there."""
    for crate, module in (file for step in steps for file in step):
        if (crate, module) not in files:
            yield "%s: not there" % path_of(crate, module)
        else:
            names = (name for name in files[crate, module].texts if (crate, module, name) not in found)
            yield from ("%s: %s is not reached, so it serves the code alone" % (path_of(crate, module), name) for name in names)
    yield from ("%s: the type %s is not reached" % type for type in sorted(types) if (type[0], DECLARED, type[1]) not in found)


def left_out(files, steps):
    """Each file of specs/ outside specs/code, but for the tests', that no step has."""
    listed = {file for step in steps for file in step}
    for crate, module in sorted(set(files) - listed):
        if "." not in module and not crate.startswith("test_"):
            yield "%s: not listed" % path_of(crate, module)


def open_imports(files, steps):
    """Each import of a listed file that is neither of the library, nor of a type of src/, nor of a file that is listed before it."""
    before = set()
    for crate, module in (file for step in steps for file in step if file in files):
        for path, _ in USE.findall(text_of("crates", path_of(crate, module) + ".antt")):
            found = SPECS.fullmatch(path)
            if not LIBRARY.match(path) and not (found and (found.group(2).startswith(DECLARED + ".") or found.groups() in before)):
                yield "%s: imports from %s, which is not listed before it" % (path_of(crate, module), path)
        before.add((crate, module))


def wrong_lines(paper, right):
    """Each line of docs/AUDIT.md whose counts or places are wrong."""
    for number, (line, other) in enumerate(zip(paper.split("\n"), right.split("\n")), 1):
        if line != other:
            yield "docs/AUDIT.md:%d: should be %s" % (number, other)


def lost_theorems(paper):
    """Each theorem that is named and not there."""
    yield from ("docs/AUDIT.md: the theorem %s is not there" % name for name, text, _ in statements(paper) if not text)


def wrong_of(files, types, paper):
    """All that is wrong but for counts and places."""
    steps, listed = steps_of(paper), types_listed(paper)
    sold = reached(files, types, roots_of(files, contracts(READER)))
    found = sold | reached(files, types, roots_of(files, [*statements(paper), *contracts(CHECKER), *contracts(RUNNER), *contracts(EVIDENCE)]))
    yield from unlisted(found, steps, listed, "docs/AUDIT.md")
    yield from unlisted(sold, steps[:READER_STEPS], listed, "the steps of the reader of words")
    yield from unreached(files, found, steps, listed)
    yield from left_out(files, steps)
    yield from open_imports(files, steps)
    yield from lost_theorems(paper)
    yield from words_of_proofs(paper)


def main():
    """Prints what is wrong."""
    files, types, paper = specs(), types_of_code(), text_of(PAPER)
    right = counted(files, types, paper)
    if "--write" in sys.argv[1:]:
        with open(PAPER, "w", encoding="utf-8") as file:
            file.write(right)
        paper = right
    wrong = [*wrong_of(files, types, paper), *wrong_lines(paper, right)]
    for line in wrong:
        print(line)
    return 1 if wrong else 0


if __name__ == "__main__":
    sys.exit(main())
