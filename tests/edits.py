#!/usr/bin/env python3
"""Whether each wrong answer among the must-fail edits is refused by itself: tests/edits.py [--try | --goals | --rewrite] [CRATE..]

A file crates/CRATE/must-fail/NAME.edit makes one wrong answer or more, each in another function: above its replacements stand `edit: LABEL` and `refused: FUNCTION
at GOAL`. `rt` only sees that the crate is not proved with all of them. This asks of each wrong answer that its function's own proof fails at that goal, and not
because something that it rests on is not proved or a name that it cites is gone. A wrong definition is refused in a law: `refused: FILE at LAW`. It prints each that
is not refused so, and each function that another crate can call and that has less than two wrong answers; the exit status is 1 if there is any.

What the prover refused stands in tests/refusals.txt, for each file of edits under the sum of what it was tried on: the edits, the crate, what the crates below it
state, and the kit. A file whose sum is another one is tried again, by `rt check` on a copy of the crate and of those below it, outside this folder, and so are all
files of the crates that are named after `--try`; what comes of it is written down. `--goals` prints for each wrong answer the goals at which its function is refused;
`--rewrite` puts one of them into a `refused:` line that names none.
"""
import concurrent.futures
import glob
import hashlib
import os
import re
import shutil
import subprocess
import sys
import tempfile

ROOT = os.path.abspath(os.path.join(os.path.dirname(os.path.abspath(__file__)), ".."))
RECORD = os.path.join(ROOT, "tests", "refusals.txt")

# Crates that only a program of the tests calls.
FOR_TESTS = ("test_report",)

# The folders of a crate that the prover reads, and those of a crate below it whose statements it rests on.
READ = ("src", "specs", "proofs")
STATED = ("src", "specs")

LISTED = re.compile(r"\w+")
FUNCTION = re.compile(r'^((?: *#\[.*\]\n)*)( *)(pub(?:\([a-z]+\))? )?(?:extern "C" )?fn (\w+)', re.MULTILINE)
OWNER = re.compile(r"^impl(?:<[^>]*>)? (?:\S+ for )?(\w+)", re.MULTILINE)
CYCLE = re.compile(r"#\[cycle\((\w+)\)\]")
REFUSED = re.compile(r"(\S+) at (\S+)")
PUBLIC_MODULE = re.compile(r"^pub mod (\w+);", re.MULTILINE)
IN_PROOF = re.compile(r"(?:\./)?proofs/(\S+?)(?:/(?:Answers|Invariants|Proof))?\.antt:\d+:\d+: error: `([^`]+)`: (.*)")
IN_CODE = re.compile(r"note: (?:\./)?src/(\S+)\.rt:(\d+):\d+: it is not proved that .*\(`([^`]+)`\)")
BY_A_NAME = re.compile(r"has no field|is not in scope|has no `|was not admitted")
BROKEN = re.compile(r"\n  (?=has no |is not in scope|was not admitted)")


def text_of(path):
    """The text of a file."""
    with open(path, encoding="utf-8") as file:
        return file.read()


def name_of(path):
    """A file of edits by its crate and its name."""
    return "%s/%s" % (path.split(os.sep)[-3], os.path.basename(path)[:-len(".edit")])


def crate_of(path):
    """The crate of a file of edits."""
    return path.split(os.sep)[-3]


# What the edits say

def edits_of(text):
    """Each label of an edit file, with the function and the goal at which it is to be refused; None where the file does not say."""
    label = None
    for line in text.split("\n"):
        if line.startswith("edit: "):
            if label:
                yield label, None
            label = line[len("edit: "):]
        elif line.startswith("refused: ") and label:
            said = REFUSED.fullmatch(line[len("refused: "):])
            yield label, said and said.groups()
            label = None
    if label:
        yield label, None


def replacements_of(text):
    """The replacements of an edit file: the path in the crate, the old text and the new one."""
    path = old = None
    for line in text.split("\n"):
        if line.startswith("file: "):
            path = line[len("file: "):].strip()
        elif line.startswith("old: "):
            old = line[len("old: "):]
        elif line.startswith("new:") and path and old:
            yield path, old, line[len("new:"):].removeprefix(" ")
            old = None


def public_functions(library):
    """The functions of a crate that another crate can call, by the path of its src/lib.rt."""
    text = text_of(library)
    yield from public_in(text, [])
    for module in PUBLIC_MODULE.findall(text):
        yield from public_in(text_of(os.path.join(os.path.dirname(library), module + ".rt")), [module])


def public_in(code, modules):
    """The public functions of a text of code."""
    yield from (in_module(modules, name) for _, name, _, public in functions_of(code) if public)


def too_few():
    """The functions that another crate can call and that have less than two wrong answers."""
    for library in sorted(glob.glob(os.path.join(ROOT, "crates", "*", "src", "lib.rt"))):
        crate = library.split(os.sep)[-3]
        paths = glob.glob(os.path.join(ROOT, "crates", crate, "must-fail", "*.edit"))
        wrong = [said[0] for path in paths for _, said in edits_of(text_of(path)) if said]
        for name in public_functions(library):
            if crate not in FOR_TESTS and wrong.count(name) < 2:
                yield "%s::%s has less than two wrong answers" % (crate, name)


# What a try rests on

def used_by():
    """For each crate of crates.txt, the crates of this repository that its line names."""
    lines = [line.partition("#")[0] for line in text_of(os.path.join(ROOT, "crates.txt")).split("\n")]
    named = {line.split(":")[0].split()[0]: line.split(":")[1].split() for line in lines if ":" in line}
    return {crate: [other for other in others if other in named] for crate, others in named.items()}


def below(crate, uses):
    """The crates that a crate stands on, directly or through others."""
    found = []
    for other in uses[crate]:
        found += [one for one in [other, *below(other, uses)] if one not in found]
    return found


def files_below(folder):
    """The files below a folder, in the order of their names."""
    return sorted(os.path.join(at, name) for at, _, names in os.walk(folder) for name in names)


def sum_of(path, uses, kit):
    """The sum of what a try of a file of edits rests on."""
    crate = crate_of(path)
    parts = [os.path.join(ROOT, "crates", crate, part) for part in READ]
    parts += [os.path.join(ROOT, "crates", other, part) for other in sorted(below(crate, uses)) for part in STATED]
    digest = hashlib.sha256(repr((kit, list(replacements_of(text_of(path))))).encode())
    for file in (file for part in parts for file in files_below(part)):
        digest.update(repr((os.path.relpath(file, ROOT), text_of(file))).encode())
    return digest.hexdigest()


# What the prover said

def functions_of(code):
    """Each function of a text of code: the line at which it begins, its name, behind that of its type if it is a method, its cycle of calls, if it is in one, and whether it is public."""
    for found in FUNCTION.finditer(code):
        cycle = CYCLE.search(found.group(1))
        owners = OWNER.findall(code, 0, found.start()) if found.group(2) else []
        name = "::".join(owners[-1:] + [found.group(4)])
        yield code.count("\n", 0, found.start()) + 1, name, cycle and cycle.group(1), found.group(3) == "pub "


def in_module(path, name):
    """A function by its modules, as `module::function`; a method by its type alone, as the prover names it."""
    if "::" in name:
        return name
    return "::".join([part for part in path if part not in ("lib", "main")] + [name])


def proved_in(path, folder):
    """The functions, or the file of laws, whose proof stands at a path below proofs/."""
    *modules, last = path.split("/")
    if not last.startswith("+"):
        return [in_module(modules, last)]
    sources = [os.path.join(folder, "src", *modules) + ".rt"] if modules else [os.path.join(folder, "src", name) for name in ("lib.rt", "main.rt")]
    codes = [text_of(source) for source in sources if os.path.isfile(source)]
    several = [in_module(modules, name) for code in codes for _, name, cycle, _ in functions_of(code) if cycle == last[1:]]
    return several or [in_module(modules, last[1:])]


def refusals(log, folder):
    """Each function of an edited crate, with a goal at which its own proof fails, and not for a name that is gone."""
    for line in BROKEN.sub(" ", log).split("\n"):
        found = IN_PROOF.match(line)
        if found and not BY_A_NAME.search(found.group(3)):
            yield from ((name, found.group(2)) for name in proved_in(found.group(1), folder))
        found = IN_CODE.match(line)
        if found:
            code = text_of(os.path.join(folder, "src", found.group(1) + ".rt"))
            names = [name for line, name, _, _ in functions_of(code) if line <= int(found.group(2))]
            yield in_module(found.group(1).split("/"), names[-1]), found.group(3)


# A try

def edited(path, folder):
    """Makes the replacements of a file of edits in a copy of its crate; says what is wrong, if one cannot be made."""
    for name, old, new in replacements_of(text_of(path)):
        file = os.path.join(folder, name)
        text = text_of(file)
        if text.count(old) != 1:
            return "an old text stands in %s %d times: %s" % (name, text.count(old), old)
        with open(file, "w", encoding="utf-8") as out:
            out.write(text.replace(old, new))
    return None


def tried(path, uses):
    """What the prover refuses with the edits of a file: functions and goals, or a text that says why there was no verdict."""
    crate = crate_of(path)
    with tempfile.TemporaryDirectory(prefix="sverdhyll-edit-") as room:
        crates = [crate, *below(crate, uses)]
        with open(os.path.join(room, "crates.txt"), "w", encoding="utf-8") as out:
            out.write("".join(line + "\n" for line in text_of(os.path.join(ROOT, "crates.txt")).split("\n") if LISTED.match(line) and LISTED.match(line)[0] in crates))
        for part in [os.path.join("crates", one, part) for one in crates for part in READ]:
            if os.path.isdir(os.path.join(ROOT, part)):
                shutil.copytree(os.path.join(ROOT, part), os.path.join(room, part))
        folder = os.path.join(room, "crates", crate)
        fault = edited(path, folder)
        if fault:
            return fault
        ran = subprocess.run(["rt", "check"], cwd=folder, stdin=subprocess.DEVNULL, stdout=subprocess.PIPE, stderr=subprocess.STDOUT)
        log = ran.stdout.decode(errors="replace")
        if "\nlogic=not-proved" not in log:
            return "the crate is still proved" if ran.returncode == 0 else "its check has no verdict: %s" % log[-800:]
        return sorted(set(refusals(log, folder)))


def proved(crate):
    """Whether a crate is proved as it stands; a try of its edits begins with what that check keeps."""
    ran = subprocess.run(["rt", "check"], cwd=os.path.join(ROOT, "crates", crate), stdin=subprocess.DEVNULL, stdout=subprocess.DEVNULL, stderr=subprocess.DEVNULL)
    return ran.returncode == 0


def try_all(paths, uses):
    """Tries files of edits, some side by side: what came of each."""
    crates = dict.fromkeys(crate_of(path) for path in paths)
    bare = [crate for crate in crates if not proved(crate)]
    found = {path: "the crate is not proved as it stands" for path in paths if crate_of(path) in bare}
    rest = [path for path in paths if path not in found]
    with concurrent.futures.ThreadPoolExecutor(max(1, (os.cpu_count() or 1) // 2)) as pool:
        for path, came in zip(rest, pool.map(lambda path: tried(path, uses), rest)):
            print("tried %s" % name_of(path), file=sys.stderr, flush=True)
            found[path] = came
    return found


# What is written down

def recorded():
    """What tests/refusals.txt says: for each file of edits its sum, and the functions and goals that were refused."""
    found, goals = {}, []
    for line in text_of(RECORD).split("\n") if os.path.isfile(RECORD) else []:
        if line.startswith("    "):
            goals.append(tuple(line.strip().split(" at ")))
        elif line:
            name, digest = line.split()
            goals = []
            found[name] = (digest, goals)
    return found


def write_down(found):
    """Writes tests/refusals.txt."""
    with open(RECORD, "w", encoding="utf-8") as out:
        for name, (digest, goals) in sorted(found.items()):
            out.write("%s %s\n%s" % (name, digest, "".join("    %s at %s\n" % goal for goal in goals)))


def results(paths, again):
    """What was refused with each file of edits: as it is written down where that is of these files, else as a try says, which is then written down."""
    uses, known = used_by(), recorded()
    kit = subprocess.run(["rt", "version"], stdout=subprocess.PIPE, check=True, text=True).stdout.strip()
    sums = {path: sum_of(path, uses, kit) for path in paths}
    stale = [path for path in paths if crate_of(path) in again or known.get(name_of(path), ("",))[0] != sums[path]]
    new = try_all(stale, uses)
    known.update({name_of(path): (sums[path], came) for path, came in new.items() if not isinstance(came, str)})
    if new:
        there = {name_of(path) for path in all_paths()}
        write_down({name: entry for name, entry in known.items() if name in there})
    return {path: new[path] if path in new else known[name_of(path)][1] for path in paths}


# The comparison

def faults_of(path, came):
    """What is wrong with the edits of a file: labels that were not refused as they say."""
    edits = list(edits_of(text_of(path)))
    faults = [] if edits else ["%s: no line says what is wrong" % name_of(path)]
    if isinstance(came, str):
        return faults + ["%s: %s" % (name_of(path), came)]
    for label, said in edits:
        if said is None:
            faults.append("%s %s: no line says where it is refused" % (name_of(path), label))
        elif said not in came:
            others = ", ".join(goal for function, goal in came if function == said[0]) or "nowhere by itself"
            faults.append("%s %s: %s is not refused at %s (%s)" % (name_of(path), label, said[0], said[1], others))
    return faults


def alike(old, goal):
    """How well a goal fits the name that it had in a proof of an older kit."""
    if old.startswith("returns"):
        return goal.startswith("returns")
    for was, ends in [("loop-again", "-preserved"), ("loop-holds", "-init"), ("loop-less", "-smaller")]:
        if old == was:
            return goal.startswith("loop-") and goal.endswith(ends)
    return old.replace("-", "_").rstrip("_0123456789") == goal.replace("-", "_").rstrip("_0123456789")


def rewrite(path, came):
    """Puts a goal at which its function is refused into each line that names none; no two lines of a file get the same."""
    text, taken = text_of(path), {said for _, said in edits_of(text_of(path)) if said in came}
    for label, said in edits_of(text):
        if said is None or said in came:
            continue
        goals = [goal for function, goal in came if function == said[0] and (function, goal) not in taken]
        goals.sort(key=lambda goal: not alike(said[1], goal))
        if goals:
            taken.add((said[0], goals[0]))
            line = "edit: %s\nrefused: %s at " % (label, said[0])
            text = text.replace(line + said[1], line + goals[0])
    with open(path, "w", encoding="utf-8") as out:
        out.write(text)


def all_paths():
    """All files of edits."""
    return sorted(glob.glob(os.path.join(ROOT, "crates", "*", "must-fail", "*.edit")))


def main(words):
    """Prints each edit that was not refused by itself, each function with too few, and how many edits there are."""
    mode, crates = (words[0], words[1:]) if words and words[0].startswith("--") else ("", words)
    paths = [path for path in all_paths() if not crates or crate_of(path) in crates]
    found = results(paths, [crate_of(path) for path in paths] if mode == "--try" else [])
    if mode == "--rewrite":
        for path in paths:
            if not isinstance(found[path], str):
                rewrite(path, found[path])
    if mode == "--goals":
        for path in paths:
            for label, said in edits_of(text_of(path)):
                goals = found[path] if isinstance(found[path], str) else ", ".join(goal for function, goal in found[path] if said and function == said[0])
                print("%s %s: %s at %s" % (name_of(path), label, said and said[0], goals))
        return 0
    faults = [fault for path in paths for fault in faults_of(path, found[path])] + list(too_few())
    for fault in faults:
        print(fault)
    print("%d wrong answers, %d faults" % (sum(len(list(edits_of(text_of(path)))) for path in paths), len(faults)))
    return 1 if faults else 0


if __name__ == "__main__":
    sys.exit(main(sys.argv[1:]))
