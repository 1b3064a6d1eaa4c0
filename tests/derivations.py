"""Derivations of the bodies of a response by the grammars of a script, from their lists of words alone.

`least` searches for the list of rule numbers that is shown (E13), and `fault` replays a list; the two share no more than the grammar and what a literal is. Both
take texts that document 01 passes with requests E3 and E13: nothing is checked of them here.
"""
import re
from collections import namedtuple

import words

# A word with its offset, or a list with that of its bracket: `word` or `items` is None.
Tree = namedtuple("Tree", "start word items")

# A rule: its non-terminal, what it derives, a tree with non-terminals in it, and its weight.
Rule = namedtuple("Rule", "head form weight")

# A literal: "its value and width". A Bool has the width 0, as its sort is written here.
Literal = namedtuple("Literal", "value width")
DECIMAL_FORM = re.compile(rb"bv(0|[1-9][0-9]*)")

# The grammar of a function: its start, its non-terminals, its rules in order, and its arguments, each with its sort.
Grammar = namedtuple("Grammar", "start names rules arguments")


# Texts

def trees(text):
    """The trees of a text."""
    open_lists = [(0, [])]
    for start, end in words.spans(text):
        word = text[start:end]
        if word == b"(":
            open_lists.append((start, []))
        elif word == b")":
            first, items = open_lists.pop()
            open_lists[-1][1].append(Tree(first, None, items))
        else:
            open_lists[-1][1].append(Tree(start, word, None))
    return open_lists[0][1]


def literal_word(word):
    """The literal that a word is; None for any other word."""
    if word in (b"true", b"false"):
        return Literal(int(word == b"true"), 0)
    if word[:2] == b"#x":
        return Literal(int(word[2:], 16), 4 * (len(word) - 2))
    return Literal(int(word[2:], 2), len(word) - 2) if word[:2] == b"#b" else None


def literal(tree):
    """The literal that a tree is, a word or a list `(_ bvN n)`; None for any other tree."""
    if tree.items is None:
        return literal_word(tree.word)
    if len(tree.items) != 3 or tree.items[0].word != b"_" or tree.items[1].word is None:
        return None
    digits = DECIMAL_FORM.fullmatch(tree.items[1].word)
    return Literal(int(digits.group(1)), int(tree.items[2].word)) if digits else None


def leaf(tree):
    """What a tree without operands is, a literal or another word; None for any other tree."""
    return literal(tree) or tree.word


def same(one, other):
    """Whether two trees are the same: literals by value and width, other words as written."""
    if leaf(one) or leaf(other):
        return leaf(one) == leaf(other)
    return len(one.items) == len(other.items) and all(map(same, one.items, other.items))


def sort_of(tree):
    """A sort: 0 for Bool, the width of a bit vector."""
    return 0 if tree.items is None else int(tree.items[2].word)


def rule_of(head, tree):
    """A rule from the tree that is listed: t of `(! t :weight k)`, whose weight is k where it has exactly one such attribute, and else 0 (E13)."""
    if tree.items is None or tree.items[0].word != b"!":
        return Rule(head, tree, 0)
    numerals = tree.items[3::2]
    return Rule(head, tree.items[1], int(numerals[0].word) if len(numerals) == 1 else 0)


def grammar_of(command):
    """The grammar of a `synth-fun`."""
    arguments, predeclared, groups = (command.items[i].items for i in (2, 4, 5))
    names = [pair.items[0].word for pair in predeclared]
    rules = [rule_of(group.items[0].word, tree) for group in groups for tree in group.items[2].items]
    return Grammar(names[0], set(names), rules, {pair.items[0].word: sort_of(pair.items[1]) for pair in arguments})


def grammars(script):
    """The grammars of a script, one a function."""
    return [grammar_of(tree) for tree in trees(script) if tree.items and tree.items[0].word == b"synth-fun"]


def bodies(response):
    """The bodies of a response, one a function."""
    return [command.items[4] for command in trees(response)[0].items]


# What one rule derives

def is_pattern(form, name):
    """Whether a form is a whole rule `(Constant σ)` or `(Variable σ)`."""
    return form.items is not None and form.items[0].word == name


def derives_leaf(grammar, form, term):
    """Whether a rule `(Constant σ)` or `(Variable σ)` derives a term; None for any other rule."""
    if is_pattern(form, b"Constant"):
        found = literal(term)
        return found is not None and found.width == sort_of(form.items[1])
    if is_pattern(form, b"Variable"):
        return term.items is None and grammar.arguments.get(term.word) == sort_of(form.items[1])
    return None


# Replay

def fault(grammar, body, numbers):
    """What is wrong with a list of rule numbers as a derivation of a body, leftmost first; None if nothing is.

    The leftmost non-terminal that is left stands on top of the stack, with the part of the body at its place.
    """
    left, used, at = [(Tree(0, grammar.start, None), body)], set(), 0
    while left:
        form, term = left.pop()
        if form.items is None and form.word in grammar.names:
            if at == len(numbers):
                return "the list ends early"
            if numbers[at] >= len(grammar.rules) or grammar.rules[numbers[at]].head != form.word:
                return "%d is no rule of %s" % (numbers[at], form.word.decode())
            if (term.start, form.word) in used:
                return "%s is used twice at one place" % form.word.decode()
            used.add((term.start, form.word))
            form, at = grammar.rules[numbers[at]].form, at + 1
            derived = derives_leaf(grammar, form, term)
            if derived is None:
                left.append((form, term))
            elif not derived:
                return "rule %d does not derive what stands at %d" % (numbers[at - 1], term.start)
        elif leaf(form) or leaf(term):
            if not same(form, term):
                return "a rule has another word than the body at %d" % term.start
        else:
            if not same(form.items[0], term.items[0]) or len(form.items) != len(term.items):
                return "a rule has another head or other operands than the body at %d" % term.start
            left += list(zip(form.items[1:], term.items[1:]))[::-1]
    return None if at == len(numbers) else "%d numbers are left of the list" % (len(numbers) - at)


def fault_of_lists(script, response, lists):
    """What is wrong with the lists that are shown for a script and a response; None if nothing is."""
    functions = grammars(script)
    if len(lists) != len(functions):
        return "%d lists for %d functions" % (len(lists), len(functions))
    for k, (grammar, body, numbers) in enumerate(zip(functions, bodies(response), lists)):
        found = fault(grammar, body, numbers)
        if found:
            return "function %d: %s" % (k, found)
    return None


# Search

def holes(grammar, form, term):
    """The non-terminals of a form, left to right, each with the part of the term at its place; None where the term is no instance of the form."""
    if form.items is None and form.word in grammar.names:
        return [(form.word, term)]
    if leaf(form) or leaf(term):
        return [] if same(form, term) else None
    if not same(form.items[0], term.items[0]) or len(form.items) != len(term.items):
        return None
    found = []
    for one, other in zip(form.items[1:], term.items[1:]):
        more = holes(grammar, one, other)
        if more is None:
            return None
        found += more
    return found


class Search:
    """The search for the least derivation of one body: of least total weight, then with fewest rules, then with the least rule numbers at the first difference.

    Every rule is tried at every place, but for non-terminals that were used there before: a derivation that uses one twice at one place has a shorter one within
    it that weighs no more. What is found is (weight, count, numbers), so that tuples compare as derivations do.
    """

    def __init__(self, grammar):
        self.grammar = grammar
        self.found = {}

    def of_name(self, name, term, used):
        """The least derivation of a term from a non-terminal, where those of `used` were used at its place before; None where there is none."""
        key = (name, term.start, used)
        if key not in self.found:
            lists = []
            for number, rule in enumerate(self.grammar.rules):
                rest = self.of_form(rule.form, term, used | {name}) if rule.head == name else None
                if rest is not None:
                    lists.append((rule.weight + rest[0], 1 + rest[1], [number] + rest[2]))
            self.found[key] = min(lists, default=None)
        return self.found[key]

    def of_form(self, form, term, used):
        """The least derivation of a term from the form of a rule."""
        derived = derives_leaf(self.grammar, form, term)
        if derived is not None:
            return (0, 0, []) if derived else None
        parts = holes(self.grammar, form, term)
        if parts is None:
            return None
        weight, count, numbers = 0, 0, []
        for name, part in parts:
            if part is term and name in used:
                return None
            found = self.of_name(name, part, used if part is term else frozenset())
            if found is None:
                return None
            weight, count, numbers = weight + found[0], count + found[1], numbers + found[2]
        return weight, count, numbers


def least(grammar, body):
    """The least derivation of a body from the start: its rule numbers; None where there is none."""
    found = Search(grammar).of_name(grammar.start, body, frozenset())
    return found and found[2]


def total(grammar, numbers):
    """The summed weights of rules."""
    return sum(grammar.rules[number].weight for number in numbers)
