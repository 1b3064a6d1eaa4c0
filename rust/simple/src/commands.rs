//! The shapes of the carried commands, for the script and the response alike.

use crate::constants::digits_after_bv;
use crate::terms::{
    is_sort, is_term, term_past_limit, width_past_limit, CARRIED_COMMANDS, OTHER_COMMANDS,
};
use crate::tree::Tree;
use crate::words::{ATTRIBUTE, FEATURE};

/// "8 arguments".
const MOST_ARGUMENTS: usize = 8;
/// "k to 65,535 (more: answer 4)".
const MOST_WEIGHT: u32 = 65_535;

/// A name and a sort: `(x σ)`.
pub struct Pair<'a> {
    pub tree: &'a Tree,
    pub name: &'a Tree,
    pub sort: &'a Tree,
}

/// Name, arguments and sort of a `define-fun` or `synth-fun`.
pub struct Header<'a> {
    pub name: &'a Tree,
    pub list: &'a Tree,
    pub arguments: Vec<Pair<'a>>,
    pub sort: &'a Tree,
}

/// A `define-fun`, in a script or a response.
pub struct DefineFun<'a> {
    pub header: Header<'a>,
    pub body: &'a Tree,
}

/// A listed non-terminal with its rules and the bracket that closes them.
pub struct Group<'a> {
    pub name: &'a Tree,
    pub sort: &'a Tree,
    pub rules: &'a [Tree],
    pub close: usize,
}

/// A `synth-fun` with grammar, and the brackets that close its two lists.
pub struct SynthFun<'a> {
    pub header: Header<'a>,
    pub predeclared: Vec<Pair<'a>>,
    pub predeclared_close: usize,
    pub groups: Vec<Group<'a>>,
    pub groups_close: usize,
}

/// A carried command that has its form.
pub enum Command<'a> {
    SetLogic,
    SetFeature,
    DeclareVar { name: &'a Tree, sort: &'a Tree },
    DefineFun(DefineFun<'a>),
    SynthFun(SynthFun<'a>),
    Constraint(&'a Tree),
    Assume(&'a Tree),
    CheckSynth,
}

/// A rule by its form.
pub enum RuleForm<'a> {
    Constant(&'a Tree),
    Variable(&'a Tree),
    Term(&'a Tree),
}

/// The command's bracket if it is answer 6: another 2.1 command, or a carried one with another logic or feature, without grammar
/// or with a list that is not carried, where the feature is set or not.
pub fn not_carried(command: &Tree, weights: bool) -> Option<usize> {
    let items = command.items()?;
    let head = items.first()?.symbol()?;
    let carried = CARRIED_COMMANDS.contains(&head);
    let fault = OTHER_COMMANDS.contains(&head)
        || is_other_logic(items)
        || is_other_feature(items)
        || is_without_grammar(items)
        || carried && !list_not_carried(command, weights).is_empty();
    fault.then(|| command.start())
}

/// The places of the lists of a carried command that are not carried. "a weighted rule without the feature is answer 6"; with it a rule
/// that is begun by `!` is tested in its parts alone.
pub fn list_not_carried(command: &Tree, weights: bool) -> Vec<usize> {
    let rules = match weights {
        true => whole_rules(command),
        false => Vec::new(),
    };
    let is_weighted = |rule: &&Tree| is_begun_by_mark(rule);
    let weighted: Vec<usize> = rules
        .into_iter()
        .filter(is_weighted)
        .map(Tree::start)
        .collect();
    let mut places = lists_not_carried(command);
    places.retain(|place| !weighted.contains(place));
    places
}

/// The items that stand as rules in a `synth-fun` of six parts, in the third part of each group of three.
fn whole_rules(command: &Tree) -> Vec<&Tree> {
    let groups = match command.items() {
        Some([head, _, _, _, _, groups]) if head.symbol() == Some("synth-fun") => groups.items(),
        _ => None,
    };
    let groups = groups.into_iter().flatten();
    groups.filter_map(group_rules).flatten().collect()
}

/// The third part of a group of three, where it is a list.
fn group_rules(group: &Tree) -> Option<&[Tree]> {
    match group.items()? {
        [_, _, rules] => rules.items(),
        _ => None,
    }
}

/// Whether a tree is a list begun by `!`.
pub fn is_begun_by_mark(tree: &Tree) -> bool {
    let first = tree.items().and_then(|items| items.first());
    first.and_then(Tree::symbol) == Some("!")
}

/// "set otherwise 6": another feature, or this one set to false.
fn is_other_feature(items: &[Tree]) -> bool {
    match set_feature(items) {
        Some((feature, value)) => feature != FEATURE || value != "true",
        None => false,
    }
}

/// Form of `(set-feature :feature b)`, b being `true` or `false`.
fn set_feature(items: &[Tree]) -> Option<(&str, &str)> {
    match items {
        [head, feature, value] if head.symbol() == Some("set-feature") => {
            let value = value
                .symbol()
                .filter(|value| ["true", "false"].contains(value));
            Some((feature.keyword()?, value?))
        }
        _ => None,
    }
}

/// "another logic".
fn is_other_logic(items: &[Tree]) -> bool {
    match items {
        [head, logic] if head.symbol() == Some("set-logic") => {
            logic.symbol().is_some_and(|logic| logic != "BV")
        }
        _ => false,
    }
}

/// "a `synth-fun` without grammar": it has name, arguments and sort and no more.
fn is_without_grammar(items: &[Tree]) -> bool {
    items[0].symbol() == Some("synth-fun") && items.len() == 4
}

/// "any list begun by `let`, `exists`, `forall`, `!`, or by `_` and then neither `BitVec` nor `extract`"; "Answer 6 gives way
/// to" `bv` with a numeral. The places of all of them.
fn lists_not_carried(tree: &Tree) -> Vec<usize> {
    let Some(items) = tree.items() else {
        return Vec::new();
    };
    let symbol = |index: usize| items.get(index).and_then(Tree::symbol);
    let begun = match symbol(0) {
        Some("let" | "exists" | "forall" | "!") => true,
        Some("_") => {
            let known = matches!(symbol(1), Some("BitVec" | "extract"));
            !known && items.get(1).and_then(digits_after_bv).is_none()
        }
        _ => false,
    };
    let inner = items.iter().flat_map(lists_not_carried);
    begun
        .then(|| tree.start())
        .into_iter()
        .chain(inner)
        .collect()
}

/// Form of `(x σ)`.
fn pair(tree: &Tree) -> Option<Pair<'_>> {
    match tree.items()? {
        [name, sort] if name.symbol().is_some() && is_sort(sort) => Some(Pair { tree, name, sort }),
        _ => None,
    }
}

/// Form of `((x σ) ...)`.
fn pairs(tree: &Tree) -> Option<Vec<Pair<'_>>> {
    tree.items()?.iter().map(pair).collect()
}

/// Form of a name, a list of arguments and a sort.
fn header<'a>(name: &'a Tree, list: &'a Tree, sort: &'a Tree) -> Option<Header<'a>> {
    if name.symbol().is_none() || !is_sort(sort) {
        return None;
    }
    Some(Header {
        name,
        list,
        arguments: pairs(list)?,
        sort,
    })
}

/// Form of `(define-fun name (arguments) σ term)`.
pub fn define_fun(tree: &Tree) -> Option<DefineFun<'_>> {
    match tree.items()? {
        [head, name, list, sort, body] if head.symbol() == Some("define-fun") && is_term(body) => {
            let header = header(name, list, sort)?;
            Some(DefineFun { header, body })
        }
        _ => None,
    }
}

/// Form of a rule: "`(Constant σ)`, `(Variable σ)` or a binder-free term", or one "written `(! t :weight k)`".
pub fn rule_form(rule: &Tree) -> Option<RuleForm<'_>> {
    if is_begun_by_mark(rule) {
        return weighted(rule).map(|(term, _)| RuleForm::Term(term));
    }
    let head = rule.items().and_then(|items| items.first());
    match (head.and_then(Tree::symbol), rule.items()) {
        (Some("Constant"), Some([_, sort])) if is_sort(sort) => Some(RuleForm::Constant(sort)),
        (Some("Variable"), Some([_, sort])) if is_sort(sort) => Some(RuleForm::Variable(sort)),
        _ => is_term(rule).then_some(RuleForm::Term(rule)),
    }
}

/// Form of `(! t :weight k)`, with one or more such attributes: t, and each k with its value.
fn weighted(rule: &Tree) -> Option<(&Tree, Vec<(&Tree, u32)>)> {
    let [mark, term, attributes @ ..] = rule.items()? else {
        return None;
    };
    let fits = mark.symbol() == Some("!") && is_term(term) && !attributes.is_empty();
    let attributes = fits.then(|| attributes.chunks(2).map(attribute).collect::<Option<_>>());
    Some((term, attributes??))
}

/// Form of `:weight k`: k and its value.
fn attribute(pair: &[Tree]) -> Option<(&Tree, u32)> {
    match pair {
        [name, value] if name.keyword() == Some(ATTRIBUTE) => Some((value, value.numeral()?)),
        _ => None,
    }
}

/// The numerals of a rule's attributes, in order, and their values.
fn attributes(rule: &Tree) -> Vec<(&Tree, u32)> {
    weighted(rule).map_or(Vec::new(), |(_, attributes)| attributes)
}

/// "a rule that doesn't carry exactly one such attribute weighs 0".
pub fn weight(rule: &Tree) -> u64 {
    match attributes(rule)[..] {
        [(_, weight)] => weight.into(),
        _ => 0,
    }
}

/// "k to 65,535 (more: answer 4)": the place of the first numeral of a rule's attributes that is more.
pub fn weight_past_limit(rule: &Tree) -> Option<usize> {
    let mut attributes = attributes(rule).into_iter();
    let past = attributes.find(|(_, weight)| *weight > MOST_WEIGHT);
    past.map(|(numeral, _)| numeral.start())
}

/// Form of `(A σ (rules))`.
fn group(tree: &Tree) -> Option<Group<'_>> {
    match tree.items()? {
        [name, sort, Tree::List { items, close, .. }]
            if name.symbol().is_some()
                && is_sort(sort)
                && items.iter().all(|rule| rule_form(rule).is_some()) =>
        {
            Some(Group {
                name,
                sort,
                rules: items,
                close: *close,
            })
        }
        _ => None,
    }
}

/// Form of `(synth-fun name (arguments) σ (predeclaration) (listing))`.
fn synth_fun(items: &[Tree]) -> Option<SynthFun<'_>> {
    match items {
        [_, name, list, sort, predeclaration @ Tree::List {
            close: predeclared_close,
            ..
        }, Tree::List {
            items: listing,
            close: groups_close,
            ..
        }] => Some(SynthFun {
            header: header(name, list, sort)?,
            predeclared: pairs(predeclaration)?,
            predeclared_close: *predeclared_close,
            groups: listing.iter().map(group).collect::<Option<_>>()?,
            groups_close: *groups_close,
        }),
        _ => None,
    }
}

/// The command that a tree is, none if it is no carried command or a "misfit with document 000's forms".
pub fn command(tree: &Tree) -> Option<Command<'_>> {
    let items = tree.items()?;
    match (items.first()?.symbol()?, items) {
        ("set-logic", [_, logic]) => logic.symbol().map(|_| Command::SetLogic),
        ("set-feature", _) => set_feature(items).map(|_| Command::SetFeature),
        ("declare-var", [_, name, sort]) => {
            let fits = name.symbol().is_some() && is_sort(sort);
            fits.then_some(Command::DeclareVar { name, sort })
        }
        ("define-fun", _) => define_fun(tree).map(Command::DefineFun),
        ("synth-fun", _) => synth_fun(items).map(Command::SynthFun),
        ("constraint", [_, term]) => is_term(term).then_some(Command::Constraint(term)),
        ("assume", [_, term]) => is_term(term).then_some(Command::Assume(term)),
        ("check-synth", [_]) => Some(Command::CheckSynth),
        _ => None,
    }
}

impl<'a> Header<'a> {
    /// The sorts written in the header.
    pub fn sorts(&self) -> Vec<&'a Tree> {
        let arguments = self.arguments.iter().map(|argument| argument.sort);
        arguments.chain([self.sort]).collect()
    }

    /// The words of name, arguments and sort with their places.
    pub fn words(&self) -> Vec<(usize, &'a str)> {
        let parts = [self.name, self.list, self.sort];
        parts.into_iter().flat_map(Tree::words).collect()
    }

    /// All places past a limit in a header: the ninth argument and each width above 64.
    pub fn past_limit(&self) -> Vec<usize> {
        let ninth = self.arguments.get(MOST_ARGUMENTS);
        let mut places = Vec::from_iter(ninth.map(|argument| argument.tree.start()));
        places.extend(self.sorts().into_iter().filter_map(width_past_limit));
        places
    }
}

impl DefineFun<'_> {
    /// All places past a limit in a definition: those of its header and the first of its body.
    pub fn past_limit(&self) -> Vec<usize> {
        let mut places = self.header.past_limit();
        places.extend(term_past_limit(self.body));
        places
    }
}
