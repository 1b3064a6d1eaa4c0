//! The script's commands: "the first faulty one, in it 6, then 5, 4, 7, 8, 9, least offset each".

use crate::commands::{
    command, not_carried, rule_form, weight, weight_past_limit, Command, Header, RuleForm, SynthFun,
};
use crate::grammar::{Form, Grammar, Rule, Sorted};
use crate::operators::Sort;
use crate::terms::{
    body_fault, faulty_sort, is_reserved, sort, sort_of, term_past_limit, unknown_name,
    unknown_sort, width_past_limit, Name,
};
use crate::tree::{trees, Tree};
use crate::{words, Fault, MOST_SYNTHESIZED};

/// "Allow 65,536 bytes and 8,192 words of script", "brackets counted".
pub const MOST_WORDS: usize = 8_192;
/// "32 `define-fun`s".
const MOST_DEFINITIONS: usize = 32;
/// "16 variables".
const MOST_VARIABLES: usize = 16;
/// "64 constraints".
const MOST_CONSTRAINTS: usize = 64;
/// "up to 32 of them": assumptions.
const MOST_ASSUMPTIONS: usize = 32;
/// "16 non-terminals ... a grammar".
const MOST_NONTERMINALS: usize = 16;
/// "128 rules a grammar".
const MOST_RULES: usize = 128;

/// A `define-fun` of the script.
pub struct Definition {
    pub name: String,
    pub place: usize,
    pub arguments: Vec<Sorted>,
    pub sort: Sort,
    pub body: Tree,
}

/// A `synth-fun`: its header also as words, its grammar, and how many `define-fun`s stand before it.
pub struct Synthesized {
    pub name: String,
    pub place: usize,
    pub arguments: Vec<Sorted>,
    pub sort: Sort,
    pub header: Vec<String>,
    pub grammar: Grammar,
    pub definitions_before: usize,
}

/// The term of a constraint or an assumption, and the place of its command.
pub struct Constraint {
    pub place: usize,
    pub term: Tree,
}

/// What the commands so far have brought.
#[derive(Default)]
pub struct Script {
    pub variables: Vec<Sorted>,
    pub definitions: Vec<Definition>,
    pub synthesized: Vec<Synthesized>,
    pub constraints: Vec<Constraint>,
    pub assumptions: Vec<Constraint>,
    /// Whether `(set-feature :weights true)` is among them.
    pub weights: bool,
    /// How many commands there are.
    commands: usize,
    ended: bool,
}

/// The script that a text is, or its first fault.
pub fn read(text: &[u8]) -> Result<Script, Fault> {
    let trees = trees(words::read(text, MOST_WORDS)?);
    match before_fault(&trees) {
        (_, Some((_, fault))) => Err(fault),
        (script, None) if !script.ended => Err(Fault::new(5, text.len())),
        (script, None) => Ok(script),
    }
}

/// What the commands before the first faulty one have brought, and that one with its fault.
pub fn before_fault(trees: &[Tree]) -> (Script, Option<(&Tree, Fault)>) {
    let mut script = Script::default();
    for tree in trees {
        match script.first_fault(tree) {
            Some(fault) => return (script, Some((tree, fault))),
            None => script.enter(tree),
        }
    }
    (script, None)
}

/// The name of an argument or non-terminal with its sort.
fn sorted(name: &Tree, sort_tree: &Tree) -> Sorted {
    Sorted {
        name: symbol(name).to_string(),
        place: name.start(),
        sort: sort(sort_tree),
    }
}

/// The text of a name.
fn symbol(name: &Tree) -> &str {
    name.symbol().expect("a name is a symbol")
}

/// The arguments of a header.
pub fn arguments(header: &Header) -> Vec<Sorted> {
    let arguments = header.arguments.iter();
    arguments
        .map(|argument| sorted(argument.name, argument.sort))
        .collect()
}

/// A constraint or an assumption of a command.
fn constraint(tree: &Tree, term: &Tree) -> Constraint {
    Constraint {
        place: tree.start(),
        term: term.clone(),
    }
}

/// Names without operands: variables, arguments or non-terminals.
fn leaves(names: &[Sorted]) -> Vec<Name> {
    let leaf = |one: &Sorted| Name {
        name: one.name.clone(),
        operands: Vec::new(),
        sort: one.sort,
    };
    names.iter().map(leaf).collect()
}

/// A function as a name that a term sees.
fn function(name: &str, arguments: &[Sorted], sort: Sort) -> Name {
    Name {
        name: name.to_string(),
        operands: arguments.iter().map(|argument| argument.sort).collect(),
        sort,
    }
}

/// A declared name and the place of its declaration.
type Declared<'a> = (&'a str, usize);

/// A fault of a name: its place, and the place of the declaration where it is taken; "0 for unknown or reserved".
type NameFault = (usize, usize);

/// The faults of new names that are reserved or in scope: "A new name, argument or non-terminal may not equal a reserved word
/// or a name then in scope."
fn refused_names(new_names: &[&Tree], in_scope: &[Declared]) -> Vec<NameFault> {
    let mut in_scope = in_scope.to_vec();
    let mut faults = Vec::new();
    for name in new_names {
        let declared = in_scope.iter().find(|(one, _)| *one == symbol(name));
        match declared {
            _ if is_reserved(symbol(name)) => faults.push((name.start(), 0)),
            Some((_, place)) => faults.push((name.start(), *place)),
            None => in_scope.push((symbol(name), name.start())),
        }
    }
    faults
}

/// The fault of a name that is unknown at a place.
fn unknown(place: usize) -> NameFault {
    (place, 0)
}

/// The names alone of what a term sees.
pub fn names_of(seen: &[Name]) -> Vec<&str> {
    seen.iter().map(|name| name.name.as_str()).collect()
}

impl Script {
    /// The first fault of a command: "in it 6, then 5, 4, 7, 8, 9, least offset each".
    fn first_fault(&self, tree: &Tree) -> Option<Fault> {
        if let Some(place) = not_carried(tree, self.weights) {
            return Some(Fault::new(6, place));
        }
        if let Some(place) = self.shape_unknown(tree) {
            return Some(Fault::new(5, place));
        }
        let command = command(tree)?;
        if let Some(place) = self.past_limit(tree, &command) {
            return Some(Fault::new(4, place));
        }
        if let Some((place, second)) = self.name_fault(&command) {
            return Some(Fault {
                second,
                ..Fault::new(7, place)
            });
        }
        if let Some(place) = self.sort_fault(&command) {
            return Some(Fault::new(8, place));
        }
        if let Some(place) = self.grammar_fault(&command) {
            return Some(Fault::new(9, place));
        }
        None
    }

    /// 5: "an unknown command, those two out of place (the first command if it isn't `set-logic`; whatever follows
    /// `check-synth`), any misfit with document 000's forms"; the feature "once and straight after the logic line (elsewhere 5".
    fn shape_unknown(&self, tree: &Tree) -> Option<usize> {
        let fits = match command(tree) {
            None => false,
            Some(_) if self.ended => false,
            Some(Command::SetLogic) => self.commands == 0,
            Some(_) if self.commands == 0 => false,
            Some(Command::SetFeature) => self.commands == 1,
            Some(Command::CheckSynth) => !self.synthesized.is_empty(),
            Some(_) => true,
        };
        (!fits).then(|| tree.start())
    }

    /// 4: "the word past it, for a command, rule, argument, non-terminal or node its first".
    fn past_limit(&self, tree: &Tree, command: &Command) -> Option<usize> {
        let (count, most) = match command {
            Command::DeclareVar { .. } => (self.variables.len(), MOST_VARIABLES),
            Command::DefineFun(_) => (self.definitions.len(), MOST_DEFINITIONS),
            Command::SynthFun(_) => (self.synthesized.len(), MOST_SYNTHESIZED),
            Command::Constraint(_) => (self.constraints.len(), MOST_CONSTRAINTS),
            Command::Assume(_) => (self.assumptions.len(), MOST_ASSUMPTIONS),
            Command::SetLogic | Command::SetFeature | Command::CheckSynth => (0, 1),
        };
        let mut places = Vec::new();
        if count >= most {
            places.push(tree.start());
        }
        match command {
            Command::DeclareVar { sort, .. } => places.extend(width_past_limit(sort)),
            Command::DefineFun(definition) => places.extend(definition.past_limit()),
            Command::SynthFun(synth) => places.extend(past_limit_in_synth_fun(synth)),
            Command::Constraint(term) | Command::Assume(term) => {
                places.extend(term_past_limit(term))
            }
            Command::SetLogic | Command::SetFeature | Command::CheckSynth => {}
        }
        places.into_iter().min()
    }

    /// 7: "name unknown, taken or reserved".
    fn name_fault(&self, command: &Command) -> Option<NameFault> {
        let refused = refused_names(&new_names(command), &self.names_in_scope());
        let places = self.unknown_names(command).into_iter().map(unknown);
        refused.into_iter().chain(places).min()
    }

    /// The places of sorts that are no sorts, and of the first name of each term that it doesn't see.
    fn unknown_names(&self, command: &Command) -> Vec<usize> {
        let mut places = Vec::new();
        match command {
            Command::DeclareVar { sort, .. } => places.extend(unknown_sort(sort)),
            Command::DefineFun(definition) => {
                let header = &definition.header;
                places.extend(header.sorts().into_iter().filter_map(unknown_sort));
                let seen = self.seen_by_function(&arguments(header), self.definitions.len());
                places.extend(unknown_name(definition.body, &names_of(&seen)));
            }
            Command::SynthFun(synth) => {
                places.extend(synth_fun_sorts(synth).into_iter().filter_map(unknown_sort));
                let seen = self.seen_by_rule(synth);
                let names = names_of(&seen);
                let unknown = |term| unknown_name(term, &names);
                places.extend(rule_terms(synth).into_iter().filter_map(unknown));
            }
            Command::Constraint(term) | Command::Assume(term) => {
                places.extend(unknown_name(term, &names_of(&self.seen_by_constraint())));
            }
            Command::SetLogic | Command::SetFeature | Command::CheckSynth => {}
        }
        places
    }

    /// 8: "first word of a faulty sort, or of a faulty term whose operands have none".
    fn sort_fault(&self, command: &Command) -> Option<usize> {
        let mut places = Vec::new();
        match command {
            Command::DeclareVar { sort, .. } => places.extend(faulty_sort(sort)),
            Command::DefineFun(definition) => {
                let header = &definition.header;
                places.extend(header.sorts().into_iter().filter_map(faulty_sort));
                let seen = self.seen_by_function(&arguments(header), self.definitions.len());
                places.extend(body_fault(definition.body, sort(header.sort), &seen));
            }
            Command::SynthFun(synth) => {
                places.extend(synth_fun_sorts(synth).into_iter().filter_map(faulty_sort));
                let seen = self.seen_by_rule(synth);
                let fault = |term| sort_of(term, &seen).err();
                places.extend(rule_terms(synth).into_iter().filter_map(fault));
            }
            Command::Constraint(term) | Command::Assume(term) => {
                places.extend(body_fault(term, Sort::Bool, &self.seen_by_constraint()));
            }
            Command::SetLogic | Command::SetFeature | Command::CheckSynth => {}
        }
        places.into_iter().min()
    }

    /// 9: "predeclares non-terminals with sorts, then lists each again, same order and sort, with one or more rules
    /// (else answer 9). The first is the start and has the function's sort ... each has its non-terminal's sort"; "after the
    /// other causes of 9" a non-terminal that "derives no term".
    fn grammar_fault(&self, command: &Command) -> Option<usize> {
        let Command::SynthFun(synth) = command else {
            return None;
        };
        let mut places = Vec::new();
        match synth.predeclared.first() {
            None => places.push(synth.predeclared_close),
            Some(start) if sort(start.sort) != sort(synth.header.sort) => {
                places.push(start.name.start())
            }
            Some(_) => {}
        }
        if synth.groups.len() < synth.predeclared.len() {
            places.push(synth.groups_close);
        }
        let seen = self.seen_by_rule(synth);
        for (index, group) in synth.groups.iter().enumerate() {
            let listed_again = synth.predeclared.get(index).is_some_and(|pair| {
                symbol(pair.name) == symbol(group.name) && sort(pair.sort) == sort(group.sort)
            });
            if !listed_again {
                places.push(group.name.start());
            }
            if group.rules.is_empty() {
                places.push(group.close);
            }
            let of_other_sort = |rule: &&Tree| rule_sort(rule, &seen) != sort(group.sort);
            let rules = group.rules.iter().filter(of_other_sort);
            places.extend(rules.map(Tree::start));
        }
        let least = places.into_iter().min();
        least.or_else(|| dead_nonterminal(synth))
    }

    /// Takes in a command without fault.
    fn enter(&mut self, tree: &Tree) {
        self.commands += 1;
        match &command(tree).expect("a command") {
            Command::SetLogic => {}
            Command::SetFeature => self.weights = true,
            Command::DeclareVar { name, sort } => self.variables.push(sorted(name, sort)),
            Command::DefineFun(definition) => self.definitions.push(Definition {
                name: symbol(definition.header.name).to_string(),
                place: definition.header.name.start(),
                arguments: arguments(&definition.header),
                sort: sort(definition.header.sort),
                body: definition.body.clone(),
            }),
            Command::SynthFun(synth) => self.synthesized.push(Synthesized {
                name: symbol(synth.header.name).to_string(),
                place: synth.header.name.start(),
                arguments: arguments(&synth.header),
                sort: sort(synth.header.sort),
                header: header_words(&synth.header),
                grammar: grammar(synth),
                definitions_before: self.definitions.len(),
            }),
            Command::Constraint(term) => self.constraints.push(constraint(tree, term)),
            Command::Assume(term) => self.assumptions.push(constraint(tree, term)),
            Command::CheckSynth => self.ended = true,
        }
    }

    /// "A command's name is in scope from there to the end".
    fn names_in_scope(&self) -> Vec<Declared<'_>> {
        let variables = self.variables.iter();
        let variables = variables.map(|one| (one.name.as_str(), one.place));
        let definitions = self.definitions.iter();
        let definitions = definitions.map(|one| (one.name.as_str(), one.place));
        let synthesized = self.synthesized.iter();
        let synthesized = synthesized.map(|one| (one.name.as_str(), one.place));
        variables.chain(definitions).chain(synthesized).collect()
    }

    /// What a body sees: its function's arguments and the first so many `define-fun`s.
    pub fn seen_by_function(&self, arguments: &[Sorted], definitions: usize) -> Vec<Name> {
        let definitions = self.definitions.iter().take(definitions);
        let definitions = definitions.map(|one| function(&one.name, &one.arguments, one.sort));
        leaves(arguments).into_iter().chain(definitions).collect()
    }

    /// "A grammar rule and a response body see the function's arguments and the `define-fun`s before that `synth-fun`;
    /// a rule also sees its non-terminals."
    pub fn seen_by_rule(&self, synth: &SynthFun) -> Vec<Name> {
        let mut seen = self.seen_by_function(&arguments(&synth.header), self.definitions.len());
        let nonterminals = synth.predeclared.iter();
        let nonterminals = nonterminals.map(|pair| sorted(pair.name, pair.sort));
        seen.extend(leaves(&nonterminals.collect::<Vec<Sorted>>()));
        seen
    }

    /// "Constraints see all earlier names", and assumptions are "under the same rules".
    pub fn seen_by_constraint(&self) -> Vec<Name> {
        let mut seen = self.seen_by_function(&self.variables, self.definitions.len());
        let synthesized = self.synthesized.iter();
        seen.extend(synthesized.map(|one| function(&one.name, &one.arguments, one.sort)));
        seen
    }
}

/// The new names of a header: the command's and its arguments'.
fn header_names<'a>(header: &Header<'a>) -> Vec<&'a Tree> {
    let arguments = header.arguments.iter().map(|argument| argument.name);
    [header.name].into_iter().chain(arguments).collect()
}

/// The new names of a command, in the order of their places.
pub fn new_names<'a>(command: &Command<'a>) -> Vec<&'a Tree> {
    match command {
        Command::DeclareVar { name, .. } => vec![name],
        Command::DefineFun(definition) => header_names(&definition.header),
        Command::SynthFun(synth) => {
            let nonterminals = synth.predeclared.iter().map(|pair| pair.name);
            let names = header_names(&synth.header).into_iter();
            names.chain(nonterminals).collect()
        }
        _ => Vec::new(),
    }
}

/// The words of a header as they are written.
fn header_words(header: &Header) -> Vec<String> {
    let words = header.words().into_iter();
    words.map(|(_, word)| word.to_string()).collect()
}

/// All places past a limit in a `synth-fun`: those of its header, the non-terminal, widths, the rule and terms.
fn past_limit_in_synth_fun(synth: &SynthFun) -> Vec<usize> {
    let mut places = synth.header.past_limit();
    let nonterminal = synth.predeclared.get(MOST_NONTERMINALS);
    places.extend(nonterminal.map(|pair| pair.tree.start()));
    places.extend(
        synth_fun_sorts(synth)
            .into_iter()
            .filter_map(width_past_limit),
    );
    let mut rules = synth.groups.iter().flat_map(|group| group.rules);
    places.extend(rules.clone().filter_map(weight_past_limit));
    places.extend(rules.nth(MOST_RULES).map(Tree::start));
    places.extend(rule_terms(synth).into_iter().filter_map(term_past_limit));
    places
}

/// All sorts written in a `synth-fun`: in its header, its predeclaration, its listing and its rules.
pub fn synth_fun_sorts<'a>(synth: &SynthFun<'a>) -> Vec<&'a Tree> {
    let mut sorts = synth.header.sorts();
    sorts.extend(synth.predeclared.iter().map(|pair| pair.sort));
    for group in &synth.groups {
        sorts.push(group.sort);
        for rule in group.rules {
            if let Some(RuleForm::Constant(sort) | RuleForm::Variable(sort)) = rule_form(rule) {
                sorts.push(sort);
            }
        }
    }
    sorts
}

/// All rules of a `synth-fun` that are terms.
pub fn rule_terms<'a>(synth: &SynthFun<'a>) -> Vec<&'a Tree> {
    let rules = synth.groups.iter().flat_map(|group| group.rules);
    let term = |rule| match rule_form(rule) {
        Some(RuleForm::Term(term)) => Some(term),
        _ => None,
    };
    rules.filter_map(term).collect()
}

/// The sort of a rule without fault.
pub fn rule_sort(rule: &Tree, seen: &[Name]) -> Sort {
    match rule_form(rule).expect("a rule") {
        RuleForm::Constant(written) | RuleForm::Variable(written) => sort(written),
        RuleForm::Term(term) => sort_of(term, seen).expect("a term without fault"),
    }
}

/// "answer 9 at the first of them where predeclared": the place of the first non-terminal that derives no term, in a grammar without
/// another fault.
fn dead_nonterminal(synth: &SynthFun) -> Option<usize> {
    let fruitful = grammar(synth).fruitful(&arguments(&synth.header));
    let mut pairs = synth.predeclared.iter().zip(fruitful);
    let dead = pairs.find(|(_, fruitful)| !fruitful);
    dead.map(|(pair, _)| pair.name.start())
}

/// The index of the non-terminal that 9 names at a place because it derives no term: at that predeclared name the start's sort may be
/// refused too.
pub fn dead_at(synth: &SynthFun, place: usize) -> Option<usize> {
    let mut pairs = synth.predeclared.iter();
    let index = pairs.position(|pair| pair.name.start() == place)?;
    let of_another_sort = sort(synth.predeclared[index].sort) != sort(synth.header.sort);
    (index > 0 || !of_another_sort).then_some(index)
}

/// The grammar of a `synth-fun` that is listed as declared.
pub fn grammar(synth: &SynthFun) -> Grammar {
    let nonterminals = synth.predeclared.iter();
    let nonterminals = nonterminals.map(|pair| sorted(pair.name, pair.sort));
    let form = |rule| match rule_form(rule).expect("a rule") {
        RuleForm::Constant(written) => Form::Constant(sort(written)),
        RuleForm::Variable(written) => Form::Variable(sort(written)),
        RuleForm::Term(term) => Form::Term(term.clone()),
    };
    let mut rules = Vec::new();
    for (nonterminal, group) in synth.groups.iter().enumerate() {
        rules.extend(group.rules.iter().map(|rule| Rule {
            nonterminal,
            form: form(rule),
            weight: weight(rule),
        }));
    }
    Grammar {
        nonterminals: nonterminals.collect(),
        rules,
    }
}
