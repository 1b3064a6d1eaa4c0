//! The points: from a text, every point there is, or chosen ones and pseudo-random ones after them.

use crate::edges::{edges, literals};
use crate::failure::Failure;
use crate::place::shown;
use crate::program::{program, Program};
use crate::random::Random;
use crate::search::search;
use crate::source::{Source, Text};
use simple::eval::{assumption_costs, constraint_costs, Functions, Value};
use simple::grammar::Sorted;
use simple::operators::Sort;
use simple::script::Script;
use simple::tree::Tree;
use std::collections::HashSet;
use std::fmt;
use std::ops::Range;
use sverdhyll::{Library, Position};

/// "1,024 point numbers": what one call of the checker takes.
pub const MOST_NUMBERS: usize = 1_024;
/// A text of points may have so many bytes.
const MOST_BYTES: usize = 1 << 26;
/// Every point is taken where there are at most 2 to this of them.
const ALL_BITS: u32 = 22;
/// So many points are taken where there are more.
const CHOSEN: u64 = 4_096;
/// Fewer of them are taken where they would cost more units, but always what one call takes.
const CHOSEN_UNITS: u128 = 20_000_000;
/// A pseudo-random point is drawn at most so often, until the assumptions hold at it.
const DRAWS: usize = 16;
/// So many values of terms are found in all to know where the assumptions hold.
const MOST_VALUES: usize = 20_000_000;
/// The search begins with so many points.
const POOL: usize = 160;
/// The seed where none is given.
pub const SEED: u64 = 1;

/// Where points come from.
#[derive(Clone, Debug, PartialEq, Eq)]
pub enum Wanted {
    /// Every point where there are not too many, else chosen ones.
    Fitting,
    Random {
        count: u64,
        seed: u64,
    },
    Read(Source),
}

/// What a point list is.
#[derive(Clone, Debug, PartialEq, Eq)]
pub enum Origin {
    /// Empty, for a script without variables.
    None,
    /// Every point that there is.
    All,
    Random {
        count: u64,
        seed: u64,
    },
    /// Read from a text of this name.
    File(String),
}

impl Origin {
    /// Its kind in a word.
    pub fn kind(&self) -> &'static str {
        match self {
            Origin::None => "none",
            Origin::All => "all",
            Origin::Random { .. } => "random",
            Origin::File(_) => "file",
        }
    }

    /// What `--points` would be to have the list again, where that is more than its kind.
    pub fn name(&self) -> Option<String> {
        match self {
            Origin::None | Origin::All => None,
            Origin::Random { count, seed } => Some(format!("random:{count}:{seed}")),
            Origin::File(name) => Some(name.clone()),
        }
    }
}

impl fmt::Display for Origin {
    /// What the list is, in words.
    fn fmt(&self, to: &mut fmt::Formatter) -> fmt::Result {
        match self {
            Origin::None => to.write_str("none, the script has no variables"),
            Origin::All => to.write_str("all that there are"),
            Origin::Random { count, seed } => write!(
                to,
                "random:{count}:{seed} (points at which a slip would show, edge values, then pseudo-random numbers)"
            ),
            Origin::File(name) => to.write_str(name),
        }
    }
}

/// A point list, and what is known of where it comes from.
#[derive(Clone, Debug)]
pub struct Points {
    pub origin: Origin,
    /// The numbers of a text, or of the points that were chosen, with which the list begins.
    pub listed: Vec<u64>,
    /// The text that the list was read from, with where each number stands in it.
    pub text: Option<(Text, Vec<Range<usize>>)>,
    /// The edge values of each variable.
    edges: Vec<Vec<u64>>,
}

/// What points are chosen for: what the two texts say, and the texts.
pub struct Subject<'a> {
    pub script: &'a Script,
    pub bodies: &'a [Tree],
    pub texts: [&'a [u8]; 2],
    pub budget: u64,
}

impl Points {
    /// No points.
    pub fn none() -> Points {
        Points {
            origin: Origin::None,
            listed: Vec::new(),
            text: None,
            edges: Vec::new(),
        }
    }

    /// The text that a number was read from, and where it stands in it.
    pub fn written(&self, index: usize) -> Option<(&Text, Range<usize>)> {
        let (text, spans) = self.text.as_ref()?;
        Some((text, spans.get(index)?.clone()))
    }

    /// How many different points a list of points of so many numbers has.
    pub fn distinct(&self, numbers: usize) -> u64 {
        let points = self.listed.chunks(numbers.max(1));
        points.collect::<HashSet<&[u64]>>().len() as u64
    }

    /// How many points there are for so many variables.
    pub fn count(&self, variables: &[Sorted]) -> u64 {
        match self.origin {
            Origin::None => 0,
            Origin::All => 1 << bits(variables),
            Origin::Random { count, .. } => count,
            Origin::File(_) => (self.listed.len() / variables.len().max(1)) as u64,
        }
    }
}

impl Wanted {
    /// The points of a text; none where they are made for the script.
    pub fn given(&self, library: &mut Library) -> Result<Points, Failure> {
        match self {
            Wanted::Read(source) => read(library, source.read(MOST_BYTES)?),
            _ => Ok(Points::none()),
        }
    }

    /// The points that are made for a script and its bodies.
    pub fn made(&self, subject: &Subject) -> Points {
        let variables = &subject.script.variables;
        let origin = self.origin(subject);
        let Origin::Random { count, seed } = origin else {
            return Points {
                origin,
                ..Points::none()
            };
        };
        let literals = literals(&subject.texts);
        let edges = variables.iter().map(|one| edges(one.sort, &literals));
        let edges: Vec<Vec<u64>> = edges.collect();
        Points {
            listed: chosen(subject, &edges, count, seed).concat(),
            origin,
            text: None,
            edges,
        }
    }

    /// What the list of points that are made is.
    fn origin(&self, subject: &Subject) -> Origin {
        let variables = &subject.script.variables;
        let all = bits(variables);
        let cost = cost(subject);
        match self {
            _ if variables.is_empty() => Origin::None,
            Wanted::Random { count, seed } => match all <= ALL_BITS && *count >= 1 << all {
                true => Origin::All,
                false => Origin::Random {
                    count: *count,
                    seed: *seed,
                },
            },
            _ if all <= ALL_BITS && cost << all <= u128::from(subject.budget) => Origin::All,
            _ => {
                let one_call = (MOST_NUMBERS / variables.len()) as u64;
                let fitting = u64::try_from(CHOSEN_UNITS / cost.max(1)).unwrap_or(CHOSEN);
                let random = Wanted::Random {
                    count: CHOSEN.min(fitting).max(one_call),
                    seed: SEED,
                };
                random.origin(subject)
            }
        }
    }
}

/// How many bits a point has.
pub fn bits(variables: &[Sorted]) -> u32 {
    let bits = |one: &Sorted| match one.sort {
        Sort::Bool => 1,
        Sort::BitVec(width) => width,
    };
    variables.iter().map(bits).sum()
}

/// What all assumptions and constraints cost at one point, at most 2^64.
fn cost(subject: &Subject) -> u128 {
    let functions = Functions::new(subject.script, subject.bodies);
    let costs = assumption_costs(subject.script, &functions).into_iter();
    let costs = costs.chain(constraint_costs(subject.script, &functions));
    let cost = costs.fold(0, u128::saturating_add);
    cost.min(1 << 64)
}

/// Whether the assumptions hold at points, as long as that may be asked.
struct Assumed<'a> {
    program: &'a Program<'a>,
    /// All that must be known to know the assumptions.
    below: Vec<usize>,
    values: Vec<Value>,
    /// How many values may still be found.
    left: usize,
}

impl<'a> Assumed<'a> {
    /// The assumptions of a program; none where it has none.
    fn new(program: &'a Program<'a>) -> Option<Assumed<'a>> {
        let assumed = Assumed {
            program,
            below: program.below(&program.assumed),
            values: vec![Value::Bool(false); program.nodes.len()],
            left: MOST_VALUES,
        };
        (!program.assumed.is_empty()).then_some(assumed)
    }

    /// Whether the assumptions hold at a point, or that may not be asked any more.
    fn may_hold(&mut self, point: &[u64]) -> bool {
        if self.left < self.below.len() {
            return true;
        }
        self.left -= self.below.len();
        self.program.holds(&self.below, point, &mut self.values)
    }
}

/// The points with which a list begins, at most so many: those that a search finds, then edge values.
fn chosen(subject: &Subject, edges: &[Vec<u64>], count: u64, seed: u64) -> Vec<Vec<u64>> {
    let most = usize::try_from(count).unwrap_or(usize::MAX);
    let mut random = Random(seed);
    let mut pool = edge_points(edges, POOL, &mut random);
    pool.extend((0..POOL / 4).map(|_| random_point(&subject.script.variables, edges, &mut random)));
    let program = program(subject.script, subject.bodies);
    let program = program.filter(|program| !program.roots.is_empty());
    let found = program.as_ref().map(|one| search(one, &pool, seed));
    let mut known = HashSet::new();
    let mut chosen = found.unwrap_or_default();
    let mut behind = edge_points(edges, most / 2, &mut random);
    if let Some(mut assumed) = program.as_ref().and_then(Assumed::new) {
        behind.sort_by_cached_key(|point| !assumed.may_hold(point));
    }
    chosen.append(&mut behind);
    chosen.retain(|point| known.insert(key(point)));
    chosen.truncate(most);
    chosen
}

/// At most so many points of edge values: those where every variable has its edge value of the same index, then those where two variables have any two.
fn edge_points(edges: &[Vec<u64>], most: usize, random: &mut Random) -> Vec<Vec<u64>> {
    let longest = edges.iter().map(Vec::len).max().unwrap_or(0);
    let point = |index: &mut dyn FnMut(usize) -> usize| -> Vec<u64> {
        let values = edges.iter().enumerate();
        values
            .map(|(variable, edges)| edges[index(variable) % edges.len()])
            .collect()
    };
    let same = (0..longest.min(most.div_ceil(2))).map(|index| point(&mut |_| index));
    let mut points: Vec<Vec<u64>> = same.collect();
    let variables =
        (0..edges.len()).flat_map(|first| (0..edges.len()).map(move |second| (first, second)));
    let variables: Vec<(usize, usize)> = variables
        .filter(|(first, second)| first != second)
        .collect();
    let indices =
        (0..longest).flat_map(|greater| (0..=greater).map(move |lesser| (greater, lesser)));
    let pairs = indices.flat_map(|two| variables.iter().map(move |&variables| (two, variables)));
    for ((greater, lesser), (first, second)) in pairs.take(most - points.len()) {
        points.push(point(&mut |variable| match variable {
            _ if variable == first => greater,
            _ if variable == second => lesser,
            _ => random.below(longest),
        }));
    }
    points
}

/// A point of pseudo-random numbers, one in four of them an edge value and one in four of any length.
fn random_point(variables: &[Sorted], edges: &[Vec<u64>], random: &mut Random) -> Vec<u64> {
    let mut number = |(variable, edges): (&Sorted, &Vec<u64>)| match random.below(4) {
        0 => edges[random.below(edges.len())],
        1 => random.short() & variable.sort.greatest(),
        _ => random.next() & variable.sort.greatest(),
    };
    variables.iter().zip(edges).map(&mut number).collect()
}

/// A number for a point, by which points are told apart.
fn key(point: &[u64]) -> u128 {
    point.iter().fold(0, |key, &number| {
        let low = Random(key as u64 ^ number).next();
        let high = Random((key >> 64) as u64 ^ number.rotate_left(32)).next();
        u128::from(high) << 64 | u128::from(low)
    })
}

/// The numbers of a point list, part after part.
pub struct Parts<'a> {
    points: &'a Points,
    variables: &'a [Sorted],
    /// How many points were taken.
    taken: u64,
    random: Random,
    /// The points that were taken, where they are chosen and pseudo-random ones.
    known: HashSet<u128>,
    assumed: Option<Assumed<'a>>,
}

impl<'a> Parts<'a> {
    /// The parts of a list for a script's variables; pseudo-random points are rather those at which the assumptions of its program hold.
    pub fn new(
        points: &'a Points,
        variables: &'a [Sorted],
        program: Option<&'a Program<'a>>,
    ) -> Parts<'a> {
        let (known, seed) = match points.origin {
            Origin::Random { seed, .. } => {
                let listed = points.listed.chunks(variables.len().max(1));
                (listed.map(key).collect(), !seed)
            }
            _ => (HashSet::new(), SEED),
        };
        Parts {
            points,
            variables,
            taken: 0,
            random: Random(seed),
            known,
            assumed: program.and_then(Assumed::new),
        }
    }

    /// The numbers of the next points, at most as many as one call takes; none at the end.
    pub fn next(&mut self) -> Vec<u64> {
        let width = self.variables.len().max(1);
        let count = self.points.count(self.variables);
        let most = count.min(self.taken + (MOST_NUMBERS / width) as u64);
        let mut numbers = Vec::new();
        while self.taken < most {
            let point = self.point();
            numbers.extend(point);
            self.taken += 1;
        }
        numbers
    }

    /// The next point.
    fn point(&mut self) -> Vec<u64> {
        if self.points.origin == Origin::All {
            return nth_point(self.variables, self.taken);
        }
        let width = self.variables.len().max(1);
        let at = usize::try_from(self.taken)
            .unwrap_or(usize::MAX)
            .saturating_mul(width);
        if let Some(listed) = self.points.listed.get(at..at.saturating_add(width)) {
            return listed.to_vec();
        }
        let mut point = self.drawn();
        while !self.known.insert(key(&point)) {
            point = random_point(self.variables, &self.points.edges, &mut self.random);
        }
        point
    }

    /// A pseudo-random point, if possible one at which the assumptions hold.
    fn drawn(&mut self) -> Vec<u64> {
        let mut draw = || random_point(self.variables, &self.points.edges, &mut self.random);
        let mut point = draw();
        if let Some(assumed) = &mut self.assumed {
            for _ in 1..DRAWS {
                if assumed.may_hold(&point) {
                    break;
                }
                point = draw();
            }
        }
        point
    }
}

/// The point of an index among all, the last variable changing first.
fn nth_point(variables: &[Sorted], index: u64) -> Vec<u64> {
    let mut rest = index;
    let mut point: Vec<u64> = Vec::new();
    for variable in variables.iter().rev() {
        let greatest = variable.sort.greatest();
        point.push(rest & greatest);
        rest >>= greatest.count_ones();
    }
    point.reverse();
    point
}

/// The points that a text has.
fn read(library: &mut Library, text: Text) -> Result<Points, Failure> {
    let Numbers {
        text,
        numbers,
        spans,
    } = numbers_of(library, text, "points")?;
    Ok(Points {
        origin: Origin::File(text.name.clone()),
        listed: numbers,
        text: Some((text, spans)),
        edges: Vec::new(),
    })
}

/// The numbers of a text, and where each stands in it.
pub struct Numbers {
    pub text: Text,
    pub numbers: Vec<u64>,
    pub spans: Vec<Range<usize>>,
}

/// The numbers of a source, which are of this kind.
pub fn located_numbers(
    library: &mut Library,
    source: &Source,
    kind: &str,
) -> Result<Numbers, Failure> {
    numbers_of(library, source.read(MOST_BYTES)?, kind)
}

/// The numbers of a text, separated by white space, with comments from `;` to the end of a line.
fn numbers_of(library: &mut Library, text: Text, kind: &str) -> Result<Numbers, Failure> {
    if text.bytes.len() > MOST_BYTES {
        return Err(Failure(format!(
            "{} has more than {MOST_BYTES} bytes of {kind}",
            text.name
        )));
    }
    let mut numbers = Vec::new();
    let spans = spans_of(&text.bytes);
    for at in &spans {
        match number(&text.bytes[at.clone()]) {
            Some(number) => numbers.push(number),
            None => return Err(no_number(library, &text, at.clone())),
        }
    }
    Ok(Numbers {
        text,
        numbers,
        spans,
    })
}

/// The message for a word that is no number.
fn no_number(library: &mut Library, text: &Text, at: Range<usize>) -> Failure {
    let Position { line, column, .. } = match library.position(&text.bytes, at.start) {
        Ok(position) => position,
        Err(error) => return error.into(),
    };
    let word = &text.bytes[at];
    let word = shown(&word[..word.len().min(80)]);
    Failure(format!(
        "{}:{line}:{column}: {word} is no number from 0 to 2^64 - 1 (decimal, 0x.., #x.. or #b..)",
        text.name
    ))
}

/// Where the words of a text of numbers stand.
fn spans_of(text: &[u8]) -> Vec<Range<usize>> {
    let mut spans = Vec::new();
    let mut start = None;
    let mut in_comment = false;
    for (at, &byte) in text.iter().chain(b"\n").enumerate() {
        if in_comment || byte.is_ascii_whitespace() || byte == b';' {
            spans.extend(start.take().map(|start| start..at));
            in_comment = (in_comment || byte == b';') && byte != b'\n' && byte != b'\r';
        } else if start.is_none() {
            start = Some(at);
        }
    }
    spans
}

/// The 64-bit number that a word writes.
pub fn number(word: &[u8]) -> Option<u64> {
    let word = std::str::from_utf8(word).ok()?;
    let (radix, digits) = match word.get(..2) {
        Some("0x" | "0X" | "#x") => (16, &word[2..]),
        Some("#b") => (2, &word[2..]),
        _ => (10, word),
    };
    let sound = digits
        .bytes()
        .all(|digit| char::from(digit).is_digit(radix));
    sound.then(|| u64::from_str_radix(digits, radix).ok())?
}

#[cfg(test)]
mod tests {
    use super::*;

    /// A sound script with one function and variables, and the body of the function.
    fn subject(variables: &str, constraint: &str, body: &str) -> (String, String) {
        let rules =
            "((Variable (_ BitVec 32)) (Constant (_ BitVec 32)) (bvadd W W) (ite (= W W) W W))";
        let function = "synth-fun f ((n (_ BitVec 32))) (_ BitVec 32) ((W (_ BitVec 32)))";
        let script = format!("(set-logic BV)({function} ((W (_ BitVec 32) {rules}))){variables}(constraint {constraint})(check-synth)");
        (
            script,
            format!("((define-fun f ((n (_ BitVec 32))) (_ BitVec 32) {body}))"),
        )
    }

    /// The points that are wanted for a script and a response, all of them, and how many numbers one has.
    fn made(wanted: &Wanted, (script, response): &(String, String)) -> (Points, Vec<u64>) {
        let texts = [script.as_bytes(), response.as_bytes()];
        let script = simple::script::read(texts[0]).expect("a sound script");
        let bodies = simple::response::read(texts[1], &script).expect("a sound response");
        let points = wanted.made(&Subject {
            script: &script,
            bodies: &bodies,
            texts,
            budget: 1_000_000_000,
        });
        let program = program(&script, &bodies);
        let mut parts = Parts::new(&points, &script.variables, program.as_ref());
        let mut numbers = Vec::new();
        loop {
            let next = parts.next();
            if next.is_empty() {
                return (points, numbers);
            }
            assert!(next.len() <= MOST_NUMBERS);
            numbers.extend(next);
        }
    }

    /// The points of a shipped text.
    fn numbers(library: &mut Library, text: &'static str) -> Result<Vec<u64>, Failure> {
        let wanted = Wanted::Read(Source::Shipped("p", text));
        wanted.given(library).map(|points| points.listed)
    }

    #[test]
    fn numbers_in_every_form() {
        let text = "10 0x1F;0x1 2\n#xfF\t#b101 ; last\r 18446744073709551615 007";
        let mut library = Library::open().expect("the checker");
        let all = vec![10, 31, 255, 5, u64::MAX, 7];
        assert_eq!(numbers(&mut library, text), Ok(all));
        assert_eq!(numbers(&mut library, " ; none"), Ok(Vec::new()));
    }

    #[test]
    fn words_that_are_no_numbers() {
        let mut library = Library::open().expect("the checker");
        for text in [
            "ten",
            "-1",
            "+1",
            "0x",
            "#b2",
            "#b",
            "1,2",
            "18446744073709551616",
            "#x10000000000000000",
            "1.5",
            "true",
            "0b1",
            "\u{e9}",
        ] {
            assert!(numbers(&mut library, text).is_err(), "{text}");
        }
        let message = "p:2:3: 12a is no number from 0 to 2^64 - 1 (decimal, 0x.., #x.. or #b..)";
        let found = numbers(&mut library, "1\n  12a");
        assert_eq!(found, Err(Failure(message.to_string())));
    }

    #[test]
    fn every_point_where_there_are_not_too_many() {
        let two = subject(
            "(declare-var p Bool)(declare-var x (_ BitVec 2))",
            "(or p true)",
            "n",
        );
        let (points, numbers) = made(&Wanted::Fitting, &two);
        assert_eq!(numbers, [0, 0, 0, 1, 0, 2, 0, 3, 1, 0, 1, 1, 1, 2, 1, 3]);
        assert_eq!(points.origin, Origin::All);
        let many = Wanted::Random { count: 8, seed: 3 };
        assert_eq!(made(&many, &two).0.origin, Origin::All);
        let wide = subject("(declare-var x (_ BitVec 16))", "(= x x)", "n");
        assert_eq!(
            made(&Wanted::Fitting, &wide).1,
            (0..1 << 16).collect::<Vec<u64>>()
        );
        let none = subject("", "true", "n");
        assert_eq!(made(&Wanted::Fitting, &none).0.origin, Origin::None);
    }

    #[test]
    fn chosen_points_are_different_and_of_their_seed() {
        let three = subject(
            "(declare-var p Bool)(declare-var x (_ BitVec 64))(declare-var y (_ BitVec 3))",
            "(=> p (= x x))",
            "n",
        );
        let wanted = |seed| Wanted::Random { count: 2_000, seed };
        let (points, numbers) = made(&wanted(7), &three);
        assert_eq!(
            (points.origin.name().as_deref(), numbers.len()),
            (Some("random:2000:7"), 6_000)
        );
        assert!(numbers
            .chunks(3)
            .all(|point| point[0] <= 1 && point[2] <= 7));
        let different: HashSet<&[u64]> = numbers.chunks(3).collect();
        assert_eq!(different.len(), 2_000);
        assert_eq!(made(&wanted(7), &three).1, numbers);
        assert_ne!(made(&wanted(8), &three).1, numbers);
        assert!(made(&Wanted::Random { count: 0, seed: 1 }, &three)
            .1
            .is_empty());
        assert_eq!(
            made(&Wanted::Fitting, &three).0.origin.name().as_deref(),
            Some("random:4096:1")
        );
    }

    #[test]
    fn a_constraint_that_is_false_at_one_point_is_false_at_the_first() {
        let constraint = "(=> (= x #x12345678) (= (f (bvmul x #x00000003)) #x00000007))";
        let one = subject(
            "(declare-var x (_ BitVec 32))",
            constraint,
            "(bvadd n #x00000007)",
        );
        for seed in 1..=20 {
            let (_, numbers) = made(&Wanted::Random { count: 9, seed }, &one);
            assert_eq!(numbers[0], 0x1234_5678, "seed {seed}");
        }
    }

    #[test]
    fn most_points_are_such_that_the_assumptions_hold() {
        let declared =
            "(declare-var x (_ BitVec 32))(declare-var y (_ BitVec 32))(assume (bvult x y))";
        let assumed = format!("{declared}(assume (= ((_ extract 1 0) y) #b10))");
        let wanted = Wanted::Random {
            count: 1_000,
            seed: 1,
        };
        let holds = |point: &&[u64]| point[0] < point[1] && point[1] % 4 == 2;
        let (_, numbers) = made(&wanted, &subject(&assumed, "(= x x)", "n"));
        assert_eq!(numbers.len(), 2_000);
        let held = numbers.chunks(2).filter(holds).count();
        assert!(held > 500, "{held}");
        let false_only = "(=> (= (f x) #x00000007) (= y #x00000008))";
        let (_, numbers) = made(&wanted, &subject(&assumed, false_only, "n"));
        assert!(holds(&&numbers[..2]) && numbers[0] == 7, "{numbers:?}");
    }

    #[test]
    fn a_list_of_nearly_all_points_ends() {
        let declared = "(declare-var x (_ BitVec 8))(assume (distinct x #x05))";
        let wanted = Wanted::Random {
            count: 255,
            seed: 1,
        };
        let (_, numbers) = made(&wanted, &subject(declared, "(= x x)", "n"));
        assert_eq!(numbers.iter().collect::<HashSet<_>>().len(), 255);
    }

    #[test]
    fn constants_that_seldom_matter_are_reached() {
        let constraint =
            "(= (f (bvxor x #x0badcafe)) (ite (= x #x0badf00d) #x00000001 (bvxor x #x0badcafe)))";
        let body = "(ite (= n #x00003af3) #x00000001 n)";
        let one = subject("(declare-var x (_ BitVec 32))", constraint, body);
        let (_, numbers) = made(
            &Wanted::Random {
                count: 200,
                seed: 1,
            },
            &one,
        );
        assert!(numbers.contains(&0x0bad_f00d));
        for wrong in ["#x00003af2", "#x40003af3", "#x000030f3"] {
            let response = one.1.replace("#x00003af3", wrong);
            let point = made(&Wanted::Fitting, &(one.0.clone(), response)).1[0];
            let wrong = u64::from_str_radix(&wrong[2..], 16).expect("a number");
            assert!(
                [0x0bad_f00d, 0x0bad_cafe ^ wrong].contains(&point),
                "{wrong:x}"
            );
        }
    }
}
