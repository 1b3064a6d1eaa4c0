//! "Signed arithmetic": the values of the request and its readings, of all pairs of short words and of edges of long ones.

use crate::{answer, holds, script_with, TRUE};

/// The operators that give a word.
pub const WORDS: [&str; 4] = ["bvsdiv", "bvsrem", "bvsmod", "bvashr"];
/// The operators that give a Bool.
pub const ORDERS: [&str; 7] = [
    "bvslt", "bvsle", "bvsgt", "bvsge", "bvule", "bvugt", "bvuge",
];

/// Two operands and the result.
type Row = [u64; 3];

/// All eleven names in the order of the request.
pub fn names() -> Vec<&'static str> {
    [&WORDS[..], &ORDERS].concat()
}

/// Holds an operator on words of a width to its results: all are right, and the last one is wrong with its lowest bit changed.
fn has_results(name: &str, width: u32, rows: &[Row]) {
    let sort = format!("(_ BitVec {width})");
    let result = match ORDERS.contains(&name) {
        true => "Bool",
        false => &sort,
    };
    let script = script_with(&format!(
        "(declare-var a {sort})(declare-var b {sort})(declare-var c {result})(constraint (= ({name} a b) c))"
    ));
    for part in rows.chunks(300) {
        let (points, count) = (part.concat(), part.len() as u64);
        let expected = (0, 3, 0, count, 5 * count);
        let found = answer(&script, TRUE, &points, u64::MAX);
        let row = part.get(found.2 as usize);
        assert_eq!(found, expected, "{name} {width} {row:x?}");
    }
    let [a, b, c] = rows[rows.len() - 1];
    let found = answer(&script, TRUE, &[a, b, c ^ 1], u64::MAX);
    assert_eq!(found, (14, 2, 0, 0, 5), "{name} {width}");
}

/// The only number from -2^(n+1) to 2^(n+1) that a test takes.
fn only(n: u32, takes: impl Fn(i64) -> bool) -> i64 {
    let bound = 2 << n;
    let taken: Vec<i64> = (-bound..=bound).filter(|&one| takes(one)).collect();
    assert_eq!(taken.len(), 1);
    taken[0]
}

/// The number of n bits, from -2^(n-1) on, that differs from a word by a multiple of 2^n.
fn signed(n: u32, word: u64) -> i64 {
    let half = 1 << (n - 1);
    only(n, |one| {
        (-half..half).contains(&one) && (one - word as i64) % (1 << n) == 0
    })
}

/// The word of width n that differs from a number by a multiple of 2^n.
fn word(n: u32, number: i64) -> u64 {
    let found = only(n, |one| {
        (0..1 << n).contains(&one) && (one - number) % (1 << n) == 0
    });
    found as u64
}

/// The word of width n whose bit k is the first word's bit k + shift, or its highest one where there is none.
fn shifted(n: u32, a: u64, shift: u64) -> u64 {
    let bit = |k: u64| a >> k.saturating_add(shift).min(u64::from(n) - 1) & 1;
    (0..u64::from(n)).map(|k| bit(k) << k).sum()
}

/// The result of an operator that gives a word of width n, found by search for the number that the definition takes.
fn found_word(name: &str, n: u32, a: u64, b: u64) -> u64 {
    let (x, y) = (signed(n, a), signed(n, b));
    let small = |rest: i64, sign: i64| rest.abs() < y.abs() && rest * sign >= 0;
    match name {
        "bvashr" => shifted(n, a, b),
        "bvsdiv" if y == 0 && x < 0 => 1,
        "bvsdiv" if y == 0 => word(n, -1),
        "bvsdiv" => word(n, only(n, |quotient| small(x - quotient * y, x))),
        _ if y == 0 => a,
        "bvsrem" => word(n, only(n, |rest| small(rest, x) && (x - rest) % y == 0)),
        _ => word(n, only(n, |rest| small(rest, y) && (x - rest) % y == 0)),
    }
}

/// The result of an operator that gives a Bool, by the places of both words in the order of all words.
fn found_order(name: &str, n: u32, a: u64, b: u64) -> u64 {
    let all = 0..1 << n;
    let (upper, lower): (Vec<u64>, Vec<u64>) = all.partition(|one| one >> (n - 1) == 1);
    let order = match name.starts_with("bvs") {
        true => [upper, lower].concat(),
        false => [lower, upper].concat(),
    };
    let place = |word: u64| order.iter().position(|&one| one == word);
    let holds = match &name[3..] {
        "lt" => place(a) < place(b),
        "le" => place(a) <= place(b),
        "gt" => place(a) > place(b),
        _ => place(a) >= place(b),
    };
    u64::from(holds)
}

/// The row of two operands of width n with the result that is found.
fn found_row(name: &str, n: u32, a: u64, b: u64) -> Row {
    let found = match ORDERS.contains(&name) {
        true => found_order(name, n, a, b),
        false => found_word(name, n, a, b),
    };
    [a, b, found]
}

#[test]
fn the_examples_of_the_request_hold() {
    holds(&[
        ("(bvsdiv #x80 #xFF)", "#x80"),
        ("(bvsrem #xF9 #x02)", "#xFF"),
        ("(bvsmod #xF9 #x02)", "#x01"),
    ]);
}

#[test]
fn the_readings_of_values_hold() {
    let table = [
        ("(bvsdiv #x05 #x00)", "#xFF"),
        ("(bvsdiv #xFB #x00)", "#x01"),
        ("(bvsrem #xFB #x00)", "#xFB"),
        ("(bvsmod #xFB #x00)", "#xFB"),
        ("(bvsmod #x07 #xFE)", "#xFF"),
        ("(bvsrem #x07 #xFE)", "#x01"),
        ("(bvashr #x80 #x08)", "#xFF"),
        ("(bvashr #x80 #xFF)", "#xFF"),
        ("(bvashr #x40 #x09)", "#x00"),
        ("(bvsdiv #b1 #b1)", "#b1"),
    ];
    holds(&table);
    for (term, value) in table {
        let script = script_with(&format!("(constraint (= {term} {value}))"));
        assert_eq!(answer(&script, TRUE, &[], 100), (0, 3, 0, 1, 5), "{term}");
    }
}

#[test]
fn all_pairs_of_widths_1_to_4_have_the_results_found_by_search() {
    for name in names() {
        for n in 1..=4 {
            let all = 0..1_u64 << n;
            let pairs = all.clone().flat_map(|a| all.clone().map(move |b| (a, b)));
            let rows: Vec<Row> = pairs.map(|(a, b)| found_row(name, n, a, b)).collect();
            has_results(name, n, &rows);
        }
    }
}

#[test]
fn edges_of_8_bits_have_the_results_found_by_search() {
    let edges = [0, 1, 2, 7, 8, 9, 127, 128, 129, 254, 255];
    for name in names() {
        let pairs = edges.into_iter();
        let pairs = pairs.flat_map(|a| edges.map(|b| (a, b)));
        let rows: Vec<Row> = pairs.map(|(a, b)| found_row(name, 8, a, b)).collect();
        has_results(name, 8, &rows);
    }
}

#[test]
fn words_of_1_bit_have_these_results() {
    let [no, yes] = [0, 1];
    has_results("bvsdiv", 1, &[[0, 0, 1], [0, 1, 0], [1, 0, 1], [1, 1, 1]]);
    has_results("bvsrem", 1, &[[0, 0, 0], [0, 1, 0], [1, 0, 1], [1, 1, 0]]);
    has_results("bvsmod", 1, &[[0, 0, 0], [0, 1, 0], [1, 0, 1], [1, 1, 0]]);
    has_results("bvashr", 1, &[[0, 0, 0], [0, 1, 0], [1, 0, 1], [1, 1, 1]]);
    has_results("bvslt", 1, &[[0, 1, no], [1, 0, yes], [1, 1, no]]);
    has_results("bvsle", 1, &[[0, 1, no], [1, 0, yes], [1, 1, yes]]);
    has_results("bvsgt", 1, &[[0, 1, yes], [1, 0, no], [1, 1, no]]);
    has_results("bvsge", 1, &[[0, 1, yes], [1, 0, no], [1, 1, yes]]);
    has_results("bvule", 1, &[[0, 1, yes], [1, 0, no], [1, 1, yes]]);
    has_results("bvugt", 1, &[[0, 1, no], [1, 0, yes], [1, 1, no]]);
    has_results("bvuge", 1, &[[0, 1, no], [1, 0, yes], [1, 1, yes]]);
}

/// The edges of a width: -1, the least number and the greatest one.
fn edges(width: u32) -> [u64; 3] {
    let least = 1 << (width - 1);
    [u64::MAX >> (64 - width), least, least - 1]
}

#[test]
fn edges_have_these_quotients() {
    for width in [8, 63, 64] {
        let [minus, least, greatest] = edges(width);
        let rows = [
            [least, minus, least],
            [least, 1, least],
            [least, least, 1],
            [least, greatest, minus],
            [least, 2, minus - least / 2 + 1],
            [least, minus - 1, least / 2],
            [greatest, minus, least + 1],
            [greatest, least, 0],
            [greatest, greatest, 1],
            [minus, least, 0],
            [minus, 2, 0],
            [1, minus, minus],
            [0, least, 0],
            [0, 0, minus],
            [1, 0, minus],
            [greatest, 0, minus],
            [least, 0, 1],
            [minus, 0, 1],
        ];
        has_results("bvsdiv", width, &rows);
    }
}

#[test]
fn edges_have_these_remainders() {
    for width in [8, 63, 64] {
        let [minus, least, greatest] = edges(width);
        let both = [
            [least, minus, 0],
            [least, 1, 0],
            [least, least, 0],
            [greatest, minus, 0],
            [greatest, 2, 1],
            [minus, least, minus],
            [minus, minus - 1, minus],
            [1, greatest, 1],
            [0, least, 0],
            [0, 0, 0],
            [1, 0, 1],
            [greatest, 0, greatest],
            [least, 0, least],
            [minus, 0, minus],
        ];
        let by_dividend = [
            [least, greatest, minus],
            [greatest, least, greatest],
            [minus, 2, minus],
            [minus, greatest, minus],
            [1, minus - 1, 1],
            [1, least, 1],
        ];
        let by_divisor = [
            [least, greatest, greatest - 1],
            [greatest, least, minus],
            [minus, 2, 1],
            [minus, greatest, greatest - 1],
            [1, minus - 1, minus],
            [1, least, least + 1],
        ];
        has_results("bvsrem", width, &[&both[..], &by_dividend].concat());
        has_results("bvsmod", width, &[&both[..], &by_divisor].concat());
    }
}

#[test]
fn edges_have_these_shifts() {
    for width in [8, 63, 64] {
        let [minus, least, greatest] = edges(width);
        let n = u64::from(width);
        let rows = [
            [least, 0, least],
            [least, 1, least + least / 2],
            [least, n - 2, minus - 1],
            [least, n - 1, minus],
            [least, n, minus],
            [least, n + 1, minus],
            [least, greatest, minus],
            [least, least, minus],
            [least, minus, minus],
            [minus, 0, minus],
            [minus, 1, minus],
            [minus, least, minus],
            [greatest, 0, greatest],
            [greatest, 1, greatest / 2],
            [greatest, n - 2, 1],
            [greatest, n - 1, 0],
            [greatest, n, 0],
            [greatest, least, 0],
            [greatest, minus, 0],
            [0, minus, 0],
        ];
        has_results("bvashr", width, &rows);
    }
}

#[test]
fn edges_have_these_orders() {
    for width in [8, 63, 64] {
        let [minus, least, greatest] = edges(width);
        let negative = [least, least + 1, minus - 1, minus];
        let others = [0, 1, greatest - 1, greatest];
        for name in ORDERS {
            let order = match name.starts_with("bvs") {
                true => [negative, others].concat(),
                false => [others, negative].concat(),
            };
            let holds = |i: usize, j: usize| match &name[3..] {
                "lt" => i < j,
                "le" => i <= j,
                "gt" => i > j,
                _ => i >= j,
            };
            let pairs = (0..8).flat_map(|i| (0..8).map(move |j| (i, j)));
            let rows = pairs.map(|(i, j)| [order[i], order[j], u64::from(holds(i, j))]);
            has_results(name, width, &rows.collect::<Vec<Row>>());
        }
    }
}
