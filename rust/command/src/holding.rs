//! What an evidence file holds, for people who follow it with a pencil: its blocks with their sums, and the parts of its payload.

use crate::answers::counted;
use crate::evidence::Held;
use crate::facts::Facts;
use crate::layout::{Block, Lengths, BLOCK, PAY};
use crate::text::spaced;
use std::io::{self, Write};
use std::ops::Range;
use sverdhyll::digest::sha256;
use sverdhyll::EVIDENCE_LENGTH;

/// At most so many blocks have a line: those of the longest file that there can be.
const MOST_BLOCKS: usize = EVIDENCE_LENGTH / BLOCK;
/// The texts in their order.
const TEXTS: [&str; 2] = ["script", "response"];

/// Writes what a file holds: its blocks, then its payload.
pub fn write(facts: &Facts, held: &Held, to: &mut impl Write) -> io::Result<()> {
    let layout = &held.layout;
    if held.file.bytes.is_empty() {
        return Ok(());
    }
    writeln!(
        to,
        "\n{}: {}; a block is {PAY} bytes of payload and the two bytes of their sum",
        held.file.name,
        held.size()
    )?;
    for (number, block) in layout.blocks.iter().enumerate().take(MOST_BLOCKS) {
        write_block(number, *block, to)?;
    }
    if layout.blocks.len() > MOST_BLOCKS {
        let more = counted((layout.blocks.len() - MOST_BLOCKS) as u64, "block");
        writeln!(to, "  and {more} more")?;
    }
    let summed = layout.blocks.iter().all(Block::is_right);
    match summed {
        true => write_payload(facts, held, to),
        false => Ok(()),
    }
}

/// Writes a block: where its payload stands, and its sums.
fn write_block(number: usize, block: Block, to: &mut impl Write) -> io::Result<()> {
    let start = number * PAY;
    let payload = format!("{start} to {}", start + PAY - 1);
    match block.sums {
        Some(sums) => {
            let mark = if block.is_right() { "" } else { "  wrong" };
            writeln!(
                to,
                "  block {number:<4} payload {payload:<17} sum {:<6} stored {}{mark}",
                sums.sum, sums.stored
            )
        }
        None => writeln!(
            to,
            "  block {number:<4} cut short, {} of {BLOCK} bytes",
            block.bytes
        ),
    }
}

/// Writes what the payload has, as far as its lengths lead.
fn write_payload(facts: &Facts, held: &Held, to: &mut impl Write) -> io::Result<()> {
    let layout = &held.layout;
    let Some(lengths) = layout.lengths else {
        return Ok(());
    };
    write_lengths(&lengths, to)?;
    let Some(contents) = &layout.contents else {
        return Ok(());
    };
    let texts = [&contents.script, &contents.response];
    for ((word, bytes), at) in TEXTS.into_iter().zip(texts).zip(lengths.texts()) {
        write_part(at, &format!("the {word}, sha256 {}", sha256(bytes)), to)?;
    }
    for (function, list) in contents.lists.iter().enumerate() {
        let (of, rules) = (function_named(facts, function), spaced(list));
        let what = format!("the list of {of}: {rules}");
        write_part(lengths.list(function), &what, to)?;
    }
    let end = (PAY * layout.blocks.len()) as u64;
    match layout.fault {
        None => write_part(lengths.needed()..end, "zeros", to),
        Some(_) => Ok(()),
    }
}

/// Writes the lengths that the payload begins with.
fn write_lengths(lengths: &Lengths, to: &mut impl Write) -> io::Result<()> {
    let Lengths {
        script,
        response,
        rules,
    } = lengths;
    writeln!(to, "payload:")?;
    write_part(0..4, &format!("length of the script, {script}"), to)?;
    write_part(4..8, &format!("length of the response, {response}"), to)?;
    let rules = spaced(rules);
    let what = format!("how many rules each of eight lists has, {rules}");
    write_part(8..24, &what, to)
}

/// The name of a function, or its number where the script does not have it or is refused.
fn function_named(facts: &Facts, function: usize) -> String {
    let passed = matches!(facts.answer.number, 0 | 22);
    match facts.given.read.synthesized.get(function) {
        Some(one) => one.name.clone(),
        None if passed => format!("function {function}, which is absent"),
        None => format!("function {function}"),
    }
}

/// Writes a line for some bytes of the payload, where there are any.
fn write_part(at: Range<u64>, what: &str, to: &mut impl Write) -> io::Result<()> {
    match at.is_empty() {
        true => Ok(()),
        false => writeln!(to, "  {:>6} to {:<6}  {what}", at.start, at.end - 1),
    }
}
