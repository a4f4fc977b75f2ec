// Counts by length (request 2): how many schedules of each length are permitted and unbroken, and how many are bad.
// Why: the report goes over many models, each closed by its G line, so its lines and refusals are its own.

use crate::lines::{split, take_order, Line, Order, Refusal};
use crate::model::Model;
use crate::reader::read;
use crate::requests::Requests;
use crate::search::{Tried, Walk};
use std::io::{Result, Write};

pub fn report(input: &[u8], requests: Requests, out: &mut impl Write) -> Result<()> {
    let lines = match split(input) {
        Ok(lines) => lines,
        Err(refusal) => return refuse(1, refusal, out),
    };
    for (number, part) in (1..).zip(parts(&lines)) {
        match read_part(part, requests) {
            Err(refusal) => return refuse(number, refusal, out),
            Ok((model, order)) => lengths(number, &model, order, out)?,
        }
    }
    Ok(())
}

/// The models with the G line that closes each; no input is one model that nothing closes.
fn parts<'l, 'i>(lines: &'l [Line<'i>]) -> Vec<&'l [Line<'i>]> {
    if lines.is_empty() {
        return vec![lines];
    }
    lines
        .split_inclusive(|line| line.bytes.first() == Some(&b'G'))
        .collect()
}

fn read_part(
    part: &[Line<'_>],
    requests: Requests,
) -> std::result::Result<(Model, Order), Refusal> {
    let mut lines = part.to_vec();
    let order = take_order(&mut lines)?;
    Ok((read(&lines, requests)?, order))
}

fn refuse(model: usize, refusal: Refusal, out: &mut impl Write) -> Result<()> {
    writeln!(out, "refused {model} {} {}", refusal.number, refusal.line)
}

/// A line for each length, or only a stop line if the budget is out first.
fn lengths(number: usize, model: &Model, order: Order, out: &mut impl Write) -> Result<()> {
    let mut walk = Walk::new(model, order.bound);
    // Permitted and bad ones by length; the empty schedule is permitted.
    let mut counts = vec![(0, 0); order.bound + 1];
    counts[0].0 = 1;
    let mut tries = 0;
    while walk.pairs_left() && tries < order.budget {
        tries += 1;
        let length = walk.length() + 1;
        match walk.advance() {
            Tried::Fine(_) => counts[length].0 += 1,
            Tried::Bad(..) => counts[length].1 += 1,
            Tried::Refused(_) => {}
        }
    }
    if walk.pairs_left() {
        return writeln!(out, "stop {number} {tries}");
    }
    for (length, (permitted, bad)) in counts.iter().enumerate() {
        writeln!(out, "{number} {length} {permitted} {bad}")?;
    }
    Ok(())
}
