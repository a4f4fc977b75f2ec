// The two programs: list and run, from input bytes to output lines.
// Why: their words and the order of judging (26, then G or R, then the model) are fixed here.

use crate::lines::{split, take_codes, take_order, Order, Refusal};
use crate::machine::Event;
use crate::model::Model;
use crate::reader::read;
use crate::requests::Requests;
use crate::run::Run;
use crate::search::{Tried, Walk};
use std::io::{Result, Write};

pub fn list(input: &[u8], requests: Requests, out: &mut impl Write) -> Result<()> {
    match read_list(input, requests) {
        Err(refusal) => refuse(refusal, out),
        Ok((model, order)) => listing(&model, order, out),
    }
}

pub fn run(input: &[u8], requests: Requests, out: &mut impl Write) -> Result<()> {
    match read_run(input, requests) {
        Err(refusal) => refuse(refusal, out),
        Ok((model, codes)) => running(&model, &codes, out),
    }
}

pub fn read_list(input: &[u8], requests: Requests) -> std::result::Result<(Model, Order), Refusal> {
    let mut lines = split(input)?;
    let order = take_order(&mut lines)?;
    Ok((read(&lines, requests)?, order))
}

pub fn read_run(
    input: &[u8],
    requests: Requests,
) -> std::result::Result<(Model, Vec<u16>), Refusal> {
    let mut lines = split(input)?;
    let codes = take_codes(&mut lines)?;
    Ok((read(&lines, requests)?, codes))
}

pub fn refuse(refusal: Refusal, out: &mut impl Write) -> Result<()> {
    writeln!(out, "refused {} {}", refusal.number, refusal.line)
}

fn listing(model: &Model, order: Order, out: &mut impl Write) -> Result<()> {
    let mut walk = Walk::new(model, order.bound);
    let (mut tries, mut for_size) = (0, 0);
    while walk.pairs_left() && tries < order.budget {
        tries += 1;
        match walk.advance() {
            Tried::Refused(8 | 9) => for_size += 1,
            Tried::Bad(schedule, _) => print_bad(&schedule, out)?,
            _ => {}
        }
    }
    let word = if walk.pairs_left() { "stop" } else { "end" };
    writeln!(out, "{word} {tries} {for_size}")
}

pub fn print_bad(schedule: &[u16], out: &mut impl Write) -> Result<()> {
    write!(out, "bad {}", schedule.len())?;
    for code in schedule {
        write!(out, " {code}")?;
    }
    writeln!(out)
}

fn print_ok(code: u16, event: &Event, requests: Requests, out: &mut impl Write) -> Result<()> {
    write!(out, "ok {code} {} {}", event.serial, event.op())?;
    if requests.made {
        write!(out, " {}", event.made)?;
    }
    writeln!(out)
}

fn running(model: &Model, codes: &[u16], out: &mut impl Write) -> Result<()> {
    let mut run = Run::new(model);
    for code in codes {
        match run.advance(*code) {
            Ok(event) => print_ok(*code, &event, model.requests, out)?,
            Err(number) => writeln!(out, "no {code} {number}")?,
        }
        if run.over {
            break;
        }
    }
    print_done(&run, out)
}

pub fn print_done(run: &Run, out: &mut impl Write) -> Result<()> {
    let Run {
        accepts,
        first_break,
        ..
    } = run;
    writeln!(out, "done {} {accepts} {first_break}", run.events.len())
}
