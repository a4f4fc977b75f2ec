// Tell: a run shown whole, step by step, with room given back and slow listings between (ruling 42).
// Why: run prints little of a configuration, and a difference should be seen in the step that makes it.

use crate::lines::{split, take_script, Refusal, Task};
use crate::machine::{Config, Event, Kind, Thread};
use crate::model::Model;
use crate::reader::read;
use crate::report::{print_bad, print_done, refuse};
use crate::requests::Requests;
use crate::run::Run;
use crate::slow;
use crate::term::Label;
use std::io::{Result, Write};

pub fn tell(input: &[u8], requests: Requests, out: &mut impl Write) -> Result<()> {
    match read_tell(input, requests) {
        Err(refusal) => refuse(refusal, out),
        Ok((model, tasks)) => telling(&model, &tasks, out),
    }
}

pub fn read_tell(
    input: &[u8],
    requests: Requests,
) -> std::result::Result<(Model, Vec<Task>), Refusal> {
    let mut lines = split(input)?;
    let tasks = take_script(&mut lines, &letters(requests))?;
    Ok((read(&lines, requests)?, tasks))
}

/// The letters that a script's lines open with.
pub fn letters(requests: Requests) -> Vec<u8> {
    let mut letters = vec![b'R'];
    if requests.room {
        letters.push(b'K');
    }
    if requests.slow {
        letters.push(b'S');
    }
    letters
}

fn telling(model: &Model, tasks: &[Task], out: &mut impl Write) -> Result<()> {
    let mut run = Run::new(model);
    writeln!(out, "fresh")?;
    print_state(&run.config, out)?;
    for task in tasks {
        match *task {
            Task::Code(code) => tell_code(&mut run, code, out)?,
            Task::Room(lent) => tell_room(&mut run, lent, out)?,
            Task::Slow { bound, room } => tell_slow(model, bound, room, out)?,
        }
        if run.over {
            break;
        }
    }
    print_done(&run, out)
}

fn tell_code(run: &mut Run, code: u16, out: &mut impl Write) -> Result<()> {
    let count = run.config.table.len();
    match run.make(code) {
        Err(number) => writeln!(out, "no {code} {number}"),
        Ok(event) => {
            print_event(code, &event, out)?;
            for label in count..run.config.table.len() {
                let term = run.config.table.term(label as Label);
                writeln!(out, "term {label} {} {} {}", term.kind, term.a, term.b)?;
            }
            print_state(&run.config, out)
        }
    }
}

fn tell_room(run: &mut Run, lent: usize, out: &mut impl Write) -> Result<()> {
    let moved = match run.give_back(lent) {
        Err(number) => return writeln!(out, "room {number}"),
        Ok(moved) => moved,
    };
    writeln!(out, "kept {}", run.config.table.len())?;
    for (old, new) in moved.iter().enumerate() {
        if let Some(new) = new.filter(|new| *new as usize != old) {
            writeln!(out, "label {old} {new}")?;
        }
    }
    print_state(&run.config, out)
}

fn tell_slow(model: &Model, bound: usize, room: usize, out: &mut impl Write) -> Result<()> {
    match slow::list(model, bound, room) {
        Err(number) => writeln!(out, "slow {number}"),
        Ok(bad) => {
            for schedule in &bad {
                print_bad(schedule, out)?;
            }
            writeln!(out, "end {}", bad.len())
        }
    }
}

fn print_event(code: u16, event: &Event, out: &mut impl Write) -> Result<()> {
    let (program, machine, thread) = match event.kind {
        Kind::Plain { .. } => (0, 0, 0),
        Kind::Jump { program } => (program, 0, 0),
        Kind::Launch { thread, machine } | Kind::Reset { thread, machine } => (0, machine, thread),
        Kind::HandOver { receiver } => (0, 0, receiver),
    };
    // A record names no mover of a reset.
    let serial = match event.kind {
        Kind::Reset { .. } => 0,
        _ => event.serial,
    };
    let Event {
        loc, x, y, result, ..
    } = event;
    write!(
        out,
        "event {code} {} {serial} {loc} {x} {y} {result} ",
        event.op()
    )?;
    write!(out, "{program} {machine} {thread} {}", event.ended.len())?;
    let ended = |which: usize| event.ended.get(which).unwrap_or(&0);
    writeln!(out, " {} {} {}", ended(0), ended(1), event.made)
}

fn print_state(config: &Config, out: &mut impl Write) -> Result<()> {
    for (slot, thread) in config.slots.iter().enumerate() {
        if let Some(thread) = thread {
            print_thread(slot, thread, out)?;
        }
    }
    for (loc, cell) in config.cells.iter().enumerate() {
        let (lock, serial) = match cell.lock {
            None => (0, 0),
            Some(lock) => (if lock.strong { 2 } else { 1 }, lock.holder),
        };
        writeln!(out, "loc {loc} {} {lock} {serial}", cell.value)?;
    }
    let Config {
        table,
        steps,
        next_serial,
        next_nonce,
        ..
    } = config;
    writeln!(
        out,
        "counts {} {steps} {next_serial} {next_nonce}",
        table.len()
    )
}

fn print_thread(slot: usize, thread: &Thread, out: &mut impl Write) -> Result<()> {
    let Thread {
        serial,
        agent,
        machine,
        program,
        place,
        values,
    } = thread;
    writeln!(
        out,
        "slot {slot} {serial} {agent} {machine} {program} {place}"
    )?;
    for (variable, value) in values[..*place].iter().enumerate() {
        writeln!(out, "var {slot} {variable} {value}")?;
    }
    Ok(())
}
