// Statistics over many seeds: refusals, ops done, steps refused, claims, answers.
// Why: they show that the generator reaches every rule, and how often.

use crate::generate;
use crate::lines::Refusal;
use crate::machine::Event;
use crate::model::Model;
use crate::plan::Mode;
use crate::report;
use crate::requests::Requests;
use crate::run::Run;
use crate::search::{Tried, Walk};
use std::collections::{BTreeMap, BTreeSet};
use std::io::{Result, Write};

#[derive(Default)]
struct Counts {
    tallies: BTreeMap<String, u64>,
    refused_lines: BTreeMap<u8, BTreeSet<usize>>,
}

impl Counts {
    fn add(&mut self, what: impl Into<String>, times: u64) {
        *self.tallies.entry(what.into()).or_insert(0) += times;
    }

    fn refusal(&mut self, refusal: Refusal) {
        self.add(format!("refused {}", refusal.number), 1);
        self.refused_lines
            .entry(refusal.number)
            .or_default()
            .insert(refusal.line);
    }

    fn model(&mut self, model: &Model) {
        let claim = model.claim();
        let kind = if claim.launch { "launch" } else { "boot" };
        self.add(format!("claim {kind}, path of {}", claim.path.len()), 1);
        self.add(format!("models with {} machines", model.machines.len()), 1);
        self.add(format!("models with {} threads", model.threads.len()), 1);
        self.add(
            "models with more than 500 terms",
            u64::from(model.table.len() > 500),
        );
    }

    /// An event; unless the claim was broken, an accept it speaks of was excused.
    fn event(&mut self, model: &Model, event: &Event, broken: bool) {
        self.add(format!("op {:>2} done", event.op()), 1);
        self.add("events with two endings", u64::from(event.ended.len() == 2));
        let claim = model.claim();
        if !broken && event.ended.contains(&claim.program) {
            let kind = if claim.launch { "launch" } else { "boot" };
            self.add(
                format!("excused by {kind}, path of {}", claim.path.len()),
                1,
            );
        }
    }

    fn print(&self, out: &mut impl Write) -> Result<()> {
        for (what, times) in &self.tallies {
            writeln!(out, "{what:<34}{times:>9}")?;
        }
        for (number, lines) in &self.refused_lines {
            let most = lines.last().unwrap_or(&0);
            writeln!(
                out,
                "refused {number} on {} different lines, the last {most}",
                lines.len()
            )?;
        }
        Ok(())
    }
}

/// Counts what comes of one input.
type Counter = fn(&mut Counts, &[u8], Requests) -> std::result::Result<(), Refusal>;

pub fn count(seeds: u64, requests: Requests, out: &mut impl Write) -> Result<()> {
    let programs: [(Mode, &str, Counter); 2] = [
        (Mode::List, "list", count_list),
        (Mode::Run, "run", count_run),
    ];
    for (mode, word, counter) in programs {
        let mut counts = Counts::default();
        for seed in 0..seeds {
            let (input, damaged) = generate::made(mode, seed, requests);
            counts.add("inputs damaged", u64::from(damaged));
            if let Err(refusal) = counter(&mut counts, &input, requests) {
                counts.refusal(refusal);
                counts.add("inputs refused though not damaged", u64::from(!damaged));
            }
        }
        writeln!(out, "== {word}, seeds 0 to {}", seeds.saturating_sub(1))?;
        counts.print(out)?;
    }
    Ok(())
}

fn count_list(
    counts: &mut Counts,
    input: &[u8],
    requests: Requests,
) -> std::result::Result<(), Refusal> {
    let (model, order) = report::read_list(input, requests)?;
    counts.model(&model);
    counts.add(format!("bound {:>2}", order.bound), 1);
    let mut walk = Walk::new(&model, order.bound);
    let mut tries = 0;
    while walk.pairs_left() && tries < order.budget {
        tries += 1;
        count_try(counts, &model, walk.advance());
    }
    counts.add(
        if walk.pairs_left() {
            "answer stop"
        } else {
            "answer end"
        },
        1,
    );
    counts.add("listings with budget 0", u64::from(order.budget == 0));
    counts.add("tries in all", tries);
    Ok(())
}

fn count_try(counts: &mut Counts, model: &Model, tried: Tried) {
    match tried {
        Tried::Refused(number) => counts.add(format!("step no {number:>2}"), 1),
        Tried::Fine(event) => counts.event(model, &event, false),
        Tried::Bad(schedule, event) => {
            counts.add(format!("bad of {:>2}", schedule.len()), 1);
            counts.event(model, &event, true);
        }
    }
}

fn count_run(
    counts: &mut Counts,
    input: &[u8],
    requests: Requests,
) -> std::result::Result<(), Refusal> {
    let (model, codes) = report::read_run(input, requests)?;
    counts.model(&model);
    let mut run = Run::new(&model);
    for code in codes {
        match run.advance(code) {
            Ok(event) => counts.event(&model, &event, run.first_break > 0),
            Err(number) => counts.add(format!("step no {number:>2}"), 1),
        }
        if run.over {
            break;
        }
    }
    match (run.accepts, run.first_break) {
        (0, _) => counts.add("runs with no accept", 1),
        (_, 0) => counts.add("runs accepting, none breaking", 1),
        _ => counts.add("runs with a breaking step", 1),
    }
    Ok(())
}
