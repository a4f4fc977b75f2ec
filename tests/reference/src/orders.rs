// The G line of a generated listing and the R lines of a generated run, chosen by trying.
// Why: budgets that end just at a bad schedule, and codes that are often permitted, need a look ahead.

use crate::lines::Task;
use crate::machine::{code_after, step, Config, NO_CODE};
use crate::model::Model;
use crate::random::Random;
use crate::run::Run;
use crate::search::{Tried, Walk};
use crate::sketch::Style;

/// No generated listing has more tries than this.
pub const MOST_TRIES: u64 = 200_000;
const USUAL_TRIES: u64 = 30_000;

/// A bound and a budget.
pub fn order(random: &mut Random, model: &Model, style: Style) -> (usize, u64) {
    if style == Style::Loop && random.chance(50) {
        return (random.between(7, 24), random.below(20_000) as u64);
    }
    if style == Style::Chain && random.chance(60) {
        return (random.pick(&[4, 5, 5, 6, 6]), 2 * USUAL_TRIES);
    }
    let bound = 1 + random.weighted(&[2, 3, 6, 6, 5, 4]);
    (bound, budget(random, model, bound))
}

fn budget(random: &mut Random, model: &Model, bound: usize) -> u64 {
    match random.below(20) {
        0 => 0,
        1..=5 => near(random, &marks(model, bound)),
        6 => MOST_TRIES,
        7..=9 => random.below(4_000) as u64,
        _ => USUAL_TRIES,
    }
}

/// The tries after each bad schedule, and after the whole walk, as far as it goes.
fn marks(model: &Model, bound: usize) -> Vec<u64> {
    let mut walk = Walk::new(model, bound);
    let mut marks = Vec::new();
    let mut tries = 0;
    while walk.pairs_left() && tries < USUAL_TRIES {
        tries += 1;
        if let Tried::Bad(..) = walk.advance() {
            marks.push(tries);
        }
    }
    marks.push(tries);
    marks
}

fn near(random: &mut Random, marks: &[u64]) -> u64 {
    let last = marks[marks.len() - 1];
    let mark = if random.chance(50) {
        last
    } else {
        random.pick(marks)
    };
    (mark + random.pick(&[0, 0, 1, 2])).saturating_sub(1)
}

/// The codes of a run.
pub fn codes(random: &mut Random, model: &Model, style: Style) -> Vec<u16> {
    if style == Style::Loop && random.chance(50) {
        return many_codes(random);
    }
    let count = random.between(5, if style == Style::Deep { 120 } else { 60 });
    let mut config = Config::fresh(model);
    let mut codes = Vec::new();
    for _ in 0..count {
        let code = next_code(random, model, &config);
        if let Ok((next, _)) = step(model, &config, code) {
            config = next;
        }
        codes.push(code);
    }
    codes
}

/// The script of a tell: codes, and between them room given back and slow listings where these are in.
pub fn tasks(random: &mut Random, model: &Model, style: Style) -> Vec<Task> {
    if style == Style::Loop && random.chance(10) {
        return many_codes(random).into_iter().map(Task::Code).collect();
    }
    let mut run = Run::new(model);
    let mut tasks = Vec::new();
    for _ in 0..random.between(3, 40) {
        let task = next_task(random, model, &run);
        match task {
            Task::Code(code) => drop(run.make(code)),
            Task::Room(lent) => drop(run.give_back(lent)),
            Task::Slow { .. } => {}
        }
        tasks.push(task);
    }
    tasks
}

fn next_task(random: &mut Random, model: &Model, run: &Run) -> Task {
    if model.requests.room && random.chance(15) {
        let events = run.events.len();
        return Task::Room(random.pick(&[0, 0, 1, 2, 5, events, events + 1, 65_535]));
    }
    if model.requests.slow && random.chance(4) {
        return Task::Slow {
            bound: random.pick(&[0, 1, 1, 2, 2, 3, 4, 65_535]),
            room: random.pick(&[0, 1, 2, 10, 100, 4_096]),
        };
    }
    Task::Code(next_code(random, model, &run.config))
}

/// Enough codes to fill the room for events, if most are permitted.
fn many_codes(random: &mut Random) -> Vec<u16> {
    let count = random.between(4_090, 4_200);
    let usual = random.pick(&[0, 160, 160]);
    let others = [0, 1, 12, 16, 160, 161];
    (0..count)
        .map(|_| {
            if random.chance(3) {
                random.pick(&others)
            } else {
                usual
            }
        })
        .collect()
}

fn next_code(random: &mut Random, model: &Model, config: &Config) -> u16 {
    let mut groups: Vec<Vec<u16>> = vec![Vec::new(); 11];
    let mut code = 0;
    while code < NO_CODE {
        let number = step(model, config, code).err().unwrap_or(0);
        groups[number as usize].push(code);
        code = code_after(code);
    }
    groups[1] = vec![12, 13, 14, 15, 164, 165, 255, 65535];
    match random.below(100) {
        0..=73 => permitted(random, &groups[0]),
        74..=93 => refused(random, &groups[1..]),
        _ => random.below(170) as u16,
    }
}

/// A permitted code; hand-overs come first, resets, which are always there, are held back.
fn permitted(random: &mut Random, codes: &[u16]) -> u16 {
    let talks: Vec<u16> = codes
        .iter()
        .copied()
        .filter(|code| (16..160).contains(code))
        .collect();
    if !talks.is_empty() && random.chance(60) {
        return random.pick(&talks);
    }
    let moves: Vec<u16> = codes.iter().copied().filter(|code| *code < 160).collect();
    if moves.is_empty() || random.chance(12) {
        return random.pick(codes);
    }
    random.pick(&moves)
}

/// A code refused by some number, the numbers being equally likely.
fn refused(random: &mut Random, groups: &[Vec<u16>]) -> u16 {
    let some: Vec<&Vec<u16>> = groups.iter().filter(|codes| !codes.is_empty()).collect();
    let codes = random.pick(&some);
    random.pick(codes)
}
