// Ever: whether any schedule, however long, is bad (ruling 44), by going through all configurations breadth first.
// Why: a listing covers its bound alone; where the configurations are few, this covers every length.

use crate::claim::Progress;
use crate::lines::split;
use crate::machine::{code_after, step, Config, Thread, NO_CODE};
use crate::model::Model;
use crate::reader::read;
use crate::report::{print_bad, refuse};
use crate::requests::Requests;
use crate::term::Label;
use std::collections::{HashSet, VecDeque};
use std::io::{Result, Write};

/// Room for configurations, and for their tables' entries past the model's own.
const MOST_CONFIGS: usize = 8_192;
const MOST_ENTRIES: usize = 262_144;

pub fn ever(input: &[u8], requests: Requests, out: &mut impl Write) -> Result<()> {
    match split(input).and_then(|lines| read(&lines, requests)) {
        Err(refusal) => refuse(refusal, out),
        Ok(model) => Ever::new(&model).tell(out),
    }
}

struct Ever<'m> {
    model: &'m Model,
    /// The configurations that have not been gone on from, in the order they were met.
    waiting: VecDeque<(Config, Progress)>,
    seen: HashSet<Vec<u32>>,
    /// How each was reached: the number of the one before it, and the code.
    reached: Vec<(usize, u16)>,
    entries: usize,
    /// The tries refused for size.
    sizes: usize,
}

enum Met {
    Bad(Vec<u16>),
    Full,
    Fine,
}

impl<'m> Ever<'m> {
    fn new(model: &'m Model) -> Ever<'m> {
        let mut ever = Ever {
            model,
            waiting: VecDeque::new(),
            seen: HashSet::new(),
            reached: Vec::new(),
            entries: 0,
            sizes: 0,
        };
        ever.enter(Config::fresh(model), Progress::default(), (0, 0));
        ever
    }

    fn tell(mut self, out: &mut impl Write) -> Result<()> {
        let mut number = 0;
        while let Some((config, progress)) = self.waiting.pop_front() {
            match self.go_on(number, &config, &progress) {
                Met::Bad(schedule) => return print_bad(&schedule, out),
                Met::Full => return writeln!(out, "stop {} {}", self.reached.len(), self.sizes),
                Met::Fine => number += 1,
            }
        }
        writeln!(out, "never {} {}", self.reached.len(), self.sizes)
    }

    /// Tries every code of one configuration.
    fn go_on(&mut self, number: usize, config: &Config, progress: &Progress) -> Met {
        let claim = self.model.claim();
        let mut code = 0;
        while code < NO_CODE {
            match step(self.model, config, code) {
                Err(8 | 9) => self.sizes += 1,
                Err(_) => {}
                Ok((_, event)) if progress.broken_by(claim, &event) => {
                    return Met::Bad(self.schedule(number, code))
                }
                Ok((next, event)) => {
                    let mut progress = progress.clone();
                    progress.note(claim, &event);
                    if !self.enter(next, progress, (number, code)) {
                        return Met::Full;
                    }
                }
            }
            code = code_after(code);
        }
        Met::Fine
    }

    /// Puts a configuration behind the others if it is a new one; false if it finds no room.
    fn enter(&mut self, mut config: Config, progress: Progress, from: (usize, u16)) -> bool {
        // Steps do not count here, so that no step is refused by 4.
        config.steps = 0;
        let key = key(self.model, &config, &progress);
        if self.seen.contains(&key) {
            return true;
        }
        let entries = self.entries + config.table.len() - self.model.table.len();
        if self.reached.len() == MOST_CONFIGS || entries > MOST_ENTRIES {
            return false;
        }
        self.entries = entries;
        self.seen.insert(key);
        self.reached.push(from);
        self.waiting.push_back((config, progress));
        true
    }

    /// The codes that led to a configuration, and one more.
    fn schedule(&self, mut number: usize, last: u16) -> Vec<u16> {
        let mut codes = vec![last];
        while number > 0 {
            let (before, code) = self.reached[number];
            codes.push(code);
            number = before;
        }
        codes.reverse();
        codes
    }
}

/// All that tells two configurations apart: everything but serials and the number of steps.
fn key(model: &Model, config: &Config, progress: &Progress) -> Vec<u32> {
    let mut key = vec![config.next_nonce, u32::from(progress.walked)];
    for slot in &config.slots {
        let Some(thread) = slot else {
            key.push(0);
            continue;
        };
        let place = thread.place as u32;
        key.extend([1, u32::from(thread.agent), u32::from(thread.machine)]);
        key.extend([u32::from(thread.program), place]);
        key.extend(
            thread.values[..thread.place]
                .iter()
                .map(|it| u32::from(*it)),
        );
        // How far along the path, while none has walked it.
        let come = progress.along.get(&thread.serial);
        let come = come.filter(|_| !progress.walked);
        key.push(come.map_or(0, |come| *come as u32 + 1));
    }
    for cell in &config.cells {
        let lock = cell.lock.map_or(0, |lock| {
            let holds = |slot: &Option<Thread>| {
                slot.as_ref()
                    .is_some_and(|thread| thread.serial == lock.holder)
            };
            let slot = config.slots.iter().position(holds);
            1 + u32::from(lock.strong) + 2 * slot.map_or(0, |slot| slot as u32 + 1)
        });
        key.extend([u32::from(cell.value), lock]);
    }
    for label in model.table.len()..config.table.len() {
        let term = config.table.term(label as Label);
        key.extend([u32::from(term.kind), u32::from(term.a), u32::from(term.b)]);
    }
    key
}
