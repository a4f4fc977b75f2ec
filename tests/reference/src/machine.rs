// The machine: a configuration and the one step a code makes of it, or the refusal's number.
// Why: run and search both rest on this; a refused step leaves the configuration untouched.

use crate::model::*;
use crate::results;
use crate::term::{Draft, Label, Table, DINIT, NUMBER, SINIT};

pub const SLOTS: usize = 12;
pub const MOST_STEPS: u32 = 60_000;
/// One past the last code.
pub const NO_CODE: u16 = 164;

#[derive(Clone)]
pub struct Thread {
    pub serial: u32,
    pub agent: u16,
    pub machine: u16,
    pub program: u16,
    /// The place of its next action.
    pub place: usize,
    pub values: [Label; Model::ACTIONS],
}

#[derive(Clone, Copy)]
pub struct Cell {
    pub value: Label,
    pub lock: Option<Lock>,
}

#[derive(Clone, Copy)]
pub struct Lock {
    pub holder: u32,
    /// Whether it bars reading too.
    pub strong: bool,
}

impl Lock {
    fn write_only(holder: u32) -> Lock {
        Lock {
            holder,
            strong: false,
        }
    }
}

#[derive(Clone)]
pub struct Config {
    pub table: Table,
    pub slots: [Option<Thread>; SLOTS],
    pub cells: Vec<Cell>,
    pub next_serial: u32,
    pub next_nonce: u32,
    pub steps: u32,
}

#[derive(Clone, Copy, PartialEq, Eq)]
pub enum Kind {
    Plain { op: u16 },
    Jump { program: u16 },
    Launch { thread: u32, machine: u16 },
    Reset { thread: u32, machine: u16 },
    HandOver { receiver: u32 },
}

/// What a permitted step did; serial is the mover's or sender's, or the one a reset made.
#[derive(Clone)]
pub struct Event {
    pub kind: Kind,
    pub serial: u32,
    pub loc: u16,
    /// The ground operands, and an extend's chain or what the mover binds; 0 where none.
    pub x: Label,
    pub y: Label,
    pub result: Label,
    pub ended: Vec<u16>,
    /// How many terms entered the table.
    pub made: usize,
}

impl Event {
    fn of(kind: Kind, serial: u32) -> Event {
        Event {
            kind,
            serial,
            loc: 0,
            x: 0,
            y: 0,
            result: 0,
            ended: Vec::new(),
            made: 0,
        }
    }

    /// The op as a run prints it: 21 a reset, 22 a hand-over.
    pub fn op(&self) -> u16 {
        match self.kind {
            Kind::Plain { op } => op,
            Kind::Jump { .. } => JUMP,
            Kind::Launch { .. } => LATE_LAUNCH,
            Kind::Reset { .. } => RESET,
            Kind::HandOver { .. } => HAND_OVER,
        }
    }
}

type Stepped = Result<(Config, Event), u8>;

/// The code after this one in the order of codes; 12 to 15 are none.
pub fn code_after(code: u16) -> u16 {
    if code == 11 {
        16
    } else {
        code + 1
    }
}

pub fn step(model: &Model, config: &Config, code: u16) -> Stepped {
    let (next, mut event) = moved(model, config, code)?;
    event.made = next.table.len() - config.table.len();
    Ok((next, event))
}

fn moved(model: &Model, config: &Config, code: u16) -> Stepped {
    match code {
        0..=11 => advance(model, config, code as usize),
        16..=159 => hand_over(
            model,
            config,
            (code as usize - 16) / 12,
            (code as usize - 16) % 12,
        ),
        160..=163 => reset(model, config, code - 160),
        _ => Err(1),
    }
}

impl Thread {
    pub fn fresh(serial: u32, agent: u16, machine: u16, program: u16) -> Thread {
        Thread {
            serial,
            agent,
            machine,
            program,
            place: 0,
            values: [0; Model::ACTIONS],
        }
    }

    pub fn action(&self, model: &Model) -> Action {
        model.programs[self.program as usize][self.place]
    }
}

impl Config {
    /// The listed threads in their slots, the listed values, nothing locked.
    pub fn fresh(model: &Model) -> Config {
        let cell = |location: &Location| Cell {
            value: location.value,
            lock: None,
        };
        let mut config = Config {
            table: model.table.clone(),
            slots: Default::default(),
            cells: model.locations.iter().map(cell).collect(),
            next_serial: model.threads.len() as u32,
            next_nonce: 0,
            steps: 0,
        };
        for (slot, listed) in model.threads.iter().enumerate() {
            let Listed {
                agent,
                machine,
                program,
            } = *listed;
            config.slots[slot] = Some(Thread::fresh(slot as u32, agent, machine, program));
        }
        config
    }

    fn thread(&self, slot: usize) -> Result<&Thread, u8> {
        self.slots[slot].as_ref().ok_or(2)
    }

    fn may_step(&self) -> Result<(), u8> {
        if self.steps >= MOST_STEPS {
            return Err(4);
        }
        Ok(())
    }

    /// The configuration one step on, with the new terms of the draft in its table.
    fn next(&self, draft: Draft<'_>) -> Config {
        let slots = self.slots.clone();
        let cells = self.cells.clone();
        Config {
            table: draft.finish(),
            slots,
            cells,
            steps: self.steps + 1,
            ..*self
        }
    }

    fn new_serial(&mut self) -> u32 {
        self.next_serial += 1;
        self.next_serial - 1
    }

    /// Binds the next variable and moves on; a thread past its end is gone, its program given.
    fn bind(&mut self, model: &Model, slot: usize, value: Label) -> Option<u16> {
        let thread = self.slots[slot].as_mut().expect("a mover is live");
        thread.values[thread.place] = value;
        thread.place += 1;
        let program = thread.program;
        let ended = thread.place == model.programs[program as usize].len();
        if ended {
            self.slots[slot] = None;
        }
        ended.then_some(program)
    }
}

fn advance(model: &Model, config: &Config, slot: usize) -> Stepped {
    let thread = config.thread(slot)?;
    config.may_step()?;
    let action = thread.action(model);
    if matches!(action.op, SEND | RECEIVE) {
        return Err(5);
    }
    if action.uses_location() {
        may_touch(model, config, thread, &action)?;
    }
    if action.op == LATE_LAUNCH {
        return Ok(late_launch(model, config, slot));
    }
    let mut draft = Draft::new(&config.table);
    let x = draft.substitute(action.x, &thread.values);
    let y = draft.substitute(action.y, &thread.values);
    draft.check(&[x, y])?;
    let result = results::result(&mut draft, config, &action, x, y)?;
    draft.check(&[result])?;
    let target = draft.term(x).a;
    let mut next = config.next(draft);
    change_cell(&mut next, &action, thread.serial, x, result);
    let (kind, ended) = move_on(model, &mut next, slot, &action, result, target);
    let event = Event {
        loc: action.loc,
        x,
        y,
        result,
        ended: ended.into_iter().collect(),
        ..Event::of(kind, thread.serial)
    };
    Ok((next, event))
}

/// Refusals 6 and 7: the location is of this machine and its lock does not bar the action.
fn may_touch(model: &Model, config: &Config, thread: &Thread, action: &Action) -> Result<(), u8> {
    let loc = action.loc as usize;
    if model.locations[loc].machine != thread.machine {
        return Err(6);
    }
    let lock = config.cells[loc].lock;
    let others = lock.filter(|lock| lock.holder != thread.serial);
    let barred = match action.op {
        READ => others.is_some_and(|lock| lock.strong),
        UNLOCK => lock.is_none() || others.is_some(),
        _ => others.is_some(),
    };
    if barred {
        return Err(7);
    }
    Ok(())
}

fn change_cell(config: &mut Config, action: &Action, serial: u32, x: Label, result: Label) {
    let loc = action.loc as usize;
    match action.op {
        WRITE => config.cells[loc].value = x,
        EXTEND => config.cells[loc].value = result,
        LOCK => config.cells[loc].lock = Some(Lock::write_only(serial)),
        STRONG_LOCK => {
            config.cells[loc].lock = Some(Lock {
                holder: serial,
                strong: true,
            })
        }
        UNLOCK => config.cells[loc].lock = None,
        NEW => config.next_nonce += 1,
        _ => {}
    }
}

/// The mover jumps to the target program, or binds its result and goes on; the program it ended in, if it did.
fn move_on(
    model: &Model,
    config: &mut Config,
    slot: usize,
    action: &Action,
    result: Label,
    target: u16,
) -> (Kind, Option<u16>) {
    if action.op == JUMP {
        let thread = config.slots[slot].as_mut().expect("a mover is live");
        *thread = Thread::fresh(thread.serial, thread.agent, thread.machine, target);
        return (Kind::Jump { program: target }, None);
    }
    let value = if action.op == EXTEND { NUMBER } else { result };
    let ended = config.bind(model, slot, value);
    (Kind::Plain { op: action.op }, ended)
}

fn late_launch(model: &Model, config: &Config, slot: usize) -> (Config, Event) {
    let mut next = config.next(Draft::new(&config.table));
    let new = next.new_serial();
    let thread = next.slots[slot].as_mut().expect("a mover is live");
    let (serial, machine) = (thread.serial, thread.machine);
    let program = model.machines[machine as usize].launch;
    *thread = Thread::fresh(new, thread.agent, machine, program);
    for (cell, location) in next.cells.iter_mut().zip(&model.locations) {
        if location.machine == machine && location.kind == DYNAMIC {
            *cell = Cell {
                value: DINIT,
                lock: Some(Lock::write_only(new)),
            };
        }
    }
    let kind = Kind::Launch {
        thread: new,
        machine,
    };
    (next, Event::of(kind, serial))
}

fn hand_over(model: &Model, config: &Config, from: usize, to: usize) -> Stepped {
    let sender = config.thread(from)?;
    let receiver = config.thread(to)?;
    if from == to {
        return Err(3);
    }
    config.may_step()?;
    let action = sender.action(model);
    if action.op != SEND || receiver.action(model).op != RECEIVE {
        return Err(5);
    }
    let mut draft = Draft::new(&config.table);
    let value = draft.substitute(action.x, &sender.values);
    draft.check(&[value])?;
    let mut next = config.next(draft);
    let ends = [next.bind(model, from, NUMBER), next.bind(model, to, value)];
    let kind = Kind::HandOver {
        receiver: receiver.serial,
    };
    let event = Event {
        x: value,
        ended: ends.into_iter().flatten().collect(),
        ..Event::of(kind, sender.serial)
    };
    Ok((next, event))
}

fn reset(model: &Model, config: &Config, machine: u16) -> Stepped {
    let listed = model.machines.get(machine as usize).ok_or(2)?;
    config.may_step()?;
    let mut next = config.next(Draft::new(&config.table));
    let serial = next.new_serial();
    for slot in next.slots.iter_mut() {
        if slot
            .as_ref()
            .is_some_and(|thread| thread.machine == machine)
        {
            *slot = None;
        }
    }
    reset_cells(
        model,
        &mut next,
        machine,
        listed.protected.then(|| Lock::write_only(serial)),
    );
    let free = next
        .slots
        .iter()
        .position(Option::is_none)
        .expect("twelve slots suffice");
    next.slots[free] = Some(Thread::fresh(serial, 0, machine, listed.boot));
    let kind = Kind::Reset {
        thread: serial,
        machine,
    };
    Ok((next, Event::of(kind, serial)))
}

/// Frees every lock of the machine, but puts the guard, if any, on its static registers.
fn reset_cells(model: &Model, config: &mut Config, machine: u16, guard: Option<Lock>) {
    for (cell, location) in config.cells.iter_mut().zip(&model.locations) {
        if location.machine != machine {
            continue;
        }
        cell.lock = guard.filter(|_| location.kind == STATIC);
        match location.kind {
            RAM => cell.value = NUMBER,
            STATIC => cell.value = SINIT,
            DYNAMIC => cell.value = model.requests.powered_up(),
            _ => {}
        }
    }
}
