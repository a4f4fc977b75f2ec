// The walk over all schedules in dictionary order, up to the bound and within the budget.
// Each step is made in place, the longer schedule is walked, and the step is taken back from what its maker has saved.

use crate::config::*;
use crate::model::*;
use crate::table::*;
use std::io::Write;

/// How many codes there are; each schedule entered is paired with all of them.
const CODES: u64 = 160;
/// The first code of a hand-over, and of a reset.
const HAND_OVER: usize = 16;
const RESET: usize = 160;

pub struct Walk<'m, W> {
    model: &'m Model,
    config: Config,
    schedule: [u8; 24],
    pub entered: u64,
    /// Pairs passed; above the budget, once the walk was stopped by it.
    tries: u64,
    pub refused_for_size: u64,
    pub out: W,
}

/// How many codes stand below this one: 12 to 15 are none.
fn codes_below(code: usize) -> u64 {
    (if code < HAND_OVER { code } else { code - 4 }) as u64
}

impl<'m, W: Write> Walk<'m, W> {
    pub fn new(model: &'m Model, table: Table, out: W) -> Walk<'m, W> {
        Walk {
            model,
            config: Config::fresh(model, table),
            schedule: [0; 24],
            entered: 0,
            tries: 0,
            refused_for_size: 0,
            out,
        }
    }

    /// Walks everything; false if the budget ran out with pairs left.
    pub fn whole(&mut self) -> bool {
        self.enter(0)
    }

    pub fn tries(&self) -> u64 {
        self.tries.min(self.model.budget)
    }

    /// Pairs the schedule of this length with every code. Codes that refusals 1 to 7 turn down are passed without a look:
    /// empty slots, rows of hand-overs from slots that do not send, and in such a row the slots that do not receive.
    /// False if the budget is out.
    fn enter(&mut self, length: usize) -> bool {
        self.entered += 1;
        let mut passed = 0;
        let (mut senders, mut receivers) = (0u16, 0u16);
        for slot in slots_of(self.config.live) {
            let thread = self.config.threads[slot];
            let action = self.model.actions[thread.place()];
            match action.op {
                SEND => senders |= 1 << slot,
                RECEIVE => receivers |= 1 << slot,
                _ if !self.config.may_touch(thread, &action) => {}
                _ => {
                    if !self.pass(&mut passed, codes_below(slot) + 1)
                        || !self.advance(length, slot, &action)
                    {
                        return false;
                    }
                }
            }
        }
        self.hand_overs(length, &mut passed, senders, receivers)
            && self.resets(length, &mut passed)
            && self.pass(&mut passed, CODES)
    }

    /// Counts the pairs up to this many codes of the schedule; false if they are more than the budget covers.
    fn pass(&mut self, passed: &mut u64, codes: u64) -> bool {
        self.tries += codes - *passed;
        *passed = codes;
        self.tries <= self.model.budget
    }

    fn hand_overs(
        &mut self,
        length: usize,
        passed: &mut u64,
        senders: u16,
        receivers: u16,
    ) -> bool {
        for from in slots_of(senders) {
            for to in slots_of(receivers) {
                let code = HAND_OVER + SLOTS * from + to;
                if !self.pass(passed, codes_below(code) + 1)
                    || !self.hand_over(length, code, from, to)
                {
                    return false;
                }
            }
        }
        true
    }

    fn resets(&mut self, length: usize, passed: &mut u64) -> bool {
        for machine in 0..self.model.machines.len() {
            if !self.pass(passed, codes_below(RESET + machine) + 1) || !self.reset(length, machine)
            {
                return false;
            }
        }
        true
    }

    /// Tries the action of a slot; the table is afterwards as it was.
    fn advance(&mut self, length: usize, slot: usize, action: &Action) -> bool {
        let filled = self.config.table.count();
        let within = match self.config.work(slot, action) {
            Err(refusal) => self.refused(refusal),
            Ok(labels) => {
                if action.accepts && !self.config.fulfilled {
                    self.bad(length, slot)
                } else if self.goes_on(length, slot) {
                    self.make(length, slot, action, labels)
                } else {
                    true
                }
            }
        };
        self.config.table.cut(filled);
        within
    }

    fn refused(&mut self, refusal: Refusal) -> bool {
        if let Refusal::Size = refusal {
            self.refused_for_size += 1;
        }
        true
    }

    /// Writes the schedule with this code at its end; it is not entered.
    fn bad(&mut self, length: usize, code: usize) -> bool {
        self.schedule[length] = code as u8;
        self.print_bad(length + 1)
            .expect("the output could not be written");
        true
    }

    fn print_bad(&mut self, length: usize) -> std::io::Result<()> {
        write!(self.out, "bad {length}")?;
        for code in &self.schedule[..length] {
            write!(self.out, " {code}")?;
        }
        writeln!(self.out)
    }

    /// Whether the schedule with this code is entered: only one shorter than the bound is.
    fn goes_on(&mut self, length: usize, code: usize) -> bool {
        self.schedule[length] = code as u8;
        length + 1 < self.model.bound
    }

    fn make(&mut self, length: usize, slot: usize, action: &Action, labels: Labels) -> bool {
        match action.op {
            JUMP => self.jump(length, slot, labels),
            LATE_LAUNCH => self.late_launch(length, slot),
            _ => self.act(length, slot, action, labels),
        }
    }

    fn act(&mut self, length: usize, slot: usize, action: &Action, labels: Labels) -> bool {
        let (live, thread) = (self.config.live, self.config.threads[slot]);
        let (cell, nonce) = (
            self.config.cells[action.loc as usize % 32],
            self.config.next_nonce,
        );
        if action.uses_location() {
            self.config.touch(action, thread.serial, labels);
        }
        self.config.next_nonce += u16::from(action.op == NEW);
        let value = if action.op == EXTEND {
            0
        } else {
            labels.result
        };
        self.config.bind(slot, action.ends, value);
        let within = self.enter(length + 1);
        self.config.next_nonce = nonce;
        self.config.cells[action.loc as usize % 32] = cell;
        self.config.threads[slot] = thread;
        self.config.live = live;
        within
    }

    /// The same thread at the start of the program that x names, its variables to be bound anew.
    fn jump(&mut self, length: usize, slot: usize, labels: Labels) -> bool {
        let (thread, variables) = (self.config.threads[slot], self.config.variables[slot]);
        let fulfilled = self.config.fulfilled;
        let program = self.config.table.term(labels.x).a() as u8;
        let along = self.along_after(thread.along, program);
        self.config.fulfilled |= along as usize == self.model.claim.path.len();
        self.config.threads[slot] = Thread {
            program,
            position: 0,
            along,
            ..thread
        };
        let within = self.enter(length + 1);
        self.config.fulfilled = fulfilled;
        self.config.variables[slot] = variables;
        self.config.threads[slot] = thread;
        within
    }

    fn along_after(&self, along: u8, program: u8) -> u8 {
        match self.model.claim.path.get(along as usize) {
            Some(next) if *next == program => along + 1,
            _ => Thread::ASTRAY,
        }
    }

    /// How a thread made by a late launch, or by a reset, begins its way along the claim's path.
    fn along_at_start(&self, launch: bool, machine: u8) -> u8 {
        let claim = &self.model.claim;
        if claim.launch == launch && claim.machine == machine {
            0
        } else {
            Thread::ASTRAY
        }
    }

    fn late_launch(&mut self, length: usize, slot: usize) -> bool {
        let (thread, variables) = (self.config.threads[slot], self.config.variables[slot]);
        let (cells, serial) = (self.config.cells, self.config.next_serial);
        let machine = &self.model.machines[thread.machine as usize];
        let along = self.along_at_start(true, thread.machine);
        self.config
            .start(slot, thread.machine, machine.launch, along);
        self.config.launch_cells(self.model, machine, serial);
        let within = self.enter(length + 1);
        self.config.next_serial = serial;
        self.config.cells = cells;
        self.config.variables[slot] = variables;
        self.config.threads[slot] = thread;
        within
    }

    fn hand_over(&mut self, length: usize, code: usize, from: usize, to: usize) -> bool {
        let sends = self.model.actions[self.config.threads[from].place()];
        let receives = self.model.actions[self.config.threads[to].place()];
        let filled = self.config.table.count();
        let within = match self
            .config
            .table
            .substitute(sends.x, &self.config.variables[from])
        {
            Err(refusal) => self.refused(refusal),
            Ok(value) => {
                if (sends.accepts || receives.accepts) && !self.config.fulfilled {
                    self.bad(length, code)
                } else if self.goes_on(length, code) {
                    self.hand(length, [from, to], [sends.ends, receives.ends], value)
                } else {
                    true
                }
            }
        };
        self.config.table.cut(filled);
        within
    }

    fn hand(
        &mut self,
        length: usize,
        [from, to]: [usize; 2],
        ends: [bool; 2],
        value: Label,
    ) -> bool {
        let live = self.config.live;
        let (sender, receiver) = (self.config.threads[from], self.config.threads[to]);
        self.config.bind(from, ends[0], 0);
        self.config.bind(to, ends[1], value);
        let within = self.enter(length + 1);
        self.config.threads[to] = receiver;
        self.config.threads[from] = sender;
        self.config.live = live;
        within
    }

    /// Always permitted, and never an accept.
    fn reset(&mut self, length: usize, number: usize) -> bool {
        if !self.goes_on(length, RESET + number) {
            return true;
        }
        let (live, cells, serial) = (self.config.live, self.config.cells, self.config.next_serial);
        let machine = &self.model.machines[number];
        self.config.end_all(number as u8);
        self.config.reset_cells(self.model, machine, serial);
        let slot = self.config.live.trailing_ones() as usize;
        let (thread, variables) = (self.config.threads[slot], self.config.variables[slot]);
        let along = self.along_at_start(false, number as u8);
        self.config.start(slot, number as u8, machine.boot, along);
        let within = self.enter(length + 1);
        self.config.threads[slot] = thread;
        self.config.variables[slot] = variables;
        self.config.next_serial = serial;
        self.config.cells = cells;
        self.config.live = live;
        within
    }
}
