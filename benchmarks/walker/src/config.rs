// The one configuration of the walk, and what a step does to it.
// Why in place: a step changes a few of its fields, so whoever makes a step saves these and puts them back.

use crate::model::*;
use crate::table::*;

pub const SLOTS: usize = 12;

/// A thread that is there. Its agent is left out: no rule of a search asks for it.
#[derive(Clone, Copy, Default)]
pub struct Thread {
    pub serial: u16,
    pub machine: u8,
    pub program: u8,
    pub position: u8,
    /// How many programs of the claim's path its first jumps have followed, or that it is of no use to the claim.
    pub along: u8,
}

impl Thread {
    /// It was not made as the claim speaks of, or has left the path.
    pub const ASTRAY: u8 = u8::MAX;

    pub fn place(&self) -> usize {
        self.program as usize * Model::ACTIONS + self.position as usize
    }
}

/// A location's value and the serial that holds its lock.
#[derive(Clone, Copy)]
pub struct Cell {
    pub value: Label,
    pub holder: u16,
}

impl Cell {
    pub const FREE: u16 = u16::MAX;
}

/// The labels of a step's ground x and of its result.
#[derive(Clone, Copy)]
pub struct Labels {
    pub x: Label,
    pub result: Label,
}

pub struct Config {
    pub table: Table,
    /// A bit for each slot that is not free.
    pub live: u16,
    pub threads: [Thread; SLOTS],
    /// The variables of each slot. Only bound ones are ever read, so a thread that goes leaves them as they are.
    pub variables: [[Label; Model::ACTIONS]; SLOTS],
    pub cells: [Cell; 32],
    pub next_serial: u16,
    pub next_nonce: u16,
    /// Some thread has followed the claim's path to its end.
    pub fulfilled: bool,
}

impl Config {
    /// The listed threads in their slots, the listed values, nothing locked.
    pub fn fresh(model: &Model, table: Table) -> Config {
        let mut config = Config {
            table,
            live: 0,
            threads: [Thread::default(); SLOTS],
            variables: [[0; Model::ACTIONS]; SLOTS],
            cells: [Cell {
                value: 0,
                holder: Cell::FREE,
            }; 32],
            next_serial: 0,
            next_nonce: 0,
            fulfilled: false,
        };
        for (cell, location) in config.cells.iter_mut().zip(&model.locations) {
            cell.value = location.value;
        }
        for (slot, listed) in model.threads.iter().enumerate() {
            config.start(slot, listed.machine, listed.program, Thread::ASTRAY);
        }
        config
    }

    /// A new thread in a slot, with the next serial.
    pub fn start(&mut self, slot: usize, machine: u8, program: u8, along: u8) {
        self.live |= 1 << slot;
        self.threads[slot] = Thread {
            serial: self.next_serial,
            machine,
            program,
            position: 0,
            along,
        };
        self.next_serial += 1;
    }

    /// Binds the next variable and moves on; a thread past its end is gone.
    pub fn bind(&mut self, slot: usize, ends: bool, value: Label) {
        if ends {
            self.live &= !(1 << slot);
            return;
        }
        let thread = &mut self.threads[slot];
        self.variables[slot][thread.position as usize] = value;
        thread.position += 1;
    }

    /// Refusals 6 and 7: the location is of this machine and its lock does not bar the action.
    pub fn may_touch(&self, thread: Thread, action: &Action) -> bool {
        if !action.uses_location() {
            return true;
        }
        let holder = self.cells[action.loc as usize].holder;
        action.home == thread.machine
            && match action.op {
                READ => true,
                UNLOCK => holder == thread.serial,
                _ => holder == thread.serial || holder == Cell::FREE,
            }
    }

    /// The operands and the result, entered in the table where they are new.
    #[inline]
    pub fn work(&mut self, slot: usize, action: &Action) -> Result<Labels, Refusal> {
        let values = &self.variables[slot];
        let x = self.table.substitute(action.x, values)?;
        let y = self.table.substitute(action.y, values)?;
        let result = self.result(action, x, y)?;
        Ok(Labels { x, result })
    }

    fn result(&mut self, action: &Action, x: Label, y: Label) -> Result<Label, Refusal> {
        match action.op {
            READ => Ok(self.cells[action.loc as usize].value),
            EXTEND => self
                .table
                .add(Term::new(CHAIN, self.cells[action.loc as usize].value, x)),
            SIGN => self.seal(SIGNATURE, x, y, INVERSE),
            ENC => self.seal(ENCRYPTED, x, y, KEY),
            SYMENC => self.seal(SYMMETRIC, x, y, KEY),
            VERIFY => self.open(SIGNATURE, x, y, KEY),
            DEC => self.open(ENCRYPTED, x, y, INVERSE),
            SYMDEC => self.open(SYMMETRIC, x, y, KEY),
            HASH_OP => self.table.add(Term::new(HASH, x, 0)),
            EVAL => self.table.add(Term::new(FUNCTION, action.loc, x)),
            FIRST => fit(self.table.term(x).kind() == PAIR, self.table.term(x).a()),
            SECOND => fit(self.table.term(x).kind() == PAIR, self.table.term(x).b()),
            MATCH => fit(x == y, 0),
            JUMP => fit(self.table.term(x).kind() == CODE, 0),
            NEW => self.table.add(Term::new(NONCE, self.next_nonce, 0)),
            _ => Ok(0),
        }
    }

    /// A term of this kind over x, with the number of a key of the kind it needs.
    fn seal(&mut self, kind: u8, x: Label, y: Label, needs: u8) -> Result<Label, Refusal> {
        let key = self.table.term(y);
        if key.kind() != needs {
            return Err(Refusal::Misfit);
        }
        self.table.add(Term::new(kind, x, key.a()))
    }

    /// What is inside a sealed term, given the key of the kind and number it needs.
    fn open(&self, kind: u8, x: Label, y: Label, needs: u8) -> Result<Label, Refusal> {
        let (sealed, key) = (self.table.term(x), self.table.term(y));
        let fits = sealed.kind() == kind && key.kind() == needs && sealed.b() == key.a();
        fit(fits, sealed.a())
    }

    /// What an action does to its location.
    pub fn touch(&mut self, action: &Action, serial: u16, labels: Labels) {
        let cell = &mut self.cells[action.loc as usize];
        match action.op {
            WRITE => cell.value = labels.x,
            EXTEND => cell.value = labels.result,
            LOCK => cell.holder = serial,
            UNLOCK => cell.holder = Cell::FREE,
            _ => {}
        }
    }

    /// A late launch's part in memory: the machine's dynamic registers become dinit and are locked by the new thread.
    pub fn launch_cells(&mut self, model: &Model, machine: &Machine, serial: u16) {
        for loc in &machine.locations {
            if model.locations[*loc as usize].kind == DYNAMIC {
                self.cells[*loc as usize] = Cell {
                    value: DINIT.into(),
                    holder: serial,
                };
            }
        }
    }

    /// A reset's part in memory: RAM and registers begin anew, locks are free but for those of a protected boot.
    pub fn reset_cells(&mut self, model: &Model, machine: &Machine, serial: u16) {
        for loc in &machine.locations {
            let kind = model.locations[*loc as usize].kind;
            let cell = &mut self.cells[*loc as usize];
            cell.holder = if machine.protected && kind == STATIC {
                serial
            } else {
                Cell::FREE
            };
            match kind {
                RAM => cell.value = NUMBER.into(),
                DISK => {}
                _ => cell.value = SINIT.into(),
            }
        }
    }

    /// Ends every thread on a machine.
    pub fn end_all(&mut self, machine: u8) {
        for slot in slots_of(self.live) {
            if self.threads[slot].machine == machine {
                self.live &= !(1 << slot);
            }
        }
    }
}

fn fit(fits: bool, label: Label) -> Result<Label, Refusal> {
    if fits {
        Ok(label)
    } else {
        Err(Refusal::Misfit)
    }
}

/// The slots whose bits are set, the lowest first.
pub fn slots_of(mut bits: u16) -> impl Iterator<Item = usize> {
    std::iter::from_fn(move || {
        if bits == 0 {
            return None;
        }
        let slot = bits.trailing_zeros() as usize;
        bits &= bits - 1;
        Some(slot)
    })
}
