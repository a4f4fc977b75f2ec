// A sound model as the walk wants it: flat lists, and beside each action what can be said of it beforehand.
// Why: a sound file needs no judging, and the walk asks these things millions of times.

use crate::table::{Label, Table, Term};

pub const READ: u8 = 0;
pub const WRITE: u8 = 1;
pub const EXTEND: u8 = 2;
pub const LOCK: u8 = 3;
pub const UNLOCK: u8 = 4;
pub const SEND: u8 = 5;
pub const RECEIVE: u8 = 6;
pub const SIGN: u8 = 7;
pub const VERIFY: u8 = 8;
pub const ENC: u8 = 9;
pub const DEC: u8 = 10;
pub const SYMENC: u8 = 11;
pub const SYMDEC: u8 = 12;
pub const HASH_OP: u8 = 13;
pub const EVAL: u8 = 14;
pub const FIRST: u8 = 15;
pub const SECOND: u8 = 16;
pub const MATCH: u8 = 17;
pub const NEW: u8 = 18;
pub const JUMP: u8 = 19;
pub const LATE_LAUNCH: u8 = 20;

pub const RAM: u8 = 0;
pub const DISK: u8 = 1;
pub const STATIC: u8 = 2;
pub const DYNAMIC: u8 = 3;

#[derive(Clone, Copy, Default)]
pub struct Action {
    pub op: u8,
    /// The machine of its location, where it names one.
    pub home: u8,
    /// The thread is gone after it: the last action of its program, and no jump or late launch.
    pub ends: bool,
    /// That ending is an accept of the claim's program.
    pub accepts: bool,
    pub loc: u16,
    pub x: Label,
    pub y: Label,
}

impl Action {
    pub fn uses_location(&self) -> bool {
        self.op <= UNLOCK
    }
}

#[derive(Clone, Copy, Default)]
pub struct Location {
    pub machine: u8,
    pub kind: u8,
    pub value: Label,
}

pub struct Machine {
    pub boot: u8,
    pub launch: u8,
    pub protected: bool,
    /// Its locations, so that a reset or late launch looks at no other.
    pub locations: Vec<u8>,
}

pub struct Listed {
    pub machine: u8,
    pub program: u8,
}

#[derive(Default)]
pub struct Claim {
    pub launch: bool,
    pub program: u8,
    pub machine: u8,
    pub path: Vec<u8>,
}

pub struct Model {
    pub table: Table,
    /// Action k of program p at 16 p + k.
    pub actions: [Action; 512],
    pub lengths: [u8; 32],
    pub machines: Vec<Machine>,
    pub locations: Vec<Location>,
    pub threads: Vec<Listed>,
    pub claim: Claim,
    pub bound: usize,
    pub budget: u64,
}

impl Model {
    pub const ACTIONS: usize = 16;

    pub fn read(file: &str) -> Model {
        let mut model = Model {
            table: Table::fixed(),
            actions: [Action::default(); 512],
            lengths: [0; 32],
            machines: Vec::new(),
            locations: Vec::new(),
            threads: Vec::new(),
            claim: Claim::default(),
            bound: 0,
            budget: 0,
        };
        for (number, line) in file.lines().enumerate() {
            model.take(number + 1, line);
        }
        assert!(
            (1..=24).contains(&model.bound),
            "the last line must be G with a bound from 1 to 24"
        );
        model.look_ahead();
        model
    }

    fn take(&mut self, number: usize, line: &str) {
        let mut fields = line.split('\t');
        let letter = fields.next().unwrap_or_default();
        let decimal = |field: &str| {
            field
                .parse()
                .unwrap_or_else(|_| panic!("line {number}: '{field}' is no number"))
        };
        let numbers: Vec<u64> = fields.map(decimal).collect();
        match (letter, numbers.as_slice()) {
            ("V", [1]) => {}
            ("E", &[_, kind, a, b]) => self.table.list(Term::new(kind as u8, a as u16, b as u16)),
            ("A", &[program, op, loc, x, y]) => self.take_action(program as usize, [op, loc, x, y]),
            ("M", &[_, boot, launch, protected]) => self.machines.push(Machine {
                boot: boot as u8,
                launch: launch as u8,
                protected: protected == 1,
                locations: Vec::new(),
            }),
            ("L", &[loc, machine, kind, value]) => self.take_location(loc, machine, kind, value),
            ("T", &[_, machine, program]) => self.threads.push(Listed {
                machine: machine as u8,
                program: program as u8,
            }),
            ("C", [kind, program, machine, path @ ..]) => {
                self.claim = Claim {
                    launch: *kind == 1,
                    program: *program as u8,
                    machine: *machine as u8,
                    path: path.iter().map(|program| *program as u8).collect(),
                }
            }
            ("G", &[bound, budget]) => (self.bound, self.budget) = (bound as usize, budget),
            _ => panic!("line {number}: no line of a sound model: {line}"),
        }
    }

    fn take_action(&mut self, program: usize, [op, loc, x, y]: [u64; 4]) {
        let position = self.lengths[program] as usize;
        self.actions[program * Model::ACTIONS + position] = Action {
            op: op as u8,
            loc: loc as u16,
            x: x as Label,
            y: y as Label,
            ..Action::default()
        };
        self.lengths[program] += 1;
    }

    fn take_location(&mut self, loc: u64, machine: u64, kind: u64, value: u64) {
        self.machines[machine as usize].locations.push(loc as u8);
        self.locations.push(Location {
            machine: machine as u8,
            kind: kind as u8,
            value: value as Label,
        });
    }

    /// What each action's place, location and the claim say of it, known once all lines are read.
    fn look_ahead(&mut self) {
        for program in 0..self.lengths.len() {
            let length = self.lengths[program] as usize;
            for position in 0..length {
                let action = &mut self.actions[program * Model::ACTIONS + position];
                action.ends = position + 1 == length && action.op < JUMP;
                action.accepts = action.ends && program == self.claim.program as usize;
                if action.uses_location() {
                    action.home = self.locations[action.loc as usize].machine;
                }
            }
        }
    }
}
