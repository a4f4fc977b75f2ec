// The model: what a file lists, with the limit of each list and what each op uses.
// Why: the reader fills it, the machine runs it, the generator invents it; all share one form.

use crate::requests::Requests;
use crate::term::{Label, Table};

pub const READ: u16 = 0;
pub const WRITE: u16 = 1;
pub const EXTEND: u16 = 2;
pub const LOCK: u16 = 3;
pub const UNLOCK: u16 = 4;
pub const SEND: u16 = 5;
pub const RECEIVE: u16 = 6;
pub const SIGN: u16 = 7;
pub const VERIFY: u16 = 8;
pub const ENC: u16 = 9;
pub const DEC: u16 = 10;
pub const SYMENC: u16 = 11;
pub const SYMDEC: u16 = 12;
pub const HASH_OP: u16 = 13;
pub const EVAL: u16 = 14;
pub const FIRST: u16 = 15;
pub const SECOND: u16 = 16;
pub const MATCH: u16 = 17;
pub const NEW: u16 = 18;
pub const JUMP: u16 = 19;
pub const LATE_LAUNCH: u16 = 20;
/// A run's words for a reset and a hand-over; no action has them.
pub const RESET: u16 = 21;
pub const HAND_OVER: u16 = 22;
pub const STRONG_LOCK: u16 = 23;

pub const RAM: u16 = 0;
pub const DISK: u16 = 1;
pub const STATIC: u16 = 2;
pub const DYNAMIC: u16 = 3;

#[derive(Clone, Copy, PartialEq, Eq)]
pub struct Action {
    pub op: u16,
    pub loc: u16,
    pub x: Label,
    pub y: Label,
}

impl Action {
    /// Whether a file may list its op.
    pub fn known(&self, requests: Requests) -> bool {
        self.op <= LATE_LAUNCH || (requests.strong && self.op == STRONG_LOCK)
    }

    pub fn uses_location(&self) -> bool {
        self.op <= UNLOCK || self.op == STRONG_LOCK
    }

    pub fn uses_loc(&self) -> bool {
        self.uses_location() || self.op == EVAL
    }

    pub fn uses_x(&self) -> bool {
        matches!(self.op, WRITE | EXTEND | SEND | SIGN..=MATCH | JUMP)
    }

    pub fn uses_y(&self) -> bool {
        matches!(self.op, SIGN..=SYMDEC | MATCH)
    }

    /// No action may follow this one in its program.
    pub fn closes(&self) -> bool {
        matches!(self.op, JUMP | LATE_LAUNCH)
    }

    /// Whether this op may name a location of this kind.
    pub fn takes(&self, kind: u16) -> bool {
        match self.op {
            WRITE => matches!(kind, RAM | DISK),
            EXTEND => matches!(kind, STATIC | DYNAMIC),
            _ => true,
        }
    }
}

#[derive(Clone, Copy)]
pub struct Machine {
    pub boot: u16,
    pub launch: u16,
    pub protected: bool,
}

#[derive(Clone, Copy)]
pub struct Location {
    pub machine: u16,
    pub kind: u16,
    pub value: Label,
}

#[derive(Clone, Copy)]
pub struct Listed {
    pub agent: u16,
    pub machine: u16,
    pub program: u16,
}

#[derive(Clone)]
pub struct Claim {
    pub launch: bool,
    pub program: u16,
    pub machine: u16,
    pub path: Vec<u16>,
}

#[derive(Clone)]
pub struct Model {
    /// The requests by which it is read and run.
    pub requests: Requests,
    pub table: Table,
    pub programs: Vec<Vec<Action>>,
    pub machines: Vec<Machine>,
    pub locations: Vec<Location>,
    pub threads: Vec<Listed>,
    pub claim: Option<Claim>,
}

impl Model {
    pub const PROGRAMS: usize = 32;
    pub const ACTIONS: usize = 16;
    pub const MACHINES: usize = 4;
    pub const LOCATIONS: usize = 32;
    pub const KINDS_OF_LOCATION: u16 = 4;
    pub const THREADS: usize = 8;

    pub fn empty(requests: Requests) -> Model {
        Model {
            requests,
            table: Table::fixed(requests),
            programs: Vec::new(),
            machines: Vec::new(),
            locations: Vec::new(),
            threads: Vec::new(),
            claim: None,
        }
    }

    pub fn claim(&self) -> &Claim {
        self.claim
            .as_ref()
            .expect("a model read whole has its claim")
    }
}
