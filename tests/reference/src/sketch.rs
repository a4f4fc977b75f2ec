// A model being invented: its terms, and the operands that fit what is known so far.
// Why: blind choice would be refused at nearly every step; this keeps most actions fitting.

use crate::model::Model;
use crate::random::Random;
use crate::term::*;

/// What a generated model is mostly about.
#[derive(Clone, Copy, PartialEq, Eq)]
pub enum Style {
    Mixed,
    Crypto,
    Locks,
    Memory,
    Talk,
    Chain,
    Deep,
    Full,
    Largest,
    Loop,
}

pub struct Sketch<'r> {
    pub random: &'r mut Random,
    pub style: Style,
    pub model: Model,
    /// The number of programs there will be, and of machines.
    pub programs: usize,
    pub machines: usize,
    /// For each program so far: the one it jumps to at its end, if that is known.
    pub exits: Vec<Option<u16>>,
    /// For the program being written: what each variable is likely to hold.
    pub meanings: Vec<Option<Term>>,
    pub locked: Vec<u16>,
    /// The places of its actions that read.
    pub reads: Vec<usize>,
}

impl Sketch<'_> {
    /// The label of a term, listed if it is new; 0 if it cannot be listed.
    pub fn term(&mut self, kind: u16, a: u16, b: u16) -> Label {
        let term = Term::new(kind, a, b);
        let table = &mut self.model.table;
        let known = table.find(term);
        let room = table.len() < Table::LIMIT && table.depth_of(term) <= Table::DEPTH;
        match known {
            Some(label) => label,
            None if room => table.put(term),
            None => NUMBER,
        }
    }

    pub fn variable(&mut self, place: usize) -> Label {
        self.term(VARIABLE, place as u16, 0)
    }

    pub fn key_number(&mut self) -> u16 {
        self.random.pick(&[0, 0, 0, 1, 1, 2, 65535])
    }

    pub fn code(&mut self) -> Label {
        let program = self.random.below(self.programs) as u16;
        self.term(CODE, program, 0)
    }

    pub fn leaf(&mut self) -> Label {
        let number = self.random.pick(&[0, 1, 2, 3, 7, 255, 256, 512, 65535]);
        let key = self.key_number();
        match self.random.weighted(&[4, 1, 1, 2, 2, 1, 3]) {
            0 => self.term(NUMBER, number, 0),
            1 => SINIT,
            2 if self.model.requests.dnone => {
                self.random.pick(&[DINIT, self.model.requests.powered_up()])
            }
            2 => DINIT,
            3 => self.term(AGENT, number, 0),
            4 => self.term(KEY, key, 0),
            5 => self.term(INVERSE, key, 0),
            _ => self.code(),
        }
    }

    /// A term of a random kind around one part, or around it and another one.
    pub fn wrap(&mut self, part: Label) -> Label {
        let other = if self.random.chance(30) {
            part
        } else {
            self.leaf()
        };
        let key = self.key_number();
        let function = self.random.pick(&[0, 1, 2, 255]);
        match self.random.below(9) {
            0 => self.term(PAIR, part, other),
            1 => self.term(PAIR, other, part),
            2 => self.term(SIGNATURE, part, key),
            3 => self.term(ENCRYPTED, part, key),
            4 => self.term(SYMMETRIC, part, key),
            5 => self.term(HASH, part, 0),
            6 => self.term(CHAIN, part, other),
            7 => self.term(CHAIN, other, part),
            _ => self.term(FUNCTION, function, part),
        }
    }

    pub fn tower(&mut self, bottom: Label, height: usize) -> Label {
        (0..height).fold(
            bottom,
            |top, _| if top == NUMBER { top } else { self.wrap(top) },
        )
    }

    /// A ground term, in a deep sketch often one near the greatest depth.
    pub fn ground(&mut self) -> Label {
        let bottom = self.leaf();
        let height = match self.style {
            Style::Deep if self.random.chance(50) => self.random.between(8, 15),
            _ => self.random.weighted(&[6, 3, 2, 1]),
        };
        self.tower(bottom, height)
    }

    /// Any operand an action at this place may use.
    pub fn operand(&mut self, place: usize) -> Label {
        if place == 0 || self.random.chance(35) {
            return self.ground();
        }
        let near = self.random.below(place);
        let bottom = self.variable(near);
        let height = match self.style {
            Style::Deep if self.random.chance(40) => self.random.between(3, 15),
            _ => self.random.weighted(&[6, 2, 1]),
        };
        self.tower(bottom, height)
    }

    /// What an operand is likely to be once the variables have their values.
    pub fn known(&self, label: Label) -> Term {
        let term = self.model.table.term(label);
        match term.kind {
            VARIABLE => self.meanings[term.a as usize].unwrap_or(term),
            _ => term,
        }
    }

    /// An operand likely to be of this kind: a variable that is, or a term made for it.
    pub fn of_kind(&mut self, place: usize, kind: u16) -> Label {
        let is_kind = |meaning: &Option<Term>| meaning.is_some_and(|term| term.kind == kind);
        let fitting: Vec<usize> = (0..place)
            .filter(|earlier| is_kind(&self.meanings[*earlier]))
            .collect();
        if !fitting.is_empty() && self.random.chance(80) {
            let chosen = self.random.pick(&fitting);
            return self.variable(chosen);
        }
        let (part, other) = (self.operand(place), self.operand(place));
        let key = self.key_number();
        match kind {
            CODE => self.code(),
            PAIR => self.term(PAIR, part, other),
            _ => self.term(kind, part, key),
        }
    }

    /// Fills the table with terms of all sorts up to this count.
    pub fn fill(&mut self, count: usize) {
        let mut number = 1000;
        while self.model.table.len() < count {
            number += 1;
            let earlier = self.random.below(self.model.table.len()) as Label;
            if self.random.chance(40) {
                self.wrap(earlier);
            } else {
                let kind = self.random.pick(&[NUMBER, AGENT, KEY, INVERSE]);
                self.term(kind, number, 0);
            }
        }
    }
}
