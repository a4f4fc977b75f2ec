// Terms and their table: every term stands once, under its label, parts before wholes.
// Why: two terms are then equal exactly if their labels are, and the table's size is a rule.

use crate::requests::Requests;
use std::collections::HashMap;

pub type Label = u16;

pub const NUMBER: u16 = 0;
pub const SINIT: u16 = 1;
pub const DINIT: u16 = 2;
pub const AGENT: u16 = 3;
pub const KEY: u16 = 4;
pub const INVERSE: u16 = 5;
pub const VARIABLE: u16 = 6;
pub const NONCE: u16 = 7;
pub const CODE: u16 = 8;
pub const PAIR: u16 = 9;
pub const SIGNATURE: u16 = 10;
pub const ENCRYPTED: u16 = 11;
pub const SYMMETRIC: u16 = 12;
pub const HASH: u16 = 13;
pub const CHAIN: u16 = 14;
pub const FUNCTION: u16 = 15;
pub const DNONE: u16 = 16;

#[derive(Clone, Copy, PartialEq, Eq, Hash, Debug)]
pub struct Term {
    pub kind: u16,
    pub a: u16,
    pub b: u16,
}

impl Term {
    pub fn new(kind: u16, a: u16, b: u16) -> Term {
        Term { kind, a, b }
    }

    /// The labels of its parts, the one in field a and the one in field b.
    pub fn parts(&self) -> [Option<Label>; 2] {
        match self.kind {
            PAIR | CHAIN => [Some(self.a), Some(self.b)],
            SIGNATURE | ENCRYPTED | SYMMETRIC | HASH => [Some(self.a), None],
            FUNCTION => [None, Some(self.b)],
            _ => [None, None],
        }
    }

    /// The same term over other parts.
    pub fn with_parts(&self, part: impl Fn(Label) -> Label) -> Term {
        let [first, second] = self.parts();
        Term::new(
            self.kind,
            first.map_or(self.a, &part),
            second.map_or(self.b, &part),
        )
    }

    /// Whether this kind leaves field a, and field b, unused.
    pub fn unused(&self) -> [bool; 2] {
        match self.kind {
            SINIT | DINIT | DNONE => [true, true],
            PAIR | SIGNATURE | ENCRYPTED | SYMMETRIC | CHAIN | FUNCTION => [false, false],
            _ => [false, true],
        }
    }
}

/// A term with what follows from it: its depth, and a bit for each variable inside.
#[derive(Clone, Copy)]
pub struct Entry {
    pub term: Term,
    pub depth: u8,
    pub variables: u32,
}

impl Entry {
    pub fn ground(&self) -> bool {
        self.variables == 0
    }
}

#[derive(Clone)]
pub struct Table {
    entries: Vec<Entry>,
    labels: HashMap<Term, Label>,
}

impl Table {
    pub const LIMIT: usize = 512;
    pub const DEPTH: u8 = 16;
    pub const VARIABLES: u16 = 16;
    pub const FUNCTIONS: u16 = 256;

    /// The table of the fixed terms.
    pub fn fixed(requests: Requests) -> Table {
        let mut table = Table {
            entries: Vec::new(),
            labels: HashMap::new(),
        };
        for kind in requests.fixed() {
            table.put(Term::new(*kind, 0, 0));
        }
        table
    }

    pub fn len(&self) -> usize {
        self.entries.len()
    }

    pub fn lists(&self, label: Label) -> bool {
        (label as usize) < self.entries.len()
    }

    pub fn entry(&self, label: Label) -> &Entry {
        &self.entries[label as usize]
    }

    pub fn term(&self, label: Label) -> Term {
        self.entry(label).term
    }

    pub fn find(&self, term: Term) -> Option<Label> {
        self.labels.get(&term).copied()
    }

    /// The depth a term would have; parts that are not listed are left out.
    pub fn depth_of(&self, term: Term) -> u8 {
        let listed = term
            .parts()
            .into_iter()
            .flatten()
            .filter(|part| self.lists(*part));
        1 + listed.map(|part| self.entry(part).depth).max().unwrap_or(0)
    }

    /// The label of a term whose parts are listed, entered if it is new.
    pub fn put(&mut self, term: Term) -> Label {
        if let Some(label) = self.find(term) {
            return label;
        }
        let label = self.entries.len() as Label;
        self.entries
            .push(entry_over(term, |part| *self.entry(part)));
        self.labels.insert(term, label);
        label
    }
}

fn entry_over(term: Term, part: impl Fn(Label) -> Entry) -> Entry {
    let own = if term.kind == VARIABLE {
        1 << term.a
    } else {
        0
    };
    let mut entry = Entry {
        term,
        depth: 1,
        variables: own,
    };
    for label in term.parts().into_iter().flatten() {
        let inner = part(label);
        entry.depth = entry.depth.max(inner.depth + 1);
        entry.variables |= inner.variables;
    }
    entry
}

/// The new terms of one step, kept beside the table until the step is permitted.
pub struct Draft<'t> {
    table: &'t Table,
    fresh: Vec<Entry>,
}

impl<'t> Draft<'t> {
    pub fn new(table: &'t Table) -> Draft<'t> {
        Draft {
            table,
            fresh: Vec::new(),
        }
    }

    pub fn entry(&self, label: Label) -> &Entry {
        match (label as usize).checked_sub(self.table.len()) {
            None => self.table.entry(label),
            Some(index) => &self.fresh[index],
        }
    }

    pub fn term(&self, label: Label) -> Term {
        self.entry(label).term
    }

    pub fn put(&mut self, term: Term) -> Label {
        if let Some(label) = self.table.find(term) {
            return label;
        }
        let known = self.fresh.iter().position(|entry| entry.term == term);
        let index = known.unwrap_or_else(|| {
            let entry = entry_over(term, |part| *self.entry(part));
            self.fresh.push(entry);
            self.fresh.len() - 1
        });
        (self.table.len() + index) as Label
    }

    /// The term with the values put for its variables: first part, second part, whole.
    pub fn substitute(&mut self, label: Label, values: &[Label]) -> Label {
        self.walk(label, values, &mut HashMap::new())
    }

    fn walk(&mut self, label: Label, values: &[Label], done: &mut HashMap<Label, Label>) -> Label {
        let entry = *self.entry(label);
        if entry.ground() {
            return label;
        }
        if entry.term.kind == VARIABLE {
            return values[entry.term.a as usize];
        }
        if let Some(known) = done.get(&label) {
            return *known;
        }
        let [first, second] = entry.term.parts();
        let a = first.map_or(entry.term.a, |part| self.walk(part, values, done));
        let b = second.map_or(entry.term.b, |part| self.walk(part, values, done));
        let whole = self.put(Term::new(entry.term.kind, a, b));
        done.insert(label, whole);
        whole
    }

    /// Refusal 8 if one of these is too deep, then 9 if all new terms do not fit.
    pub fn check(&self, labels: &[Label]) -> Result<(), u8> {
        if labels
            .iter()
            .any(|label| self.entry(*label).depth > Table::DEPTH)
        {
            return Err(8);
        }
        if self.table.len() + self.fresh.len() > Table::LIMIT {
            return Err(9);
        }
        Ok(())
    }

    /// The table with the new terms entered in the order they came up.
    pub fn finish(self) -> Table {
        let mut table = self.table.clone();
        for entry in &self.fresh {
            table.put(entry.term);
        }
        table
    }
}
