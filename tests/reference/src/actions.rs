// Programs invented for a sketch: ops by the style's weights, operands that mostly fit.
// Why: all 21 ops must come up, done as well as refused, in every sort of company.

use crate::model::*;
use crate::sketch::{Sketch, Style};
use crate::term::*;

/// How often each op is tried, by style; jump and late launch are chosen apart, as last actions.
fn weights(style: Style) -> [usize; 19] {
    match style {
        Style::Crypto => [1, 1, 1, 0, 0, 1, 1, 5, 5, 5, 5, 5, 5, 2, 2, 3, 3, 4, 2],
        Style::Locks => [3, 6, 6, 8, 6, 1, 1, 0, 0, 0, 0, 0, 0, 1, 0, 0, 0, 1, 1],
        Style::Memory => [9, 5, 4, 1, 1, 1, 1, 0, 1, 0, 1, 0, 1, 1, 0, 1, 1, 9, 1],
        Style::Talk => [1, 1, 1, 1, 1, 9, 9, 1, 2, 1, 2, 1, 2, 1, 1, 2, 2, 2, 2],
        Style::Deep => [4, 4, 9, 0, 0, 2, 2, 3, 1, 2, 1, 2, 1, 5, 4, 1, 1, 1, 0],
        Style::Full => [1, 2, 3, 1, 1, 2, 2, 2, 1, 2, 1, 2, 1, 3, 3, 1, 1, 2, 4],
        _ => [3, 3, 3, 3, 2, 4, 4, 2, 2, 2, 2, 2, 2, 2, 2, 2, 2, 3, 2],
    }
}

/// How a program's last action is chosen.
#[derive(Clone, Copy)]
pub enum Close {
    Any,
    Ending,
    Jump(u16),
    Launch,
}

impl Sketch<'_> {
    /// Writes the next program, of about this many actions, for threads of this machine.
    pub fn program(&mut self, length: usize, home: u16, close: Close) {
        let mut actions: Vec<Action> = Vec::new();
        self.meanings.clear();
        self.locked.clear();
        self.reads.clear();
        while actions.len() < length && !actions.last().is_some_and(Action::closes) {
            let last = actions.len() + 1 == length;
            let close = if last { close } else { Close::Ending };
            let action = self.action(actions.len(), home, close);
            let meaning = self.meaning(&action);
            self.meanings.push(meaning);
            actions.push(action);
        }
        let exit = self.exit_of(&actions);
        self.exits.push(exit);
        self.keep_apart(&mut actions);
        self.model.programs.push(actions);
    }

    /// Turns a program equal to an earlier one into another: eval of its own number comes first.
    fn keep_apart(&mut self, actions: &mut Vec<Action>) {
        if !self.model.programs.contains(actions) {
            return;
        }
        let loc = 100 + self.model.programs.len() as u16;
        actions.truncate(1);
        actions.insert(
            0,
            Action {
                op: EVAL,
                loc,
                x: 0,
                y: 0,
            },
        );
    }

    fn exit_of(&self, actions: &[Action]) -> Option<u16> {
        let last = actions.last().filter(|action| action.op == JUMP)?;
        let target = self.known(last.x);
        (target.kind == CODE).then_some(target.a)
    }

    fn action(&mut self, place: usize, home: u16, close: Close) -> Action {
        match close {
            Close::Jump(next) => return self.jump_on(place, next),
            Close::Launch => return plain(LATE_LAUNCH, 0, 0),
            Close::Any if self.random.chance(35) => return self.closing(place),
            _ => {}
        }
        let any = self.random.weighted(&weights(self.style)) as u16;
        let op = self
            .opening(place)
            .filter(|_| self.random.chance(75))
            .unwrap_or(any);
        if op <= UNLOCK {
            return self.on_location(op, place, home);
        }
        self.on_terms(op, place)
    }

    /// The op a program of this style likes at its first places.
    fn opening(&self, place: usize) -> Option<u16> {
        let even = self.model.programs.len() % 2 == 0;
        match (self.style, place) {
            (Style::Talk, 0) => Some(if even { SEND } else { RECEIVE }),
            (Style::Talk, 1) => Some(if even { RECEIVE } else { SEND }),
            (Style::Memory, 0) => Some(READ),
            (Style::Memory, 1) => Some(MATCH),
            (Style::Locks, 0) => Some(if even { LOCK } else { EXTEND }),
            _ => None,
        }
    }

    fn closing(&mut self, place: usize) -> Action {
        if self
            .random
            .chance(if self.style == Style::Locks { 60 } else { 40 })
        {
            return plain(LATE_LAUNCH, 0, 0);
        }
        let fit = self.random.chance(92);
        let x = if fit {
            self.of_kind(place, CODE)
        } else {
            self.operand(place)
        };
        plain(JUMP, x, 0)
    }

    /// A jump to the next program of a chain, by a value read before or by the code itself.
    fn jump_on(&mut self, place: usize, next: u16) -> Action {
        let code = Term::new(CODE, next, 0);
        let read = (0..place).find(|earlier| self.meanings[*earlier] == Some(code));
        let x = match read {
            Some(earlier) => self.variable(earlier),
            None => self.term(CODE, next, 0),
        };
        plain(JUMP, x, 0)
    }

    fn on_location(&mut self, op: u16, place: usize, home: u16) -> Action {
        let strong = op == LOCK && self.model.requests.strong && self.random.chance(50);
        let mut action = plain(if strong { STRONG_LOCK } else { op }, 0, 0);
        if action.uses_x() {
            action.x = self.operand(place);
        }
        if op == UNLOCK && !self.locked.is_empty() && self.random.chance(80) {
            action.loc = self.random.pick(&self.locked);
            return action;
        }
        match self.location_for(&action, home) {
            None => plain(NEW, 0, 0),
            Some(loc) => {
                if op == LOCK {
                    self.locked.push(loc);
                }
                Action { loc, ..action }
            }
        }
    }

    /// A location this action may name, mostly one of the home machine.
    fn location_for(&mut self, action: &Action, home: u16) -> Option<u16> {
        let any_machine = self.random.chance(6);
        let locations = &self.model.locations;
        let fits = |loc: &usize| {
            let location = &locations[*loc];
            action.takes(location.kind) && (any_machine || location.machine == home)
        };
        let fitting: Vec<usize> = (0..locations.len()).filter(fits).collect();
        (!fitting.is_empty()).then(|| self.random.pick(&fitting) as u16)
    }

    fn on_terms(&mut self, op: u16, place: usize) -> Action {
        let x = self.first_operand(op, place);
        let number = if self.random.chance(92) {
            self.known(x).b
        } else {
            self.key_number()
        };
        let key = self.key_number();
        match op {
            RECEIVE | NEW => plain(op, 0, 0),
            SIGN => plain(op, x, self.key(INVERSE, key)),
            ENC | SYMENC => plain(op, x, self.key(KEY, key)),
            VERIFY | SYMDEC => plain(op, x, self.key(KEY, number)),
            DEC => plain(op, x, self.key(INVERSE, number)),
            MATCH => plain(op, x, self.equal_to(x, place)),
            EVAL => Action {
                loc: self.random.pick(&[0, 1, 2, 31, 32, 255]),
                ..plain(op, x, 0)
            },
            _ => plain(op, x, 0),
        }
    }

    fn first_operand(&mut self, op: u16, place: usize) -> Label {
        match op {
            RECEIVE | NEW => 0,
            VERIFY => self.of_kind(place, SIGNATURE),
            DEC => self.of_kind(place, ENCRYPTED),
            SYMDEC => self.of_kind(place, SYMMETRIC),
            MATCH if !self.reads.is_empty() && self.random.chance(60) => {
                let read = self.random.pick(&self.reads);
                self.variable(read)
            }
            FIRST | SECOND if self.random.chance(92) => self.of_kind(place, PAIR),
            _ => self.operand(place),
        }
    }

    /// The key of this kind and number, seldom one of the other kind.
    fn key(&mut self, kind: u16, number: u16) -> Label {
        let swapped = self.random.chance(4);
        self.term(if swapped { KEY + INVERSE - kind } else { kind }, number, 0)
    }

    /// What x is likely to be equal to: itself, or the term its variable stands for.
    fn equal_to(&mut self, x: Label, place: usize) -> Label {
        let meaning = self.known(x);
        match self.random.below(10) {
            0..=2 => x,
            3..=7 if meaning.kind != NONCE => self.term(meaning.kind, meaning.a, meaning.b),
            _ => self.operand(place),
        }
    }

    /// What is likely to be read: the listed value, or what a reset or late launch leaves.
    fn stored(&mut self, loc: usize) -> Term {
        self.reads.push(self.meanings.len());
        let location = self.model.locations[loc];
        match location.kind {
            RAM if self.random.chance(50) => Term::new(NUMBER, 0, 0),
            DYNAMIC if self.random.chance(50) => Term::new(DINIT, 0, 0),
            _ => self.model.table.term(location.value),
        }
    }

    /// The term an action is likely to bind, where that can be said beforehand.
    fn meaning(&mut self, action: &Action) -> Option<Term> {
        let (x, number) = (action.x, self.known(action.y).a);
        match action.op {
            READ => Some(self.stored(action.loc as usize)),
            SIGN => Some(Term::new(SIGNATURE, x, number)),
            ENC => Some(Term::new(ENCRYPTED, x, number)),
            SYMENC => Some(Term::new(SYMMETRIC, x, number)),
            VERIFY | DEC | SYMDEC | FIRST => self.known(x).parts()[0].map(|part| self.known(part)),
            SECOND => self.known(x).parts()[1].map(|part| self.known(part)),
            HASH_OP => Some(Term::new(HASH, x, 0)),
            EVAL => Some(Term::new(FUNCTION, action.loc, x)),
            RECEIVE | NEW => None,
            _ => Some(Term::new(NUMBER, 0, 0)),
        }
    }
}

fn plain(op: u16, x: Label, y: Label) -> Action {
    Action { op, loc: 0, x, y }
}
