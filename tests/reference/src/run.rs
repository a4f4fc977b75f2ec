// A run: codes tried one after the other from the fresh configuration, its events kept.
// Why: the run program prints it and the count looks into it, so it stands by itself.

use crate::claim;
use crate::machine::{step, Config, Event};
use crate::model::Model;
use crate::room::give_back;
use crate::term::Label;

/// The events a run has room for.
pub const ROOM: usize = 4_096;
/// The number given to a permitted step that finds no room.
pub const NO_ROOM: u8 = 12;

pub struct Run<'m> {
    model: &'m Model,
    pub config: Config,
    pub events: Vec<Event>,
    pub accepts: usize,
    /// The first breaking step, counted from 1, or 0.
    pub first_break: usize,
    /// Whether a permitted step has found no room.
    pub over: bool,
}

impl<'m> Run<'m> {
    pub fn new(model: &'m Model) -> Run<'m> {
        let config = Config::fresh(model);
        Run {
            model,
            config,
            events: Vec::new(),
            accepts: 0,
            first_break: 0,
            over: false,
        }
    }

    /// Makes the step of a code; from request 5 on one refused by 9 gets room back and is tried once more.
    pub fn advance(&mut self, code: u16) -> Result<Event, u8> {
        match self.make(code) {
            Err(9) if self.model.requests.room => {
                self.give_back(self.events.len())?;
                self.make(code)
            }
            answer => answer,
        }
    }

    /// Gives room back, the last so many events lent: for each old label its new one, if it is kept; or 14.
    pub fn give_back(&mut self, lent: usize) -> Result<Vec<Option<Label>>, u8> {
        let first = self.events.len().saturating_sub(lent);
        give_back(self.model, &mut self.config, &mut self.events[first..])
    }

    /// Makes the step of a code, by the step alone.
    pub fn make(&mut self, code: u16) -> Result<Event, u8> {
        let (next, event) = step(self.model, &self.config, code)?;
        if self.events.len() == ROOM {
            self.over = true;
            return Err(NO_ROOM);
        }
        if self.first_break == 0 && claim::breaks(self.model.claim(), &self.events, &event) {
            self.first_break = self.events.len() + 1;
        }
        self.accepts += event.ended.len();
        self.config = next;
        self.events.push(event.clone());
        Ok(event)
    }
}
