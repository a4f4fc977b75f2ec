// The walk over all schedules in dictionary order, one try (a schedule and a code) at a time.
// Why: a listing, its count and the generator all need the same walk, but stop it differently.

use crate::claim;
use crate::machine::{code_after, step, Config, Event, NO_CODE};
use crate::model::Model;

/// A schedule's configuration and the next code to try after it.
struct Frame {
    config: Config,
    next: u16,
}

pub struct Walk<'m> {
    model: &'m Model,
    bound: usize,
    frames: Vec<Frame>,
    schedule: Vec<u16>,
    events: Vec<Event>,
}

/// What one try came to.
pub enum Tried {
    Refused(u8),
    Bad(Vec<u16>, Event),
    Fine(Event),
}

impl<'m> Walk<'m> {
    pub fn new(model: &'m Model, bound: usize) -> Walk<'m> {
        let start = Frame {
            config: Config::fresh(model),
            next: 0,
        };
        Walk {
            model,
            bound,
            frames: vec![start],
            schedule: Vec::new(),
            events: Vec::new(),
        }
    }

    pub fn pairs_left(&self) -> bool {
        !self.frames.is_empty()
    }

    /// The length of the schedule whose next code is tried.
    pub fn length(&self) -> usize {
        self.schedule.len()
    }

    /// Tries the next pair; one must be left.
    pub fn advance(&mut self) -> Tried {
        let frame = self.frames.last_mut().expect("a pair is left");
        let code = frame.next;
        frame.next = code_after(code);
        let tried = match step(self.model, &frame.config, code) {
            Err(number) => Tried::Refused(number),
            Ok((config, event)) => self.permitted(code, config, event),
        };
        self.drop_finished();
        tried
    }

    fn permitted(&mut self, code: u16, config: Config, event: Event) -> Tried {
        if claim::breaks(self.model.claim(), &self.events, &event) {
            let mut bad = self.schedule.clone();
            bad.push(code);
            return Tried::Bad(bad, event);
        }
        if self.schedule.len() + 1 < self.bound {
            self.frames.push(Frame { config, next: 0 });
            self.schedule.push(code);
            self.events.push(event.clone());
        }
        Tried::Fine(event)
    }

    /// Leaves every schedule that has no code left to try.
    fn drop_finished(&mut self) {
        while self
            .frames
            .last()
            .is_some_and(|frame| frame.next == NO_CODE)
        {
            self.frames.pop();
            self.schedule.pop();
            self.events.pop();
        }
    }
}
