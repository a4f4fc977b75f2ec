// The claim, judged over the events of a run so far and the step at hand.
// Why: search and run must call a step breaking by one and the same reading of the paper.

use crate::machine::{Event, Kind};
use crate::model::Claim;
use std::collections::BTreeMap;

/// Whether a step with this event, after the earlier ones, breaks the claim.
pub fn breaks(claim: &Claim, earlier: &[Event], event: &Event) -> bool {
    // Few events end the claim's program, so this is asked before the earlier ones are gone through.
    if !event.ended.contains(&claim.program) {
        return false;
    }
    let mut progress = Progress::default();
    for event in earlier {
        progress.note(claim, event);
    }
    progress.broken_by(claim, event)
}

/// What the claim asks of the events so far.
#[derive(Clone, Default)]
pub struct Progress {
    /// Whether some thread was made as claimed and then jumped along the path first of all.
    pub walked: bool,
    /// How far along the path each thread so made has come, while it has not left it.
    pub along: BTreeMap<u32, usize>,
}

impl Progress {
    pub fn broken_by(&self, claim: &Claim, event: &Event) -> bool {
        event.ended.contains(&claim.program) && !self.walked
    }

    pub fn note(&mut self, claim: &Claim, event: &Event) {
        if let Some(made) = made_by(claim, event) {
            self.along.insert(made, 0);
        }
        let Kind::Jump { program } = event.kind else {
            return;
        };
        let Some(come) = self.along.remove(&event.serial) else {
            return;
        };
        if claim.path.get(come) == Some(&program) {
            self.along.insert(event.serial, come + 1);
            self.walked |= come + 1 == claim.path.len();
        }
    }
}

/// The thread this event made in the way the claim speaks of.
fn made_by(claim: &Claim, event: &Event) -> Option<u32> {
    match event.kind {
        Kind::Launch { thread, machine } if claim.launch && machine == claim.machine => {
            Some(thread)
        }
        Kind::Reset { thread, machine } if !claim.launch && machine == claim.machine => {
            Some(thread)
        }
        _ => None,
    }
}
