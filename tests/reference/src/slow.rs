// The slow lister (request 7): all code sequences up to a bound by length, the bad ones put in order afterwards.
// Why: simple to read, and found in another way than the walk finds them.

use crate::claim;
use crate::machine::{code_after, step, Config, Event, NO_CODE};
use crate::model::Model;

pub const LARGEST_BOUND: usize = 3;

/// A sequence with every step permitted and none breaking.
struct Sequence {
    codes: Vec<u16>,
    config: Config,
    events: Vec<Event>,
}

/// The bad schedules without a bad proper prefix, in dictionary order; 41, or 15 if they are more than the room.
pub fn list(model: &Model, bound: usize, room: usize) -> Result<Vec<Vec<u16>>, u8> {
    if !(1..=LARGEST_BOUND).contains(&bound) {
        return Err(41);
    }
    let mut bad = Vec::new();
    let empty = Sequence {
        codes: Vec::new(),
        config: Config::fresh(model),
        events: Vec::new(),
    };
    // A sequence that goes on from a refused step is not permitted, and one that goes on from a bad one has it as prefix.
    let mut sequences = vec![empty];
    for _ in 0..bound {
        sequences = sequences
            .iter()
            .flat_map(|sequence| longer(model, sequence, &mut bad))
            .collect();
    }
    bad.sort();
    if bad.len() > room {
        return Err(15);
    }
    Ok(bad)
}

/// The sequences one code longer; a bad one goes to the others.
fn longer(model: &Model, sequence: &Sequence, bad: &mut Vec<Vec<u16>>) -> Vec<Sequence> {
    let mut longer = Vec::new();
    let mut code = 0;
    while code < NO_CODE {
        if let Ok((config, event)) = step(model, &sequence.config, code) {
            let codes = [&sequence.codes[..], &[code]].concat();
            if claim::breaks(model.claim(), &sequence.events, &event) {
                bad.push(codes);
            } else {
                let events = [&sequence.events[..], &[event]].concat();
                longer.push(Sequence {
                    codes,
                    config,
                    events,
                });
            }
        }
        code = code_after(code);
    }
    longer
}
