// The second reading of a model: what an E or A line says about lines that come later.
// Why: programs and locations follow the lines naming them; this goes by line, then by number.

use crate::lines::Refusal;
use crate::model::{Action, Model};
use crate::term::CODE;

/// V is line 1, so the first listed term stands on line 2.
const FIRST_TERM_LINE: usize = 2;

pub fn read(model: &Model) -> Result<(), Refusal> {
    let mut line = FIRST_TERM_LINE;
    for label in model.requests.fixed().len()..model.table.len() {
        let term = model.table.term(label as u16);
        if term.kind == CODE && term.a as usize >= model.programs.len() {
            return Err(Refusal { number: 23, line });
        }
        line += 1;
    }
    for program in 0..model.programs.len() {
        for place in 0..model.programs[program].len() {
            action(model, program, place).map_err(|number| Refusal { number, line })?;
            line += 1;
        }
    }
    Ok(())
}

fn action(model: &Model, program: usize, place: usize) -> Result<(), u8> {
    let action: Action = model.programs[program][place];
    let location = model.locations.get(action.loc as usize);
    if action.uses_location() && location.is_none() {
        return Err(23);
    }
    if place + 1 == model.programs[program].len() && repeats(model, program) {
        return Err(24);
    }
    match location {
        Some(location) if !action.takes(location.kind) => Err(25),
        _ => Ok(()),
    }
}

fn repeats(model: &Model, program: usize) -> bool {
    model.programs[..program].contains(&model.programs[program])
}
