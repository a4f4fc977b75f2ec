// Giving room back (request 5): the terms that nothing names any more leave the table.
// Why: a kept term must mean what it meant, so all labels move together, here and nowhere else.

use crate::machine::{Config, Event};
use crate::model::Model;
use crate::term::{Label, Table};

/// Keeps exactly the fixed labels, the model's terms and all terms reachable from locations, thread values and lent
/// events, and moves them down. For each old label its new one, if it is kept; 14 if an event names one past the count.
pub fn give_back(
    model: &Model,
    config: &mut Config,
    lent: &mut [Event],
) -> Result<Vec<Option<Label>>, u8> {
    let past = |event: &Event| {
        labels_of(event)
            .iter()
            .any(|label| !config.table.lists(*label))
    };
    if lent.iter().any(past) {
        return Err(14);
    }
    let kept = kept(model, config, lent);
    let mut table = Table::fixed(model.requests);
    let mut moved: Vec<Option<Label>> = vec![None; config.table.len()];
    for label in 0..config.table.len() {
        if kept[label] {
            let term = config.table.term(label as Label);
            let part = |old: Label| moved[old as usize].expect("parts are kept with their whole");
            moved[label] = Some(table.put(term.with_parts(part)));
        }
    }
    config.table = table;
    for label in named(config, lent) {
        *label = moved[*label as usize].expect("what is named is kept");
    }
    Ok(moved)
}

fn labels_of(event: &Event) -> [Label; 3] {
    [event.x, event.y, event.result]
}

/// All labels outside the table: in locations, thread values and lent events.
fn named<'c>(config: &'c mut Config, lent: &'c mut [Event]) -> impl Iterator<Item = &'c mut Label> {
    let cells = config.cells.iter_mut().map(|cell| &mut cell.value);
    let threads = config.slots.iter_mut().flatten();
    let values = threads.flat_map(|thread| thread.values.iter_mut());
    let events = lent
        .iter_mut()
        .flat_map(|event| [&mut event.x, &mut event.y, &mut event.result]);
    cells.chain(values).chain(events)
}

/// Which labels are kept. Parts come before wholes, so one pass from the last label down finds all parts.
fn kept(model: &Model, config: &mut Config, lent: &mut [Event]) -> Vec<bool> {
    let mut kept: Vec<bool> = (0..config.table.len())
        .map(|label| label < model.table.len())
        .collect();
    for label in named(config, lent) {
        kept[*label as usize] = true;
    }
    for label in (0..kept.len()).rev() {
        if kept[label] {
            for part in config
                .table
                .term(label as Label)
                .parts()
                .into_iter()
                .flatten()
            {
                kept[part as usize] = true;
            }
        }
    }
    kept
}
