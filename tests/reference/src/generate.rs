// One pseudo-random input for a seed: an invented model, its orders, and damage for a third.
// Why: both programs can be fed the same inputs by seed, as many as one likes.

use crate::damage;
use crate::lines::Task;
use crate::orders::{codes, order, tasks, MOST_TRIES};
use crate::plan::{model, style, Mode};
use crate::random::Random;
use crate::report::read_list;
use crate::requests::Requests;
use crate::sheet::Sheet;

pub fn input(mode: Mode, seed: u64, requests: Requests) -> Vec<u8> {
    made(mode, seed, requests).0
}

/// The input, and whether it was damaged.
pub fn made(mode: Mode, seed: u64, requests: Requests) -> (Vec<u8>, bool) {
    let mut random = Random::new(seed ^ (mode.salt() << 32));
    if mode == Mode::Report {
        return several(&mut random, requests);
    }
    let mut sheet = sound(&mut random, mode, requests);
    if !random.chance(34) {
        return (sheet.bytes(), false);
    }
    let bytes = damage::spoil(&mut random, &mut sheet, mode);
    if mode == Mode::List && !tame(&bytes, requests) {
        return made(mode, seed ^ 0x5eed_0000_0000, requests);
    }
    (bytes, true)
}

fn sound(random: &mut Random, mode: Mode, requests: Requests) -> Sheet {
    let style = style(random);
    // A slow listing finds more in the small models of a listing.
    let small = mode == Mode::Tell && requests.slow && random.chance(50);
    let size = if small { Mode::List } else { mode };
    let model = model(random, style, size, requests);
    let mut sheet = Sheet::of(&model);
    match mode {
        Mode::List | Mode::Report => {
            let (bound, budget) = order(random, &model, style);
            sheet.add("G", &[bound as u64, budget]);
        }
        Mode::Run => {
            for code in codes(random, &model, style) {
                sheet.add("R", &[code]);
            }
        }
        Mode::Ever => {}
        Mode::Tell => {
            for task in tasks(random, &model, style) {
                match task {
                    Task::Code(code) => sheet.add("R", &[code]),
                    Task::Room(lent) => sheet.add("K", &[lent]),
                    Task::Slow { bound, room } => sheet.add("S", &[bound, room]),
                }
            }
        }
    }
    sheet
}

/// Listings one after the other, seldom a damaged one, which ends the report; maybe none at all.
fn several(random: &mut Random, requests: Requests) -> (Vec<u8>, bool) {
    let (mut bytes, mut damaged) = (Vec::new(), false);
    for _ in 0..random.between(1, 4) {
        let (listing, harmed) = made(Mode::List, random.next(), requests);
        if !harmed || random.chance(30) {
            bytes.extend(listing);
            damaged |= harmed;
        }
    }
    (bytes, damaged)
}

/// Damage must not have made the listing a long one.
fn tame(bytes: &[u8], requests: Requests) -> bool {
    match read_list(bytes, requests) {
        Ok((_, order)) => order.bound <= 2 || order.budget <= MOST_TRIES,
        Err(_) => true,
    }
}
