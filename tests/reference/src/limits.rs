// Damage at the limits: as much as a rule allows or one more, twins, far names, bad G and R lines.
// Why: a limit is read wrong most easily at its edge, which chance alone would seldom reach.

use crate::lines::LONGEST_INPUT;
use crate::plan::Mode;
use crate::random::Random;
use crate::sheet::{line, Sheet};

fn add_term(sheet: &mut Sheet, kind: usize, a: usize, b: usize) {
    let label = sheet.next_label();
    sheet.insert("E", &[label, kind, a, b]);
}

/// A listed or fixed term once more.
pub fn twin_term(random: &mut Random, sheet: &mut Sheet) {
    let fixed = random.chance(30);
    let kind = random.pick(sheet.requests.fixed());
    let mut twin = line("E", &[0, kind, 0, 0]);
    if !fixed && sheet.count("E") > 0 {
        twin = sheet.line_of(random, "E").clone();
    }
    twin.resize(5, "0".to_string());
    twin[1] = sheet.next_label().to_string();
    sheet.insert("E", &twin[1..]);
}

/// A term of a kind that is fixed, made by steps alone, or none at all.
pub fn unlisted_kind(random: &mut Random, sheet: &mut Sheet) {
    let kind = random.pick(&[1, 2, 7, 7, 16, 17]);
    let (a, b) = (random.pick(&[0, 0, 5]), random.pick(&[0, 0, 0, 5]));
    add_term(sheet, kind, a, b);
}

/// A tower up to depth 16, then mostly a term over it that is too deep.
pub fn tall_term(random: &mut Random, sheet: &mut Sheet) {
    let function = random.between(3, 254);
    let mut top = random.below(sheet.requests.fixed().len());
    for _ in 0..15 {
        add_term(sheet, 15, function, top);
        top = sheet.next_label() - 1;
    }
    let later = sheet.next_label() + random.below(3);
    match random.below(6) {
        0 => add_term(sheet, 9, top, later),
        1 => add_term(sheet, 14, later, top),
        2 => add_term(sheet, 13, top, 0),
        3 => add_term(sheet, 9, top - 1, 0),
        4 => add_term(sheet, 10, top, 1),
        _ => add_term(sheet, 14, 0, top),
    }
}

pub fn more_terms(random: &mut Random, sheet: &mut Sheet) {
    let labels = random.pick(&[511, 512, 513, 514]);
    let kind = random.pick(&[0, 3]);
    while sheet.next_label() < labels {
        let number = 20_000 + sheet.next_label();
        add_term(sheet, kind, number, 0);
    }
}

/// One program gets 16 actions, or 17; after a jump or late launch even one is too many.
pub fn more_actions(random: &mut Random, sheet: &mut Sheet) {
    let program = random.below(sheet.programs().max(1)).to_string();
    let most = random.pick(&[16, 17, 17, 18]);
    let op = random.pick(&["18", "18", "20", "20", "21"]);
    let odd = random.pick(&[15, most - 1]);
    let of_program = |line: &Vec<String>| line[0] == "A" && line.get(1) == Some(&program);
    let has = sheet.lines.iter().filter(|line| of_program(line)).count();
    let end = sheet
        .lines
        .iter()
        .rposition(of_program)
        .map_or(0, |last| last + 1);
    for added in has..most {
        let op = if added == odd { op } else { "18" };
        sheet
            .lines
            .insert(end + added - has, line("A", &[&program, op, "0", "0", "0"]));
    }
}

/// Programs, machines, locations or threads up to their limit, or one more.
pub fn more_of_a_group(random: &mut Random, sheet: &mut Sheet) {
    let over = random.below(2);
    match random.below(4) {
        0 => {
            for program in sheet.programs()..32 + over {
                sheet.insert("A", &[program, 14, 150 + program, 0, 0]);
            }
        }
        1 => {
            for machine in sheet.count("M")..4 + over {
                sheet.insert("M", &[machine, 0, 0, 0]);
            }
        }
        2 => {
            for location in sheet.count("L")..32 + over {
                sheet.insert("L", &[location, 0, 1, 0]);
            }
        }
        _ => {
            for _ in sheet.count("T")..8 + over {
                sheet.insert("T", &[7, 0, 0]);
            }
        }
    }
}

pub fn long_path(random: &mut Random, sheet: &mut Sheet) {
    let length = random.pick(&[0, 1, 4, 5, 6]);
    let programs = sheet.programs();
    let odd = random
        .chance(20)
        .then(|| random.between(0, programs).to_string());
    let claim = sheet.line_of(random, "C");
    claim.resize(4 + length, "0".to_string());
    if let (Some(program), Some(last)) = (odd, claim.last_mut()) {
        *last = program;
    }
}

/// A program once more, as the last one, and maybe once again.
pub fn twin_program(random: &mut Random, sheet: &mut Sheet) {
    let program = random.below(sheet.programs().max(1)).to_string();
    let of_program = |line: &&Vec<String>| line[0] == "A" && line.get(1) == Some(&program);
    let actions: Vec<Vec<String>> = sheet.lines.iter().filter(of_program).cloned().collect();
    for _ in 0..random.between(1, 2) {
        let number = sheet.programs().to_string();
        for action in &actions {
            let mut copy = action.clone();
            copy[1] = number.clone();
            sheet.insert("A", &copy[1..]);
        }
    }
}

/// The code of a program that is not listed, or cannot be.
pub fn far_code(random: &mut Random, sheet: &mut Sheet) {
    let past = sheet.programs();
    let program = random.pick(&[past, past, past + 1, 31, 32, 33, 65535]);
    add_term(sheet, 8, program, 0);
    if random.chance(30) {
        far_location(random, sheet);
    }
}

/// A new program on a location that is not listed, or cannot be.
pub fn far_location(random: &mut Random, sheet: &mut Sheet) {
    let past = sheet.count("L");
    let location = random.pick(&[past, past, past + 1, 31, 32, 33, 65535]);
    let program = sheet.programs();
    let op = match random.between(0, 4) {
        3 if sheet.requests.strong => random.pick(&[3, 23]),
        op => op,
    };
    sheet.insert("A", &[program, op, location, 0, 0]);
}

/// A new program that writes or extends some location, of the right kind or not.
pub fn unfit_location(random: &mut Random, sheet: &mut Sheet) {
    let location = random.below(sheet.count("L").max(1));
    let program = sheet.programs();
    let op = random.between(1, 2);
    sheet.insert("A", &[program, op, location, 0, 0]);
}

/// Several faults that only the second reading finds, in some order.
pub fn late_faults(random: &mut Random, sheet: &mut Sheet) {
    for _ in 0..random.between(2, 4) {
        let fault = random.pick(&[far_code, far_location, unfit_location, twin_program]);
        fault(random, sheet);
    }
}

/// A new program that uses a variable, or a term over it, just before or after it is bound.
pub fn late_variable(random: &mut Random, sheet: &mut Sheet) {
    let variable = random.below(15);
    let mut label = variable_label(sheet, variable);
    for _ in 0..random.below(3) {
        add_term(sheet, 15, 200 + variable, label);
        label = sheet.next_label() - 1;
    }
    let program = sheet.programs();
    let place = (variable + random.below(3)).saturating_sub(1);
    for _ in 0..place {
        sheet.insert("A", &[program, 18, 0, 0, 0]);
    }
    let (op, x, y) = random.pick(&[
        (13, label, 0),
        (17, 0, label),
        (17, label, 0),
        (5, label, 0),
    ]);
    sheet.insert("A", &[program, op, 0, x, y]);
}

/// The label of a variable, listed if it is not yet.
fn variable_label(sheet: &mut Sheet, variable: usize) -> usize {
    let fields = ["6".to_string(), variable.to_string()];
    let is_it = |line: &&Vec<String>| line[0] == "E" && line.get(2..4) == Some(&fields[..]);
    let listed = sheet
        .lines
        .iter()
        .find(is_it)
        .and_then(|line| line[1].parse().ok());
    listed.unwrap_or_else(|| {
        add_term(sheet, 6, variable, 0);
        sheet.next_label() - 1
    })
}

/// A new program of one action with fields at or past what its op allows.
pub fn odd_program(random: &mut Random, sheet: &mut Sheet) {
    let program = sheet.programs() + random.pick(&[0, 0, 0, 1]);
    let op = random.between(0, if sheet.requests.strong { 24 } else { 21 });
    let loc = random.pick(&[0, 0, 1, 255, 256]);
    let (x, y) = (random.pick(&[0, 0, 1]), random.pick(&[0, 0, 1]));
    sheet.insert("A", &[program, op, loc, x, y]);
}

pub fn bad_order(random: &mut Random, sheet: &mut Sheet, mode: Mode) {
    match mode {
        Mode::List | Mode::Report | Mode::Ever => bad_budget(random, sheet),
        Mode::Tell if random.chance(50) => bad_task(random, sheet),
        Mode::Run | Mode::Tell => bad_code(random, sheet),
    }
}

/// A last line at the edge of what a G line may be, or past it.
fn bad_budget(random: &mut Random, sheet: &mut Sheet) {
    let lines: [&[&str]; 26] = [
        &["G", "0", "100"],
        &["G", "1", "4294967295"],
        &["G", "1", "4294967296"],
        &["G", "1", "9999999999"],
        &["G", "1", "10000000000"],
        &["G", "1", "18446744073709551617"],
        &["G", "2", "65536"],
        &["G", "24", "300"],
        &["G", "25", "300"],
        &["G", "65536", "300"],
        &["G", "4294967297", "300"],
        &["G", "3"],
        &["G", "3", "100", "0"],
        &["G"],
        &["G", ""],
        &["G", "", ""],
        &["G", "3", ""],
        &["G", "3", "100", ""],
        &["G", "03", "100"],
        &["G", "3", "0100"],
        &["G", "3", "00"],
        &["G", "3", "100\r"],
        &["G 3", "100"],
        &["GG", "3", "100"],
        &["g", "3", "100"],
        &["R", "0"],
    ];
    let new = random.pick(&lines);
    let last = sheet.lines.len() - 1;
    match random.below(8) {
        0 => drop(sheet.lines.pop()),
        1 => sheet.lines.push(sheet.lines[last].clone()),
        2 => sheet
            .lines
            .push(new.iter().map(|it| it.to_string()).collect()),
        _ => sheet.lines[last] = new.iter().map(|it| it.to_string()).collect(),
    }
}

/// An R line at the edge of what it may be, or past it, somewhere among the others.
fn bad_code(random: &mut Random, sheet: &mut Sheet) {
    let lines: [&[&str]; 16] = [
        &["R", "65535"],
        &["R", "65536"],
        &["R", "99999999999999999999"],
        &["R", "01"],
        &["R", "00"],
        &["R", ""],
        &["R"],
        &["R", "0", "0"],
        &["R", "0", ""],
        &["R 0"],
        &["R", "0\r"],
        &["R", "-1"],
        &["RR", "0"],
        &["r", "0"],
        &["G", "3", "100"],
        &[""],
    ];
    among_tasks(random, sheet, &lines);
}

/// A K or S line at the edge of what it may be, or past it, whether it is in or not.
fn bad_task(random: &mut Random, sheet: &mut Sheet) {
    let lines: [&[&str]; 14] = [
        &["K", "0"],
        &["K", "65535"],
        &["K", "65536"],
        &["K", "01"],
        &["K"],
        &["K", "1", "1"],
        &["k", "1"],
        &["S", "1", "4096"],
        &["S", "1", "4097"],
        &["S", "65535", "0"],
        &["S", "65536", "0"],
        &["S", "2"],
        &["S", "2", "1", "1"],
        &["SS", "2", "1"],
    ];
    among_tasks(random, sheet, &lines);
}

/// Puts one or two of these lines among those of the script.
fn among_tasks(random: &mut Random, sheet: &mut Sheet, lines: &[&[&str]]) {
    let tasks = sheet.count("R") + sheet.count("K") + sheet.count("S");
    for _ in 0..random.between(1, 2) {
        let new = random.pick(lines).iter().map(|it| it.to_string()).collect();
        let place = sheet.lines.len() - random.between(0, tasks.min(sheet.lines.len()));
        sheet.lines.insert(place, new);
    }
}

/// Makes the input as long as it may be, one byte less, or one or more bytes longer.
pub fn pad(random: &mut Random, bytes: &mut Vec<u8>, mode: Mode) {
    let length = LONGEST_INPUT - 1 + random.pick(&[0, 1, 1, 1, 2, 2, 3, 4000]);
    if mode == Mode::Run {
        while bytes.len() < length {
            let code: &[u8] = match length - bytes.len() {
                5 | 9 | 10 => b"R\t12\n",
                6 => b"R\t160\n",
                4 | 8 => b"R\t0\n",
                left if left > 11 => b"R\t160\n",
                11 => b"R\t161\n",
                7 => b"R\t1000\n",
                _ => b"\n",
            };
            bytes.extend(code);
        }
        return;
    }
    let place = bytes.iter().position(|byte| *byte == b'\n').unwrap_or(0);
    while bytes.len() < length {
        bytes.insert(place, b'7');
    }
}
