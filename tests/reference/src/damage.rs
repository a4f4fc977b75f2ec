// Damage to a sound input: lines and fields first, then single bytes.
// Why: each refusal 20 to 26 must come up on many lines, alone and against others.

use crate::limits;
use crate::plan::Mode;
use crate::random::Random;
use crate::sheet::{line, Sheet};

type Harm = fn(&mut Random, &mut Sheet);

const HARMS: [(Harm, usize); 27] = [
    (set_fields, 12),
    (nudge_field, 8),
    (misform_field, 5),
    (change_count_of_fields, 4),
    (drop_line, 4),
    (double_line, 3),
    (swap_lines, 4),
    (stray_line, 3),
    (drop_group, 2),
    (second_of_one, 2),
    (other_version, 1),
    (other_operand, 6),
    (other_value, 6),
    (limits::twin_term, 5),
    (limits::unlisted_kind, 5),
    (limits::tall_term, 3),
    (limits::more_terms, 2),
    (limits::more_actions, 3),
    (limits::more_of_a_group, 5),
    (limits::long_path, 2),
    (limits::twin_program, 6),
    (limits::far_code, 5),
    (limits::far_location, 5),
    (limits::unfit_location, 7),
    (limits::odd_program, 2),
    (limits::late_faults, 5),
    (limits::late_variable, 5),
];

pub fn spoil(random: &mut Random, sheet: &mut Sheet, mode: Mode) -> Vec<u8> {
    let weights = HARMS.map(|(_, weight)| weight);
    let how = random.weighted(&[66, 12, 14, 8]);
    for _ in 0..[1, 1, 0, 0][how] + usize::from(random.chance(25)) {
        HARMS[random.weighted(&weights)].0(random, sheet);
    }
    if how == 1 || random.chance(6) {
        limits::bad_order(random, sheet, mode);
    }
    let mut bytes = sheet.bytes();
    if how == 2 || random.chance(6) {
        harm_bytes(random, &mut bytes);
    }
    if how == 3 && random.chance(50) {
        limits::pad(random, &mut bytes, mode);
    }
    bytes
}

const NUMBERS: [&str; 30] = [
    "0",
    "1",
    "2",
    "3",
    "4",
    "5",
    "7",
    "8",
    "9",
    "12",
    "15",
    "16",
    "17",
    "19",
    "20",
    "21",
    "24",
    "31",
    "32",
    "33",
    "255",
    "256",
    "511",
    "512",
    "513",
    "65534",
    "65535",
    "65536",
    "99999",
    "4294967296",
];

/// A random line and a random field of it, not the letter; None if it has none.
fn field<'s>(random: &mut Random, sheet: &'s mut Sheet) -> Option<&'s mut String> {
    let letter = random.pick(&["V", "E", "A", "A", "M", "L", "T", "C", "C", ""]);
    let line = sheet.line_of(random, letter);
    if line.len() < 2 {
        return None;
    }
    let place = random.between(1, line.len() - 1);
    Some(&mut line[place])
}

fn set_fields(random: &mut Random, sheet: &mut Sheet) {
    let letter = random.pick(&["E", "E", "A", "A", "M", "L", "T", "C"]);
    let times = random.between(1, 3);
    let line = sheet.line_of(random, letter);
    for _ in 0..times {
        let place = random.below(line.len());
        if place > 0 {
            line[place] = random.pick(&NUMBERS).to_string();
        }
    }
}

fn nudge_field(random: &mut Random, sheet: &mut Sheet) {
    let up = random.chance(60);
    let Some(field) = field(random, sheet) else {
        return;
    };
    let number: u64 = field.parse().unwrap_or(0);
    *field = if up {
        number + 1
    } else {
        number.saturating_sub(1)
    }
    .to_string();
}

fn misform_field(random: &mut Random, sheet: &mut Sheet) {
    let how = random.below(9);
    let Some(field) = field(random, sheet) else {
        return;
    };
    *field = match how {
        0 => format!("0{field}"),
        1 => format!("{field}\r"),
        2 => format!(" {field}"),
        3 => format!("{field} "),
        4 => format!("+{field}"),
        5 => format!("-{field}"),
        6 => format!("{field}x"),
        7 => "00".to_string(),
        _ => String::new(),
    };
}

fn change_count_of_fields(random: &mut Random, sheet: &mut Sheet) {
    let letter = random.pick(&["V", "E", "A", "M", "L", "T", "C"]);
    let more = random.chance(50);
    let line = sheet.line_of(random, letter);
    if more || line.len() < 2 {
        line.push(random.pick(&["", "0", "1", "7"]).to_string());
    } else {
        line.pop();
    }
}

fn drop_line(random: &mut Random, sheet: &mut Sheet) {
    let place = random.below(sheet.lines.len());
    if sheet.lines.len() > 1 {
        sheet.lines.remove(place);
    }
}

fn double_line(random: &mut Random, sheet: &mut Sheet) {
    let place = random.below(sheet.lines.len());
    let copy = sheet.lines[place].clone();
    sheet.lines.insert(place, copy);
}

fn swap_lines(random: &mut Random, sheet: &mut Sheet) {
    let one = random.below(sheet.lines.len());
    let next = (one + 1) % sheet.lines.len();
    let other = if random.chance(60) {
        next
    } else {
        random.below(sheet.lines.len())
    };
    sheet.lines.swap(one, other);
}

fn stray_line(random: &mut Random, sheet: &mut Sheet) {
    let place = random.between(0, sheet.lines.len());
    let strays: [(&str, &[u16]); 12] = [
        ("", &[]),
        ("X", &[1]),
        ("v", &[1]),
        ("E", &[]),
        ("G", &[3, 100]),
        ("R", &[0]),
        ("VV", &[1]),
        ("A", &[0, 18, 0, 0, 0]),
        ("M", &[0, 0, 0, 0]),
        ("T", &[0, 0, 0]),
        ("\r", &[]),
        ("C", &[0, 0, 0, 0]),
    ];
    let (letter, fields) = random.pick(&strays);
    sheet.lines.insert(place, line(letter, fields));
}

fn drop_group(random: &mut Random, sheet: &mut Sheet) {
    let letter = random.pick(&["V", "E", "A", "M", "L", "T", "C", "C"]);
    if sheet.lines.iter().any(|line| line[0] != letter) {
        sheet.lines.retain(|line| line[0] != letter);
    }
}

fn second_of_one(random: &mut Random, sheet: &mut Sheet) {
    let letter = random.pick(&["V", "C"]);
    let copy = sheet.line_of(random, letter).clone();
    let after = random.pick(&["V", "E", "A", "M", "L", "T", "C"]);
    let found = sheet.lines.iter().rposition(|line| line[0] == after);
    sheet.lines.insert(found.map_or(0, |place| place + 1), copy);
}

fn other_version(random: &mut Random, sheet: &mut Sheet) {
    let version = random.pick(&["0", "2", "3", "65535", "65536", "01", ""]);
    *sheet.line_of(random, "V") = line("V", &[version]);
}

/// Another listed label, or the one past the last, for an action's x or y.
fn other_operand(random: &mut Random, sheet: &mut Sheet) {
    let label = random.between(0, sheet.next_label()).to_string();
    let place = random.pick(&[4, 4, 5]);
    let line = sheet.line_of(random, "A");
    if let Some(field) = line.get_mut(place) {
        *field = label;
    }
}

/// Another value for a location: one that is not ground, or not sinit in a register, perhaps.
fn other_value(random: &mut Random, sheet: &mut Sheet) {
    let label = random.between(0, sheet.next_label()).to_string();
    let line = sheet.line_of(random, "L");
    if let Some(field) = line.get_mut(4) {
        *field = label;
    }
}

const ODD_BYTES: [u8; 14] = *b"\t\n\r 019AGRC+-x";

fn harm_bytes(random: &mut Random, bytes: &mut Vec<u8>) {
    let place = random.below(bytes.len().max(1));
    let odd = if random.chance(80) {
        random.pick(&ODD_BYTES)
    } else {
        random.below(256) as u8
    };
    match random.below(8) {
        0 | 1 if place < bytes.len() => bytes[place] = odd,
        2 if place < bytes.len() => drop(bytes.remove(place)),
        3 => bytes.insert(place, odd),
        4 => bytes.truncate(place),
        5 => drop(bytes.pop()),
        6 => carriage_return(random, bytes),
        _ => bytes.push(odd),
    }
}

/// A CR before one LF, or before every one.
fn carriage_return(random: &mut Random, bytes: &mut Vec<u8>) {
    let ends: Vec<usize> = (0..bytes.len()).filter(|it| bytes[*it] == b'\n').collect();
    if ends.is_empty() {
        return;
    }
    let all = random.chance(20);
    let one = random.pick(&ends);
    for end in ends.into_iter().rev().filter(|end| all || *end == one) {
        bytes.insert(end, b'\r');
    }
}
