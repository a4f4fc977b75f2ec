// Bytes to lines, lines to decimals: the form of the file, with the G and R lines taken off.
// Why: everything refused as 20 for its form, and 26, is decided here and nowhere else.

#[derive(Clone, Copy)]
pub struct Line<'i> {
    pub bytes: &'i [u8],
    /// False for bytes after the last LF, which are a line of bad form.
    pub closed: bool,
}

#[derive(Clone, Copy, PartialEq, Eq, Debug)]
pub struct Refusal {
    pub number: u8,
    pub line: usize,
}

pub const LONGEST_INPUT: usize = 65_536;
pub const LARGEST_FIELD: u64 = 65_535;
pub const LARGEST_BUDGET: u64 = 4_294_967_295;
pub const LARGEST_BOUND: u64 = 24;
/// The slow lister's room for schedules is at most this.
pub const MOST_LISTED: u64 = 4_096;

/// All lines of the input, or 26 if it is too long.
pub fn split(input: &[u8]) -> Result<Vec<Line<'_>>, Refusal> {
    if input.len() > LONGEST_INPUT {
        return Err(Refusal {
            number: 26,
            line: 0,
        });
    }
    let mut lines = Vec::new();
    let mut rest = input;
    while !rest.is_empty() {
        let end = rest.iter().position(|byte| *byte == b'\n');
        let length = end.unwrap_or(rest.len());
        lines.push(Line {
            bytes: &rest[..length],
            closed: end.is_some(),
        });
        rest = &rest[(length + 1).min(rest.len())..];
    }
    Ok(lines)
}

/// A decimal with no needless zero, up to a limit.
pub fn decimal(digits: &[u8], limit: u64) -> Option<u64> {
    let plain = !digits.is_empty() && digits.len() <= 10 && digits.iter().all(u8::is_ascii_digit);
    if !plain || (digits[0] == b'0' && digits.len() > 1) {
        return None;
    }
    let value = digits
        .iter()
        .fold(0, |sum, digit| sum * 10 + u64::from(digit - b'0'));
    (value <= limit).then_some(value)
}

/// The record letter and the fields of a line of good form, number of fields aside.
pub fn record(line: Line<'_>, limit: u64) -> Option<(u8, Vec<u64>)> {
    if !line.closed {
        return None;
    }
    let mut parts = line.bytes.split(|byte| *byte == b'\t');
    let letter = match parts.next() {
        Some([letter]) => *letter,
        _ => return None,
    };
    let fields: Option<Vec<u64>> = parts.map(|part| decimal(part, limit)).collect();
    Some((letter, fields?))
}

fn opens_with(line: Line<'_>, letter: u8) -> bool {
    line.bytes.first() == Some(&letter)
}

#[derive(Clone, Copy)]
pub struct Order {
    pub bound: usize,
    pub budget: u64,
}

/// Takes off the last line, which must be a good G line.
pub fn take_order(lines: &mut Vec<Line<'_>>) -> Result<Order, Refusal> {
    let last = match lines.last() {
        Some(line) if opens_with(*line, b'G') => *line,
        _ => {
            return Err(Refusal {
                number: 20,
                line: lines.len() + 1,
            })
        }
    };
    let order = order_of(last).ok_or(Refusal {
        number: 20,
        line: lines.len(),
    })?;
    lines.pop();
    Ok(order)
}

fn order_of(line: Line<'_>) -> Option<Order> {
    let (_, fields) = record(line, LARGEST_BUDGET)?;
    match fields[..] {
        [bound @ 1..=LARGEST_BOUND, budget] => Some(Order {
            bound: bound as usize,
            budget,
        }),
        _ => None,
    }
}

/// A line of a script, which stands at the end of the input.
#[derive(Clone, Copy)]
pub enum Task {
    Code(u16),
    /// Give room back, this many events lent.
    Room(usize),
    /// The slow lister, with room for so many schedules.
    Slow {
        bound: usize,
        room: usize,
    },
}

/// Takes off the longest run of R lines at the end; the first bad one is refused.
pub fn take_codes(lines: &mut Vec<Line<'_>>) -> Result<Vec<u16>, Refusal> {
    let tasks = take_script(lines, b"R")?;
    let code = |task| match task {
        Task::Code(code) => code,
        _ => unreachable!("an R line is a code"),
    };
    Ok(tasks.into_iter().map(code).collect())
}

/// Takes off the longest run of lines at the end that open with these letters; the first bad one is refused.
pub fn take_script(lines: &mut Vec<Line<'_>>, letters: &[u8]) -> Result<Vec<Task>, Refusal> {
    let task = |line: &Line<'_>| letters.iter().any(|letter| opens_with(*line, *letter));
    let model = lines
        .iter()
        .rposition(|line| !task(line))
        .map_or(0, |last| last + 1);
    let mut tasks = Vec::new();
    for (index, line) in lines.iter().enumerate().skip(model) {
        tasks.push(task_of(*line).ok_or(Refusal {
            number: 20,
            line: index + 1,
        })?);
    }
    lines.truncate(model);
    Ok(tasks)
}

fn task_of(line: Line<'_>) -> Option<Task> {
    let (letter, fields) = record(line, LARGEST_FIELD)?;
    match (letter, &fields[..]) {
        (b'R', [code]) => Some(Task::Code(*code as u16)),
        (b'K', [lent]) => Some(Task::Room(*lent as usize)),
        (b'S', [bound, room @ 0..=MOST_LISTED]) => Some(Task::Slow {
            bound: *bound as usize,
            room: *room as usize,
        }),
        _ => None,
    }
}
