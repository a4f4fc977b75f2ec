// The first reading of a model: line by line, each refused by its lowest number.
// Why: a line is judged by the earlier lines alone; what needs later ones is in second.rs.

use crate::lines::{record, Line, Refusal, LARGEST_FIELD};
use crate::model::{Action, Claim, Listed, Location, Machine, Model, DYNAMIC, EVAL, STATIC};
use crate::requests::Requests;
use crate::second;
use crate::term::{self, Label, Table, Term};

/// The model of these lines, or the first bad line with its lowest number.
pub fn read(lines: &[Line<'_>], requests: Requests) -> Result<Model, Refusal> {
    let mut reader = Reader {
        model: Model::empty(requests),
        group: None,
    };
    for (index, line) in lines.iter().enumerate() {
        reader.line(*line).map_err(|number| Refusal {
            number,
            line: index + 1,
        })?;
    }
    if reader.model.claim.is_none() {
        return Err(Refusal {
            number: 21,
            line: lines.len() + 1,
        });
    }
    second::read(&reader.model)?;
    Ok(reader.model)
}

struct Reader {
    model: Model,
    /// The group of the last line: its place in the order of the record letters.
    group: Option<usize>,
}

const LETTERS: &[u8; 7] = b"VEAMLTC";

fn right_count(letter: u8, count: usize) -> bool {
    match letter {
        b'V' => count == 1,
        b'T' => count == 3,
        b'A' => count == 5,
        b'C' => (4..=7).contains(&count),
        _ => count == 4,
    }
}

/// The number unless the rule holds.
fn need(rule: bool, number: u8) -> Result<(), u8> {
    if rule {
        Ok(())
    } else {
        Err(number)
    }
}

impl Reader {
    fn line(&mut self, line: Line<'_>) -> Result<(), u8> {
        let (letter, wide) = record(line, LARGEST_FIELD).ok_or(20)?;
        let group = LETTERS
            .iter()
            .position(|known| *known == letter)
            .ok_or(20)?;
        need(right_count(letter, wide.len()), 20)?;
        let fields: Vec<u16> = wide.iter().map(|field| *field as u16).collect();
        self.order(group)?;
        self.group = Some(group);
        match letter {
            b'V' => need(fields[0] == 1, 21),
            b'E' => self.term(&fields),
            b'A' => self.action(&fields),
            b'M' => self.machine(&fields),
            b'L' => self.location(&fields),
            b'T' => self.thread(&fields),
            _ => self.claim(&fields),
        }
    }

    /// The order of the groups, and the V, A and M that must have come before.
    fn order(&self, group: usize) -> Result<(), u8> {
        let after_v = match self.group {
            None => group == 0,
            Some(last) => group > 0 && group >= last && last < 6,
        };
        let after_a = group <= 2 || !self.model.programs.is_empty();
        let after_m = group <= 3 || !self.model.machines.is_empty();
        need(after_v && after_a && after_m, 21)
    }

    fn term(&mut self, fields: &[u16]) -> Result<(), u8> {
        let table = &mut self.model.table;
        let term = Term::new(fields[1], fields[2], fields[3]);
        need(fields[0] as usize == table.len(), 21)?;
        let known = term.kind <= self.model.requests.last_kind();
        let room = table.len() < Table::LIMIT;
        need(known && room && term_within(table, term), 22)?;
        need(term_names(table, term), 23)?;
        need(table.find(term).is_none(), 24)?;
        need(
            !matches!(
                term.kind,
                term::SINIT | term::DINIT | term::NONCE | term::DNONE
            ),
            25,
        )?;
        table.put(term);
        Ok(())
    }

    fn action(&mut self, fields: &[u16]) -> Result<(), u8> {
        let program = fields[0] as usize;
        let action = Action {
            op: fields[1],
            loc: fields[2],
            x: fields[3],
            y: fields[4],
        };
        let place = self.place_of_action(program)?;
        need(program < Model::PROGRAMS && place < Model::ACTIONS, 22)?;
        need(
            action.known(self.model.requests) && action_within(&action),
            22,
        )?;
        need(action_names(&self.model.table, &action, place), 23)?;
        if place == 0 {
            self.model.programs.push(Vec::new());
        }
        self.model.programs[program].push(action);
        Ok(())
    }

    /// How many actions this program has already, or 21 if it is not its turn.
    fn place_of_action(&self, program: usize) -> Result<usize, u8> {
        let programs = &self.model.programs;
        if program == programs.len() {
            return Ok(0);
        }
        need(program + 1 == programs.len(), 21)?;
        let actions = &programs[program];
        need(!actions.iter().any(Action::closes), 21)?;
        Ok(actions.len())
    }

    fn machine(&mut self, fields: &[u16]) -> Result<(), u8> {
        need(fields[0] as usize == self.model.machines.len(), 21)?;
        need(
            self.model.machines.len() < Model::MACHINES && fields[3] <= 1,
            22,
        )?;
        need(
            self.has_program(fields[1]) && self.has_program(fields[2]),
            23,
        )?;
        let machine = Machine {
            boot: fields[1],
            launch: fields[2],
            protected: fields[3] == 1,
        };
        self.model.machines.push(machine);
        Ok(())
    }

    fn location(&mut self, fields: &[u16]) -> Result<(), u8> {
        let location = Location {
            machine: fields[1],
            kind: fields[2],
            value: fields[3],
        };
        let room = self.model.locations.len() < Model::LOCATIONS;
        need(fields[0] as usize == self.model.locations.len(), 21)?;
        need(room && location.kind < Model::KINDS_OF_LOCATION, 22)?;
        need(self.has_machine(location.machine), 23)?;
        need(self.model.table.lists(location.value), 23)?;
        need(self.model.table.entry(location.value).ground(), 25)?;
        need(self.may_start_with(&location), 25)?;
        self.model.locations.push(location);
        Ok(())
    }

    fn thread(&mut self, fields: &[u16]) -> Result<(), u8> {
        need(self.model.threads.len() < Model::THREADS, 22)?;
        need(
            self.has_machine(fields[1]) && self.has_program(fields[2]),
            23,
        )?;
        let thread = Listed {
            agent: fields[0],
            machine: fields[1],
            program: fields[2],
        };
        self.model.threads.push(thread);
        Ok(())
    }

    fn claim(&mut self, fields: &[u16]) -> Result<(), u8> {
        need(fields[0] <= 1, 22)?;
        let path = fields[3..].to_vec();
        need(
            self.has_program(fields[1]) && self.has_machine(fields[2]),
            23,
        )?;
        need(path.iter().all(|program| self.has_program(*program)), 23)?;
        let launch = fields[0] == 1;
        self.model.claim = Some(Claim {
            launch,
            program: fields[1],
            machine: fields[2],
            path,
        });
        Ok(())
    }

    /// A register has the value that it holds after power-up.
    fn may_start_with(&self, location: &Location) -> bool {
        match location.kind {
            STATIC => location.value == term::SINIT,
            DYNAMIC => location.value == self.model.requests.powered_up(),
            _ => true,
        }
    }

    fn has_program(&self, program: u16) -> bool {
        (program as usize) < self.model.programs.len()
    }

    fn has_machine(&self, machine: u16) -> bool {
        (machine as usize) < self.model.machines.len()
    }
}

/// The rules of 22 for a term of a known kind: unused fields, variable, function, depth.
fn term_within(table: &Table, term: Term) -> bool {
    let [no_a, no_b] = term.unused();
    let own = match term.kind {
        term::VARIABLE => term.a < Table::VARIABLES,
        term::FUNCTION => term.a < Table::FUNCTIONS,
        _ => true,
    };
    own && !(no_a && term.a != 0) && !(no_b && term.b != 0) && table.depth_of(term) <= Table::DEPTH
}

/// The rules of 23 for a term: parts earlier, a program that a model could list.
fn term_names(table: &Table, term: Term) -> bool {
    let parts = term
        .parts()
        .into_iter()
        .flatten()
        .all(|part| table.lists(part));
    parts && (term.kind != term::CODE || (term.a as usize) < Model::PROGRAMS)
}

/// The rules of 22 for an action of a known op: unused fields, function.
fn action_within(action: &Action) -> bool {
    (action.uses_loc() || action.loc == 0)
        && (action.uses_x() || action.x == 0)
        && (action.uses_y() || action.y == 0)
        && (action.op != EVAL || action.loc < Table::FUNCTIONS)
}

/// The rules of 23 for an action: a location that a model could list, operands listed and bound.
fn action_names(table: &Table, action: &Action, place: usize) -> bool {
    let location = !action.uses_location() || (action.loc as usize) < Model::LOCATIONS;
    location && bound_before(table, action.x, place) && bound_before(table, action.y, place)
}

fn bound_before(table: &Table, label: Label, place: usize) -> bool {
    table.lists(label) && table.entry(label).variables >> place == 0
}
