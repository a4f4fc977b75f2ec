// The frame of an invented model: sizes by style, then locations, machines, threads, claim.
// Why: each style stresses one group of rules, and the largest one stands at every limit.

use crate::actions::Close;
use crate::model::*;
use crate::random::Random;
use crate::requests::Requests;
use crate::sketch::{Sketch, Style};
use crate::term::{Table, SINIT};

/// What is generated for: a listing wants small models, a run may have larger ones. A report is several listings.
#[derive(Clone, Copy, PartialEq, Eq)]
pub enum Mode {
    List,
    Run,
    Report,
    Tell,
    Ever,
}

impl Mode {
    pub fn of(word: &str) -> Option<Mode> {
        match word {
            "list" => Some(Mode::List),
            "run" => Some(Mode::Run),
            "report" => Some(Mode::Report),
            "tell" => Some(Mode::Tell),
            "ever" => Some(Mode::Ever),
            _ => None,
        }
    }

    /// Keeps the inputs of one seed apart.
    pub fn salt(self) -> u64 {
        match self {
            Mode::List => 0x6c69_7374,
            Mode::Run => 0x7275_6e,
            Mode::Report => 0x7265_706f,
            Mode::Tell => 0x7465_6c6c,
            Mode::Ever => 0x6576_6572,
        }
    }
}

const STYLES: [(Style, usize); 10] = [
    (Style::Mixed, 14),
    (Style::Crypto, 12),
    (Style::Locks, 13),
    (Style::Memory, 12),
    (Style::Talk, 10),
    (Style::Chain, 18),
    (Style::Deep, 11),
    (Style::Full, 8),
    (Style::Largest, 3),
    (Style::Loop, 3),
];

pub fn style(random: &mut Random) -> Style {
    STYLES[random.weighted(&STYLES.map(|(_, weight)| weight))].0
}

pub fn model(random: &mut Random, style: Style, mode: Mode, requests: Requests) -> Model {
    let mut sketch = sketch(random, style, requests);
    sketch.locations();
    sketch.write_programs(mode);
    sketch.list_machines();
    sketch.claim();
    sketch.threads(mode);
    let full = matches!(style, Style::Full | Style::Largest);
    if full || (style == Style::Deep && sketch.random.chance(40)) {
        let count = Table::LIMIT - sketch.random.weighted(&[4, 2, 2, 1, 1, 1, 1, 1]);
        sketch.fill(count);
    }
    sketch.model
}

fn sketch(random: &mut Random, style: Style, requests: Requests) -> Sketch<'_> {
    let machines = match style {
        Style::Largest => Model::MACHINES,
        Style::Locks | Style::Memory => 1 + random.weighted(&[8, 2]),
        Style::Chain => 1 + random.weighted(&[5, 4, 1]),
        _ => 1 + random.weighted(&[10, 5, 2, 1]),
    };
    let programs = match style {
        Style::Largest => Model::PROGRAMS,
        Style::Chain => random.between(3, 6),
        _ => random.between(1, 7),
    };
    Sketch {
        random,
        style,
        model: Model::empty(requests),
        programs,
        machines,
        exits: Vec::new(),
        meanings: Vec::new(),
        locked: Vec::new(),
        reads: Vec::new(),
    }
}

impl Sketch<'_> {
    fn locations(&mut self) {
        let count = match self.style {
            Style::Largest => Model::LOCATIONS,
            Style::Locks => self.random.between(1, 4),
            Style::Memory | Style::Deep | Style::Chain => self.random.between(2, 7),
            _ => self.random.below(7),
        };
        for _ in 0..count {
            let machine = self.random.below(self.machines) as u16;
            let kind = self.random.pick(&[RAM, RAM, DISK, STATIC, STATIC, DYNAMIC]);
            let value = match kind {
                STATIC => SINIT,
                DYNAMIC => self.model.requests.powered_up(),
                _ if self.random.chance(45) => self.code(),
                _ => self.ground(),
            };
            self.model.locations.push(Location {
                machine,
                kind,
                value,
            });
        }
    }

    fn write_programs(&mut self, mode: Mode) {
        let most = match (self.style, mode) {
            (Style::Loop, _) => return self.loop_programs(),
            (Style::Chain, _) => return self.chain_programs(),
            (Style::Largest, _) => 16,
            (Style::Deep, Mode::Run | Mode::Tell) => 16,
            (Style::Talk, _) => 3,
            (_, Mode::List | Mode::Report | Mode::Ever) => 4,
            (_, Mode::Run | Mode::Tell) => 7,
        };
        for program in 0..self.programs {
            let short = if self.style == Style::Largest { 14 } else { 1 };
            let length = self.random.between(short.min(most), most);
            self.program(length, (program % self.machines) as u16, Close::Any);
        }
    }

    /// Programs that jump one to the next, one that ends, and one that launches.
    fn chain_programs(&mut self) {
        let links = self.programs - 2;
        for program in 0..self.programs {
            let length = 1 + self.random.weighted(&[5, 1]);
            let close = match program {
                link if link < links => Close::Jump(link as u16 + 1),
                last if last == links => Close::Ending,
                _ => Close::Launch,
            };
            self.program(length, 0, close);
        }
    }

    /// Programs that jump in a ring and never end, and a last one that ends at once.
    fn loop_programs(&mut self) {
        for program in 0..self.programs as u16 {
            let next = (program + 1) % self.programs as u16;
            let x = self.term(crate::term::CODE, next, 0);
            self.model.programs.push(vec![Action {
                op: JUMP,
                loc: 0,
                x,
                y: 0,
            }]);
            self.exits.push(Some(next));
        }
        self.model.programs.push(vec![Action {
            op: MATCH,
            loc: 0,
            x: 0,
            y: 0,
        }]);
        self.exits.push(None);
    }

    fn list_machines(&mut self) {
        for machine in 0..self.machines {
            let boot = self.program_of(machine);
            let launch = self.program_of(machine);
            let protected = self.random.chance(40);
            self.model.machines.push(Machine {
                boot,
                launch,
                protected,
            });
        }
    }

    /// A program for this machine: mostly one written for it, in a chain mostly an early one.
    fn program_of(&mut self, machine: usize) -> u16 {
        let all = self.model.programs.len();
        if self.style == Style::Chain && self.random.chance(75) {
            return self.random.below(all.min(2)) as u16;
        }
        let written: Vec<usize> = (0..all)
            .filter(|it| it % self.machines == machine)
            .collect();
        if written.is_empty() || self.random.chance(12) {
            return self.random.below(all) as u16;
        }
        self.random.pick(&written) as u16
    }

    fn threads(&mut self, mode: Mode) {
        let count = match (self.style, mode) {
            (Style::Largest, _) => Model::THREADS,
            (Style::Talk | Style::Locks, _) => self.random.between(2, 5),
            (Style::Chain, _) => self.random.weighted(&[2, 5, 3]),
            (_, Mode::List | Mode::Report | Mode::Ever) => self.random.weighted(&[1, 6, 6, 4, 2]),
            (_, Mode::Run | Mode::Tell) => self.random.weighted(&[1, 4, 6, 5, 4, 2, 1, 1, 2]),
        };
        let often = match self.style {
            Style::Chain if self.model.claim().launch => 85,
            _ => 15,
        };
        for _ in 0..count {
            let claimed = self.model.claim().machine as usize;
            let any = self.random.below(self.machines);
            let machine = if self.random.chance(40) { claimed } else { any };
            let program = match self.launcher() {
                Some(launcher) if self.random.chance(often) => launcher,
                _ => self.program_of(machine),
            };
            let agent = self.random.pick(&[0, 1, 2, 3, 65535]);
            self.model.threads.push(Listed {
                agent,
                machine: machine as u16,
                program,
            });
        }
    }

    /// The first program with a late launch, if there is one.
    fn launcher(&self) -> Option<u16> {
        let launches = |program: &Vec<Action>| program.iter().any(|it| it.op == LATE_LAUNCH);
        self.model
            .programs
            .iter()
            .position(launches)
            .map(|program| program as u16)
    }

    fn claim(&mut self) {
        let launch = self.random.chance(40);
        let machine = self.random.below(self.machines) as u16;
        let program = self.claimed_program();
        let start = &self.model.machines[machine as usize];
        let start = if launch { start.launch } else { start.boot };
        let length = 1 + self.random.weighted(&[2, 3, 3, 3]);
        let path = self.path_from(start, length);
        self.model.claim = Some(Claim {
            launch,
            program,
            machine,
            path,
        });
    }

    /// Mostly a program that can end.
    fn claimed_program(&mut self) -> u16 {
        let all = self.model.programs.len();
        if self.style == Style::Chain && self.random.chance(80) {
            return all as u16 - 2;
        }
        let ends = |it: &usize| !self.model.programs[*it].iter().any(Action::closes);
        let ending: Vec<usize> = (0..all).filter(ends).collect();
        if ending.is_empty() || self.random.chance(10) {
            return self.random.below(all) as u16;
        }
        self.random.pick(&ending) as u16
    }

    /// The programs a thread starting here jumps to, as far as known, maybe one left out or more.
    fn path_from(&mut self, start: u16, length: usize) -> Vec<u16> {
        let mut path = Vec::new();
        let mut at = start;
        while let Some(next) = self.exits[at as usize].filter(|_| path.len() < length) {
            path.push(next);
            at = next;
        }
        if self.style == Style::Chain && path.len() > 1 && self.random.chance(30) {
            let skipped = self.random.below(path.len());
            path.remove(skipped);
        }
        let more = if self.style == Style::Chain { 10 } else { 40 };
        while path.is_empty() || (path.len() < length && self.random.chance(more)) {
            path.push(self.random.below(self.model.programs.len()) as u16);
        }
        path
    }
}
