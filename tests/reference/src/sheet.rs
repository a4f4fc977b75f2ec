// A model and its orders as lines of text fields, before they become bytes.
// Why: damage is done to lines and fields, which is easier here than in a string of bytes.

use crate::model::Model;
use crate::random::Random;
use crate::requests::Requests;
use crate::term::Label;

pub struct Sheet {
    pub requests: Requests,
    /// Each line's fields, the record letter first.
    pub lines: Vec<Vec<String>>,
}

const LETTERS: &str = "VEAMLTC";

impl Sheet {
    pub fn of(model: &Model) -> Sheet {
        let mut sheet = Sheet {
            requests: model.requests,
            lines: Vec::new(),
        };
        sheet.add("V", &[1]);
        sheet.add_terms(model);
        for (number, program) in (0..).zip(&model.programs) {
            for action in program {
                sheet.add("A", &[number, action.op, action.loc, action.x, action.y]);
            }
        }
        for (number, it) in (0..).zip(&model.machines) {
            sheet.add("M", &[number, it.boot, it.launch, u16::from(it.protected)]);
        }
        for (number, it) in (0..).zip(&model.locations) {
            sheet.add("L", &[number, it.machine, it.kind, it.value]);
        }
        for it in &model.threads {
            sheet.add("T", &[it.agent, it.machine, it.program]);
        }
        let claim = model.claim();
        let mut fields = vec![u16::from(claim.launch), claim.program, claim.machine];
        fields.extend(&claim.path);
        sheet.add("C", &fields);
        sheet
    }

    fn add_terms(&mut self, model: &Model) {
        for label in model.requests.fixed().len()..model.table.len() {
            let label = label as Label;
            let term = model.table.term(label);
            self.add("E", &[label, term.kind, term.a, term.b]);
        }
    }

    /// The label of the next E line.
    pub fn next_label(&self) -> usize {
        self.requests.fixed().len() + self.count("E")
    }

    pub fn add<N: ToString>(&mut self, letter: &str, fields: &[N]) {
        self.lines.push(line(letter, fields));
    }

    pub fn bytes(&self) -> Vec<u8> {
        let text: String = self
            .lines
            .iter()
            .map(|fields| fields.join("\t") + "\n")
            .collect();
        text.into_bytes()
    }

    pub fn count(&self, letter: &str) -> usize {
        self.lines.iter().filter(|line| line[0] == letter).count()
    }

    /// The number of programs, going by the last A line.
    pub fn programs(&self) -> usize {
        let last = self.lines.iter().rev().find(|line| line[0] == "A");
        last.and_then(|line| line.get(1)?.parse().ok())
            .map_or(0, |last: usize| last + 1)
    }

    /// Puts a line at the end of its group.
    pub fn insert<N: ToString>(&mut self, letter: &str, fields: &[N]) {
        let group = LETTERS.find(letter).unwrap_or(0);
        let upto = |line: &Vec<String>| LETTERS[..=group].contains(&line[0]) && !line[0].is_empty();
        let place = self.lines.iter().rposition(upto).map_or(0, |last| last + 1);
        self.lines.insert(place, line(letter, fields));
    }

    /// A random line, of this letter if there is one.
    pub fn line_of<'s>(&'s mut self, random: &mut Random, letter: &str) -> &'s mut Vec<String> {
        let all = 0..self.lines.len();
        let fitting: Vec<usize> = all.filter(|it| self.lines[*it][0] == letter).collect();
        let index = if fitting.is_empty() {
            random.below(self.lines.len())
        } else {
            random.pick(&fitting)
        };
        &mut self.lines[index]
    }
}

pub fn line<N: ToString>(letter: &str, fields: &[N]) -> Vec<String> {
    let fields = fields.iter().map(N::to_string);
    std::iter::once(letter.to_string()).chain(fields).collect()
}
