// The term table: every term stands once, under its label, parts before wholes.
// Why hashed: a try may look up several terms, and most of them are new, so a scan would read the whole table each time.

pub type Label = u16;

pub const NUMBER: u8 = 0;
pub const SINIT: u8 = 1;
pub const DINIT: u8 = 2;
pub const KEY: u8 = 4;
pub const INVERSE: u8 = 5;
pub const VARIABLE: u8 = 6;
pub const NONCE: u8 = 7;
pub const CODE: u8 = 8;
pub const PAIR: u8 = 9;
pub const SIGNATURE: u8 = 10;
pub const ENCRYPTED: u8 = 11;
pub const SYMMETRIC: u8 = 12;
pub const HASH: u8 = 13;
pub const CHAIN: u8 = 14;
pub const FUNCTION: u8 = 15;

/// Why a step that refusals 1 to 7 let through is turned down. The listing tells 8 from 9 nowhere, so they are one.
pub enum Refusal {
    Size,
    Misfit,
}

/// A term as one number, so that equal terms are found by one comparison: kind * 2^32 + a * 2^16 + b.
#[derive(Clone, Copy, PartialEq, Eq)]
pub struct Term(u64);

impl Term {
    pub fn new(kind: u8, a: u16, b: u16) -> Term {
        Term(u64::from(kind) << 32 | u64::from(a) << 16 | u64::from(b))
    }

    pub fn kind(self) -> u8 {
        (self.0 >> 32) as u8
    }

    pub fn a(self) -> u16 {
        (self.0 >> 16) as u16
    }

    pub fn b(self) -> u16 {
        self.0 as u16
    }

    /// Where the search for this term begins: the top bits of a product with an odd number near 2^64 over the golden ratio.
    fn home(self) -> usize {
        (self.0.wrapping_mul(0x9e37_79b9_7f4a_7c15) >> (64 - Table::PLACE_BITS)) as usize
    }
}

pub struct Table {
    terms: [Term; Table::TERMS],
    depths: [u8; Table::TERMS],
    /// Whether a term holds no variable. Terms made by steps never do, so only the listed ones are ever marked.
    ground: [bool; Table::TERMS],
    count: usize,
    /// Labels by hash, the next place taken where one is in use.
    index: [Label; Table::PLACES],
    /// Where each label stands in the index, so that the last label entered can be taken out again.
    places: [u16; Table::TERMS],
}

impl Table {
    pub const TERMS: usize = 512;
    const DEPTH: u8 = 16;
    const PLACE_BITS: u32 = 10;
    const PLACES: usize = 1 << Table::PLACE_BITS;
    const EMPTY: Label = Label::MAX;

    /// The fixed terms: labels 0, 1, 2 are number 0, sinit and dinit.
    pub fn fixed() -> Table {
        let mut table = Table {
            terms: [Term(0); Table::TERMS],
            depths: [0; Table::TERMS],
            ground: [true; Table::TERMS],
            count: 0,
            index: [Table::EMPTY; Table::PLACES],
            places: [0; Table::TERMS],
        };
        for kind in [NUMBER, SINIT, DINIT] {
            table.list(Term::new(kind, 0, 0));
        }
        table
    }

    /// Enters a term of the model file, with its mark of groundness.
    pub fn list(&mut self, term: Term) {
        let ground = self.is_ground(term);
        let label = self
            .add(term)
            .unwrap_or_else(|_| panic!("a listed term does not fit the table"));
        self.ground[label as usize] = ground;
    }

    fn is_ground(&self, term: Term) -> bool {
        let part = |label: Label| self.ground[label as usize];
        match term.kind() {
            VARIABLE => false,
            PAIR | CHAIN => part(term.a()) && part(term.b()),
            SIGNATURE..=HASH => part(term.a()),
            FUNCTION => part(term.b()),
            _ => true,
        }
    }

    pub fn count(&self) -> usize {
        self.count
    }

    pub fn term(&self, label: Label) -> Term {
        self.terms[label as usize]
    }

    fn depth_of(&self, term: Term) -> u8 {
        let part = |label: Label| self.depths[label as usize];
        match term.kind() {
            PAIR | CHAIN => 1 + part(term.a()).max(part(term.b())),
            SIGNATURE..=HASH => 1 + part(term.a()),
            FUNCTION => 1 + part(term.b()),
            _ => 1,
        }
    }

    /// The label of a term, entered if it is new.
    pub fn add(&mut self, term: Term) -> Result<Label, Refusal> {
        let mut place = term.home();
        while self.index[place] != Table::EMPTY {
            let label = self.index[place];
            if self.term(label) == term {
                return Ok(label);
            }
            place = (place + 1) % Table::PLACES;
        }
        self.enter(term, place)
    }

    fn enter(&mut self, term: Term, place: usize) -> Result<Label, Refusal> {
        let depth = self.depth_of(term);
        let label = self.count;
        if depth > Table::DEPTH || label == Table::TERMS {
            return Err(Refusal::Size);
        }
        self.terms[label] = term;
        self.depths[label] = depth;
        self.places[label] = place as u16;
        self.index[place] = label as Label;
        self.count += 1;
        Ok(label as Label)
    }

    /// Back to an earlier count. Terms leave in the reverse order of their entering, so no search is ever broken off.
    pub fn cut(&mut self, count: usize) {
        while self.count > count {
            self.count -= 1;
            self.index[self.places[self.count] as usize] = Table::EMPTY;
        }
    }

    /// The term with a thread's values put for its variables. A ground term is its own substitution.
    #[inline]
    pub fn substitute(&mut self, label: Label, values: &[Label; 16]) -> Result<Label, Refusal> {
        if self.ground[label as usize] {
            return Ok(label);
        }
        self.fill(label, values)
    }

    /// A term with variables: first part, second part, whole.
    fn fill(&mut self, label: Label, values: &[Label; 16]) -> Result<Label, Refusal> {
        let term = self.term(label);
        let (kind, mut a, mut b) = (term.kind(), term.a(), term.b());
        match kind {
            VARIABLE => return Ok(values[a as usize]),
            PAIR | CHAIN => {
                a = self.substitute(a, values)?;
                b = self.substitute(b, values)?;
            }
            FUNCTION => b = self.substitute(b, values)?,
            _ => a = self.substitute(a, values)?,
        }
        self.add(Term::new(kind, a, b))
    }
}
