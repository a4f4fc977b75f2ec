// The requests of document 02 that are in, as the flag --with gives them.
// Why: the bench takes the requests one by one, and the reference must be what the bench is at each landing.

use crate::term::{Label, DINIT, DNONE, FUNCTION, NUMBER, SINIT};

/// Each can be in by itself. Request 4 changes how a term is looked for and nothing that is seen.
#[derive(Clone, Copy, Default)]
pub struct Requests {
    /// 1: an ok line tells how many new terms the step made.
    pub made: bool,
    /// 2: counts by length.
    pub report: bool,
    /// 3: dynamic registers hold dnone after power-up.
    pub dnone: bool,
    /// 5: room is given back.
    pub room: bool,
    /// 6: locks that also stop reading.
    pub strong: bool,
    /// 7: the slow lister.
    pub slow: bool,
}

impl Requests {
    /// The requests of a list such as "1,2,3"; the empty list has none.
    pub fn of(list: &str) -> Result<Requests, String> {
        let mut requests = Requests::default();
        for number in list.split(',').filter(|_| !list.is_empty()) {
            match number {
                "1" => requests.made = true,
                "2" => requests.report = true,
                "3" => requests.dnone = true,
                "4" => {}
                "5" => requests.room = true,
                "6" => requests.strong = true,
                "7" => requests.slow = true,
                _ => {
                    return Err(format!(
                        "there is no request '{number}' here: \
                         give numbers from 1 to 7 parted by commas, as --with 1,2,3"
                    ))
                }
            }
        }
        Ok(requests)
    }

    /// The kinds of the fixed terms; a term's place here is its label.
    pub fn fixed(&self) -> &'static [u16] {
        if self.dnone {
            &[NUMBER, SINIT, DINIT, DNONE]
        } else {
            &[NUMBER, SINIT, DINIT]
        }
    }

    /// The last kind of a term.
    pub fn last_kind(&self) -> u16 {
        if self.dnone {
            DNONE
        } else {
            FUNCTION
        }
    }

    /// What a dynamic register holds after power-up, as a label.
    pub fn powered_up(&self) -> Label {
        if self.dnone {
            Self::DNONE_LABEL
        } else {
            SINIT
        }
    }

    const DNONE_LABEL: Label = 3;
}
