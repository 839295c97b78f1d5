//! What can be asked of a desk, and what it answers.

/// What is asked for beside the channel: class, zone and site.
#[derive(Clone, Copy, Debug, PartialEq, Eq)]
pub struct Proposal {
    pub station_class: u32,
    pub zone: u32,
    pub lat: i32,
    pub lon: i32,
}

/// On what terms a table is studied.
#[derive(Clone, Copy, Debug, PartialEq, Eq)]
pub struct Terms {
    /// The id of the station that is left aside, 0 for none.
    pub aside: u32,
    /// By which separations: 1 for Table A, 2 for the lesser table of §73.215(e).
    pub standard: u32,
}

impl Terms {
    pub const fn new(aside: u32, standard: u32) -> Terms {
        Terms { aside, standard }
    }
}

/// One of the eight questions, but for the table and the lent buffers.
#[derive(Clone, Copy, Debug, PartialEq, Eq)]
pub enum Question {
    Read,
    Distance {
        lat1: i32,
        lon1: i32,
        lat2: i32,
        lon2: i32,
    },
    Add {
        id: u32,
        channel: u32,
        proposal: Proposal,
    },
    Withdraw {
        id: u32,
    },
    Move {
        id: u32,
        channel: u32,
    },
    Check {
        channel: u32,
        proposal: Proposal,
        terms: Terms,
    },
    Arrange {
        first: u32,
        last: u32,
        proposal: Proposal,
        terms: Terms,
    },
    Reason {
        channel: u32,
        proposal: Proposal,
        terms: Terms,
    },
}

impl Question {
    pub fn check(channel: u32, proposal: Proposal, terms: Terms) -> Question {
        Question::Check {
            channel,
            proposal,
            terms,
        }
    }

    pub fn arrange(first: u32, last: u32, proposal: Proposal, terms: Terms) -> Question {
        Question::Arrange {
            first,
            last,
            proposal,
            terms,
        }
    }

    pub fn reason(channel: u32, proposal: Proposal, terms: Terms) -> Question {
        Question::Reason {
            channel,
            proposal,
            terms,
        }
    }

    /// The room that a granted answer needs: its number of places for an image or a list, and none where there is no such.
    pub fn room(&self, granted: u32) -> usize {
        match self {
            Question::Read | Question::Distance { .. } | Question::Reason { .. } => 0,
            _ => granted as usize,
        }
    }
}

/// The lent buffers: for an image, for a list, and for the four numbers of a reason.
pub struct Lent<'a> {
    pub image: &'a mut [u8],
    pub rows: &'a mut [u32],
    pub reason: &'a mut [u32; 4],
}

/// Who answers: a question about a table, with lent buffers.
pub type Ask = fn(&Question, &[u8], Lent) -> Answer;

/// A count, a distance, or the place of the station that is the reason (0 for clear); or a refusal with its extra number.
#[derive(Clone, Copy, Debug, PartialEq, Eq)]
pub enum Answer {
    Granted(u32),
    Refused { number: u32, extra: u32 },
}

impl Answer {
    /// The answer in a returned word: number in the high half, count, distance, place or extra number in the low one.
    pub fn of(word: u64) -> Answer {
        let number = (word >> 32) as u32;
        let low = word as u32;
        if number == 0 {
            Answer::Granted(low)
        } else {
            Answer::Refused { number, extra: low }
        }
    }

    /// The word that carries this answer.
    pub fn word(self) -> u64 {
        match self {
            Answer::Granted(count) => u64::from(count),
            Answer::Refused { number, extra } => u64::from(number) << 32 | u64::from(extra),
        }
    }
}
