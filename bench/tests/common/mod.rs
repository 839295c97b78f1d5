//! Questions asked with lent buffers of a chosen room, and everything that came of them.
#![allow(dead_code)]

use std::cell::RefCell;

use fms_bench::naive::{image_of, Judged, Station};
use fms_bench::question::{Answer, Ask, Lent, Proposal, Question};
use fms_bench::{double_loop, fms, naive, tuned};

/// What stands in a buffer before it is lent.
const BYTE: u8 = 0xA5;
const NUMBER: u32 = 0xDEAD_BEEF;

/// Places behind the lent part of a buffer.
const BEYOND: usize = 5;

/// The most stations of an image of version 1, and of one of version 2.
pub const LINE: usize = 2_000;
pub const LIMIT: usize = 4_000;

/// The longest image and the longest list.
pub const IMAGE: usize = 8 + 16 * LIMIT;
pub const ROWS: usize = 3 * 80 * 79;

/// The answer, and all buffers with what lies beyond their lent parts.
#[derive(Clone, Debug, PartialEq, Eq)]
pub struct Outcome {
    pub answer: Answer,
    image: Vec<u8>,
    rows: Vec<u32>,
    reason: [u32; 4 + BEYOND],
}

impl Outcome {
    /// The table was refused for a repeat.
    pub fn repeated(&self) -> bool {
        matches!(self.answer, Answer::Refused { number: 27, .. })
    }

    /// Nothing was written, in the lent part or beyond.
    pub fn untouched(&self) -> bool {
        let mut numbers = self.rows.iter().chain(&self.reason);
        self.image.iter().all(|&byte| byte == BYTE) && numbers.all(|&number| number == NUMBER)
    }

    /// The list that was granted.
    pub fn list(&self) -> &[u32] {
        let Answer::Granted(count) = self.answer else {
            panic!("refused: {:?}", self.answer)
        };
        &self.rows[..count as usize]
    }

    /// The image that was granted.
    pub fn image(&self) -> &[u8] {
        let Answer::Granted(count) = self.answer else {
            panic!("refused: {:?}", self.answer)
        };
        &self.image[..count as usize]
    }

    /// The reason that was granted: the place of the station, and its id, D, R and column; nothing, and nothing written, where
    /// it is clear.
    pub fn reason(&self) -> Option<(u32, [u32; 4])> {
        match self.answer {
            Answer::Granted(0) => {
                assert!(self.untouched(), "clear, and yet something was written");
                None
            }
            Answer::Granted(place) => {
                let [id, d, r, column, ..] = self.reason;
                Some((place, [id, d, r, column]))
            }
            Answer::Refused { .. } => panic!("refused: {:?}", self.answer),
        }
    }
}

fn outcome(
    ask: Ask,
    question: &Question,
    table: &[u8],
    image_room: usize,
    rows_room: usize,
) -> Outcome {
    let mut image = vec![BYTE; image_room + BEYOND];
    let mut rows = vec![NUMBER; rows_room + BEYOND];
    let mut reason = [NUMBER; 4 + BEYOND];
    let lent = Lent {
        image: &mut image[..image_room],
        rows: &mut rows[..rows_room],
        reason: reason.first_chunk_mut().expect("it has four places"),
    };
    let answer = ask(question, table, lent);
    Outcome {
        answer,
        image,
        rows,
        reason,
    }
}

/// What the proved library makes of a question; the lent table stays as it was.
pub fn product(question: &Question, table: &[u8], image_room: usize, rows_room: usize) -> Outcome {
    let lent = table.to_vec();
    let outcome = outcome(
        fms::ask,
        question,
        std::hint::black_box(&lent),
        image_room,
        rows_room,
    );
    assert_eq!(
        std::hint::black_box(&lent),
        table,
        "the table was changed by {question:?}"
    );
    outcome
}

thread_local! {
    /// The last two tables about which the naive desk was asked, and what they are.
    static KNOWN: RefCell<Vec<(Vec<u8>, Judged)>> = const { RefCell::new(Vec::new()) };
}

/// What a table is by the naive desk, which judges it once for many questions: a long one takes it long.
fn judged(table: &[u8]) -> Judged {
    KNOWN.with_borrow_mut(|known| {
        if let Some((_, judged)) = known.iter().find(|(one, _)| one == table) {
            return judged.clone();
        }
        let judged = naive::judge(table);
        known.truncate(1);
        known.insert(0, (table.to_vec(), judged.clone()));
        judged
    })
}

/// What the naive desk makes of it.
pub fn reference(
    question: &Question,
    table: &[u8],
    image_room: usize,
    rows_room: usize,
) -> Outcome {
    let ask: Ask = |question, table, lent| naive::ask_judged(question, table, judged(table), lent);
    outcome(ask, question, table, image_room, rows_room)
}

/// The tuned desks.
const TUNED: [(&str, Ask); 2] = [
    ("tuned", tuned::ask),
    ("tuned with the box", tuned::ask_box),
];

/// Holds the library and the tuned desks against the naive one, with so much room.
pub fn held_in(question: &Question, table: &[u8], image_room: usize, rows_room: usize) -> Outcome {
    let expected = reference(question, table, image_room, rows_room);
    let hold = |who: &str, found: Outcome| {
        assert!(
            found == expected,
            "{question:?} with room for {image_room} bytes and {rows_room} numbers\n\
             on {table:?}\n{who}: {:?}\nnaive: {:?}",
            found.answer,
            expected.answer
        );
    };
    hold("product", product(question, table, image_room, rows_room));
    for (who, ask) in TUNED {
        hold(who, outcome(ask, question, table, image_room, rows_room));
    }
    if let Question::Read = question {
        assert_eq!(
            double_loop::read(table),
            expected.answer,
            "by a double loop"
        );
    }
    expected
}

/// The same with ample room, with exactly the room that is needed, with more, and with one place less and none.
pub fn held(question: &Question, table: &[u8]) -> Outcome {
    let ample = held_in(question, table, table.len() + 40, ROWS);
    if let Answer::Granted(count) = ample.answer {
        let need = question.room(count);
        for room in [need, need + 1, need.saturating_sub(1), 0] {
            let tight = held_in(question, table, room, room);
            if room < need {
                assert_eq!(
                    tight.answer,
                    Answer::Refused {
                        number: 22,
                        extra: count
                    }
                );
                assert!(tight.untouched());
            } else {
                assert_eq!(tight.answer, ample.answer);
            }
        }
    } else {
        assert!(ample.untouched());
    }
    ample
}

/// What came of a question on a table that was to have no repeat.
fn without_repeat(outcome: Outcome) -> Outcome {
    assert!(!outcome.repeated(), "a repeat that was not made");
    outcome
}

/// Holds all against the naive desk, with so much room, on a table without repeats.
pub fn agree_in(question: &Question, table: &[u8], image_room: usize, rows_room: usize) -> Outcome {
    without_repeat(held_in(question, table, image_room, rows_room))
}

/// The same with ample room, with exactly the room that is needed, with more, and with one place less and none.
pub fn agree(question: &Question, table: &[u8]) -> Outcome {
    without_repeat(held(question, table))
}

/// A proposal in zone 3 of class A at a site.
pub fn class_a(lat: i32, lon: i32) -> Proposal {
    Proposal {
        station_class: 0,
        zone: 3,
        lat,
        lon,
    }
}

/// A zone that permits a class.
pub fn zone_for(station_class: u32) -> u32 {
    if (1..=2).contains(&station_class) {
        1
    } else {
        3
    }
}

/// A table of one movable station with the id 7.
pub fn table_of_one(channel: u32, class: u32, lat: i32, lon: i32) -> Vec<u8> {
    image_of(&[Station {
        id: 7,
        channel,
        class,
        flags: 0,
        lat,
        lon,
    }])
}

/// So many movable stations of class A on 250 with the ids 10, 20 and so on, no two at one site: 64 on each second of latitude from
/// 0 on, one on each second of longitude from `lon` on.
pub fn dense(count: usize, lon: i32) -> Vec<Station> {
    (0..count as i32)
        .map(|position| Station {
            id: 10 * (position as u32 + 1),
            channel: 250,
            class: 0,
            flags: 0,
            lat: position / 64,
            lon: lon + position % 64,
        })
        .collect()
}
