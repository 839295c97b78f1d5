//! The search for repeats by a double loop, tuned by hand in safe Rust: every record is held against every earlier one. Records are
//! told apart by marks of sixteen bits, many in a turn, and by their keys where two marks are equal.

use crate::question::Answer;
use crate::tuned::{read_by, Record};

/// How many marks are looked at in a turn.
const TURN: usize = 256;

/// The turns of a full table.
const TURNS: usize = 4_000_usize.div_ceil(TURN);

/// Channel, class, latitude and longitude of a right record, in one number.
fn key(record: &Record) -> u64 {
    let &[_, _, _, _, a, b, class, _, c, d, e, f, g, h, i, j] = record;
    let channel = u64::from(u16::from_be_bytes([a, b]));
    let north = u64::from(u32::from_be_bytes([c, d, e, f]).wrapping_add(270_000));
    let east = u64::from(u32::from_be_bytes([g, h, i, j]).wrapping_add(648_000));
    (channel << 3 | u64::from(class)) << 41 | north << 21 | east
}

/// The mark of a key.
fn mark(key: u64) -> u16 {
    (key.wrapping_mul(0x9E37_79B9_7F4A_7C15) >> 48) as u16
}

/// Whether a mark is among those of a turn.
#[inline(always)]
fn marked(marks: &[u16; TURN], mark: u16) -> bool {
    let equal = |&other: &u16| if other == mark { u16::MAX } else { 0 };
    marks.iter().map(equal).fold(0, |any, one| any | one) != 0
}

/// Whether the key of a position is among the earlier ones of a turn.
#[cold]
#[inline(never)]
fn found(keys: &[u64], turn: usize, position: usize, key: u64) -> bool {
    keys[TURN * turn..position.min(TURN * (turn + 1))].contains(&key)
}

/// The position of the first record that agrees with an earlier one in channel, class, latitude and longitude.
fn first_repeat(records: &[Record]) -> Option<usize> {
    let mut keys = [0; TURN * TURNS];
    let mut marks = [[0; TURN]; TURNS];
    for (position, record) in records.iter().enumerate() {
        let key = key(record);
        let mark = mark(key);
        for (turn, marks) in marks[..=position / TURN].iter().enumerate() {
            if marked(marks, mark) && found(&keys, turn, position, key) {
                return Some(position);
            }
        }
        keys[position] = key;
        marks[position / TURN][position % TURN] = mark;
    }
    None
}

/// Reads a table as the tuned desk does but for the search.
pub fn read(table: &[u8]) -> Answer {
    read_by(table, first_repeat)
}
