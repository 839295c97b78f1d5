//! The proved library, its nine functions for C: the eight questions, asked with slices, and the limit.

use crate::question::{Answer, Lent, Question};

extern "C" {
    fn fms_read(table: *const u8, table_len: usize) -> u64;
    fn fms_distance(lat1: i32, lon1: i32, lat2: i32, lon2: i32) -> u64;
    fn fms_add(
        table: *const u8,
        table_len: usize,
        id: u32,
        channel: u32,
        station_class: u32,
        zone: u32,
        lat: i32,
        lon: i32,
        image: *mut u8,
        image_len: usize,
    ) -> u64;
    fn fms_withdraw(
        table: *const u8,
        table_len: usize,
        id: u32,
        image: *mut u8,
        image_len: usize,
    ) -> u64;
    fn fms_move(
        table: *const u8,
        table_len: usize,
        id: u32,
        channel: u32,
        image: *mut u8,
        image_len: usize,
    ) -> u64;
    fn fms_check(
        table: *const u8,
        table_len: usize,
        channel: u32,
        station_class: u32,
        zone: u32,
        lat: i32,
        lon: i32,
        aside: u32,
        standard: u32,
        rows: *mut u32,
        rows_len: usize,
    ) -> u64;
    fn fms_arrange(
        table: *const u8,
        table_len: usize,
        first: u32,
        last: u32,
        station_class: u32,
        zone: u32,
        lat: i32,
        lon: i32,
        aside: u32,
        standard: u32,
        rows: *mut u32,
        rows_len: usize,
    ) -> u64;
    fn fms_reason(
        table: *const u8,
        table_len: usize,
        channel: u32,
        station_class: u32,
        zone: u32,
        lat: i32,
        lon: i32,
        aside: u32,
        standard: u32,
        reason: *mut u32,
    ) -> u64;
    fn fms_limit(a: u32, b: u32, column: u32) -> u64;
}

/// Any question.
pub fn ask(question: &Question, table: &[u8], lent: Lent) -> Answer {
    let (table, table_len) = (table.as_ptr(), table.len());
    let (image, image_len) = (lent.image.as_mut_ptr(), lent.image.len());
    let (rows, rows_len) = (lent.rows.as_mut_ptr(), lent.rows.len());
    let reason = lent.reason.as_mut_ptr();
    // SAFETY: each pointer goes with the length of its own slice, that of a reason is good for four, and no two buffers overlap.
    let word = unsafe {
        match *question {
            Question::Read => fms_read(table, table_len),
            Question::Distance {
                lat1,
                lon1,
                lat2,
                lon2,
            } => fms_distance(lat1, lon1, lat2, lon2),
            Question::Withdraw { id } => fms_withdraw(table, table_len, id, image, image_len),
            Question::Move { id, channel } => {
                fms_move(table, table_len, id, channel, image, image_len)
            }
            Question::Add {
                id,
                channel,
                proposal: p,
            } => fms_add(
                table,
                table_len,
                id,
                channel,
                p.station_class,
                p.zone,
                p.lat,
                p.lon,
                image,
                image_len,
            ),
            Question::Check {
                channel,
                proposal: p,
                terms,
            } => fms_check(
                table,
                table_len,
                channel,
                p.station_class,
                p.zone,
                p.lat,
                p.lon,
                terms.aside,
                terms.standard,
                rows,
                rows_len,
            ),
            Question::Arrange {
                first,
                last,
                proposal: p,
                terms,
            } => fms_arrange(
                table,
                table_len,
                first,
                last,
                p.station_class,
                p.zone,
                p.lat,
                p.lon,
                terms.aside,
                terms.standard,
                rows,
                rows_len,
            ),
            Question::Reason {
                channel,
                proposal: p,
                terms,
            } => fms_reason(
                table,
                table_len,
                channel,
                p.station_class,
                p.zone,
                p.lat,
                p.lon,
                terms.aside,
                terms.standard,
                reason,
            ),
        }
    };
    Answer::of(word)
}

/// The limit that S is held to for two classes in any order, at a column; 0 where there is no such class or column.
pub fn limit(a: u32, b: u32, column: u32) -> u64 {
    // SAFETY: it takes numbers alone, and nothing is owed of them.
    unsafe { fms_limit(a, b, column) }
}
