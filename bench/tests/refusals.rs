//! Every refusal, through each function that can give it, with the neighbours of its order.

mod common;

use common::{agree_in, class_a, dense, held_in, product, table_of_one, IMAGE, LIMIT, LINE, ROWS};
use fms_bench::made::WRONG_COUNTS;
use fms_bench::naive::{image_in, image_of, Station};
use fms_bench::question::{Answer, Proposal, Question, Terms};

/// The question is refused with this, whatever the room; nothing is written.
fn refused(question: &Question, table: &[u8], number: u32, extra: u32) {
    for (image_room, rows_room) in [(IMAGE, ROWS), (16, 3), (0, 0)] {
        let outcome = held_in(question, table, image_room, rows_room);
        assert_eq!(
            outcome.answer,
            Answer::Refused { number, extra },
            "{question:?}"
        );
        let outcome = product(question, table, image_room, rows_room);
        assert_eq!(
            outcome.answer,
            Answer::Refused { number, extra },
            "{question:?}"
        );
        assert!(outcome.untouched(), "{question:?} wrote");
    }
}

/// The question is granted this number with the room it needs, and refused with 22 and the number when it has one place less, or
/// none.
fn granted(question: &Question, table: &[u8], count: u32) {
    let room = question.room(count);
    for more in [0, 1, 40] {
        let outcome = agree_in(question, table, room + more, room + more);
        assert_eq!(outcome.answer, Answer::Granted(count), "{question:?}");
    }
    for less in [1, 2, room] {
        if (1..=room).contains(&less) {
            let outcome = agree_in(question, table, room - less, room - less);
            assert_eq!(
                outcome.answer,
                Answer::Refused {
                    number: 22,
                    extra: count
                },
                "{question:?}"
            );
            assert!(
                product(question, table, room - less, room - less).untouched(),
                "{question:?} wrote"
            );
        }
    }
}

/// A class A station on 250 at (0, 0), movable, to be changed where a case needs it.
const STATION: Station = Station {
    id: 7,
    channel: 250,
    class: 0,
    flags: 0,
    lat: 0,
    lon: 0,
};

/// The questions on a table, right ones and ones with faults of their own; the studies with nobody, with the first and the second
/// record of the table of two, and with an absent id left aside, by either standard and by none.
fn questions_on_a_table() -> Vec<Question> {
    let right = class_a(100_000, 100_000);
    let wrong = Proposal {
        station_class: 8,
        zone: 0,
        lat: i32::MAX,
        lon: i32::MIN,
    };
    let mut questions = vec![Question::Read];
    for (channel, id, proposal) in [(230, 9, right), (0, 0, wrong)] {
        questions.extend([
            Question::Add {
                id,
                channel,
                proposal,
            },
            Question::Withdraw { id },
            Question::Move { id, channel },
        ]);
        for (aside, standard) in [(0, 1), (7, 2), (8, 1), (9, 2), (0, 0), (9, 3)] {
            questions.extend(studies(channel, proposal, Terms::new(aside, standard)));
        }
    }
    questions
}

/// Check, Arrange and the reason, of one channel.
fn studies(channel: u32, proposal: Proposal, terms: Terms) -> [Question; 3] {
    [
        Question::check(channel, proposal, terms),
        Question::arrange(channel, channel, proposal, terms),
        Question::reason(channel, proposal, terms),
    ]
}

/// The studies of one channel are granted these by either standard, with an id left aside: the counts of Check and Arrange, and the
/// place of the reason.
fn studies_granted(channel: u32, proposal: Proposal, aside: u32, table: &[u8], told: [u32; 3]) {
    for standard in [1, 2] {
        let questions = studies(channel, proposal, Terms::new(aside, standard));
        for (question, count) in questions.iter().zip(told) {
            granted(question, table, count);
        }
    }
}

/// The table is refused with this by every question on a table, before anything of the question's own.
fn table_refused(table: &[u8], number: u32, position: u32) {
    for question in questions_on_a_table() {
        refused(&question, table, number, position);
    }
}

/// The header and two records, the second 16 bytes from the first.
fn two() -> Vec<u8> {
    image_of(&[
        STATION,
        Station {
            id: 8,
            channel: 240,
            lat: 50_000,
            ..STATION
        },
    ])
}

/// The table of two with bytes put into it.
fn with(puts: &[(usize, &[u8])]) -> Vec<u8> {
    put(&two(), puts)
}

/// A table with bytes put into it.
fn put(table: &[u8], puts: &[(usize, &[u8])]) -> Vec<u8> {
    let mut table = table.to_vec();
    for (at, bytes) in puts {
        table[*at..at + bytes.len()].copy_from_slice(bytes);
    }
    table
}

/// The table of two with another version, sixth byte and count in its header.
fn headed(version: u16, sixth: u8, count: u16) -> Vec<u8> {
    let [version, count] = [version, count].map(u16::to_be_bytes);
    with(&[(3, &version), (5, &[sixth]), (6, &count)])
}

/// The table of so many dense stations around (0, 0).
fn table_of(count: usize) -> Vec<u8> {
    image_of(&dense(count, 0))
}

/// The number of bytes of an image of so many stations.
fn bytes_of(count: usize) -> u32 {
    8 + 16 * count as u32
}

/// The table is read as one of so many.
fn read(table: &[u8], count: usize) {
    granted(&Question::Read, table, count as u32);
}

/// Tables of both versions are read, at both ends of their ranges.
#[test]
fn a_right_table_is_read() {
    read(&two(), 2);
    for count in [0, 1, LINE - 1, LINE, LINE + 1, LINE + 2, LIMIT - 1, LIMIT] {
        read(&table_of(count), count);
    }
}

#[test]
fn refusal_1() {
    for length in 0..8 {
        table_refused(&two()[..length], 1, 0);
        table_refused(&[b'X'; 8][..length], 1, 0);
    }
}

#[test]
fn refusal_2() {
    for at in 0..3 {
        table_refused(&with(&[(at, b"X")]), 2, 0);
        table_refused(&with(&[(at, b"f")]), 2, 0);
    }
    table_refused(&with(&[(0, b"FMT")]), 2, 0);
    table_refused(&with(&[(0, b"XXX\0\x03")]), 2, 0);
    table_refused(b"TVS\0\x01\0\0\0", 2, 0);
}

#[test]
fn refusal_3() {
    for version in [0, 3, 256, 257, 258, 512, 513, 65_535] {
        for (sixth, count) in [(0, 2), (1, 2), (0, 2_001), (1, 65_535)] {
            table_refused(&headed(version, sixth, count), 3, 0);
        }
        for count in [LINE, LINE + 1] {
            table_refused(&image_in(version, &dense(count, 0)), 3, 0);
        }
    }
}

/// A sixth byte that is not 0 comes before the count, in both versions.
#[test]
fn refusal_4() {
    for sixth in [1, 2, 128, 255] {
        for (version, count) in WRONG_COUNTS.into_iter().chain([(1, 2), (2, 2_001)]) {
            table_refused(&headed(version, sixth, count), 4, 0);
        }
        table_refused(&put(&table_of(LINE + 1), &[(5, &[sixth])]), 4, 0);
    }
}

/// A count outside of its version's range comes before the length, right or wrong, and before the records.
#[test]
fn refusal_5() {
    for (version, count) in WRONG_COUNTS {
        let mut table = headed(version, 0, count);
        table_refused(&table, 5, 0);
        table.resize(8 + 16 * usize::from(count), 0);
        table_refused(&table, 5, 0);
        table_refused(&image_in(version, &dense(count.into(), 0)), 5, 0);
    }
}

/// A wrong length comes before any record, in both versions.
#[test]
fn refusal_6() {
    let resized = |mut table: Vec<u8>, length| {
        table.resize(length, 0);
        table_refused(&table, 6, 0);
    };
    for length in [8, 9, 24, 39, 41, 56] {
        resized(two(), length);
    }
    for (version, counts) in [(1, &[0, 1, 3, 512, 2_000][..]), (2, &[2_001, 2_002, 4_000])] {
        for &count in counts {
            let table = headed(version, 0, count);
            table_refused(&table, 6, 0);
            table_refused(&put(&table, &[(8, &[0; 16])]), 6, 0);
        }
    }
    resized(table_of(0), 9);
    for count in [LINE, LINE + 1, LIMIT] {
        let whole = 8 + 16 * count;
        for length in [whole - 16, whole - 1, whole + 1, whole + 16, 1 << 16] {
            resized(table_of(count), length);
        }
    }
}

/// The field of a record at an offset, with values that are refused and values that are not: all of them in the table of two, and
/// the first of each in a full one.
fn field(number: u32, offset: usize, bad: &[&[u8]], good: &[&[u8]], after: &[(usize, &[u8])]) {
    let (one_bad, one_good) = (&bad[..1], good.get(..1).unwrap_or_default());
    for (table, positions, bad, good) in [
        (two(), [0, 1], bad, good),
        (table_of(LIMIT), [LINE, LIMIT - 1], one_bad, one_good),
    ] {
        let count = (table.len() - 8) / 16;
        for position in positions {
            let record = 8 + 16 * position;
            for &value in bad {
                let mut faults = vec![(record + offset, value)];
                table_refused(&put(&table, &faults), number, position as u32);
                // Faults in later fields of the record, and in the next record, do not show.
                faults.extend(after.iter().map(|&(at, bytes)| (record + at, bytes)));
                if position + 1 < count {
                    faults.push((record + 16, &[0; 4]));
                }
                table_refused(&put(&table, &faults), number, position as u32);
            }
            for &value in good {
                read(&put(&table, &[(record + offset, value)]), count);
            }
        }
    }
}

const FAR_SITE: (usize, &[u8]) = (8, &[0x7F, 0xFF, 0xFF, 0xFF, 0x80, 0, 0, 0]);

#[test]
fn refusal_7() {
    let after = [(4, &[0u8, 0, 255, 255][..]), FAR_SITE];
    field(7, 0, &[&[0; 4]], &[], &after);
    let ids =
        |first: u32, second: u32| with(&[(8, &first.to_be_bytes()), (24, &second.to_be_bytes())]);
    for (first, second) in [
        (7, 7),
        (8, 7),
        (7, 1),
        (u32::MAX, u32::MAX),
        (u32::MAX, 7),
        (0x8000_0000, 0x7FFF_FFFF),
    ] {
        table_refused(&ids(first, second), 7, 1);
    }
    for (first, second) in [(1, 2), (0x7FFF_FFFF, 0x8000_0000), (u32::MAX - 1, u32::MAX)] {
        read(&ids(first, second), 2);
    }
    // The last of 4,000 after one with the id 39,990.
    let last = |id: u32| put(&table_of(LIMIT), &[(IMAGE - 16, &id.to_be_bytes())]);
    for id in [39_989, 39_990] {
        table_refused(&last(id), 7, 3_999);
    }
    for id in [39_991, u32::MAX] {
        read(&last(id), LIMIT);
    }
}

#[test]
fn refusal_8() {
    let bad: [&[u8]; 7] = [
        &[0, 0],
        &[0, 200],
        &[1, 45],
        &[1, 200],
        &[1, 201],
        &[2, 0],
        &[255, 255],
    ];
    field(
        8,
        4,
        &bad,
        &[&[0, 201], &[1, 44]],
        &[(6, &[255, 255]), FAR_SITE],
    );
}

#[test]
fn refusal_9() {
    field(
        9,
        6,
        &[&[8], &[9], &[128], &[255]],
        &[&[0], &[7]],
        &[(7, &[255]), FAR_SITE],
    );
}

#[test]
fn refusal_10() {
    field(
        10,
        7,
        &[&[2], &[3], &[4], &[128], &[129], &[255]],
        &[&[0], &[1]],
        &[FAR_SITE],
    );
}

#[test]
fn refusal_11() {
    let bad = [-270_001i32, 270_001, i32::MIN, i32::MAX].map(i32::to_be_bytes);
    let good = [-270_000i32, -1, 0, 270_000].map(i32::to_be_bytes);
    field(
        11,
        8,
        &bad.each_ref().map(|b| &b[..]),
        &good.each_ref().map(|b| &b[..]),
        &[(12, &[0x80, 0, 0, 0])],
    );
}

#[test]
fn refusal_12() {
    let bad = [-648_001i32, 648_001, i32::MIN, i32::MAX].map(i32::to_be_bytes);
    let good = [-648_000i32, -1, 0, 648_000].map(i32::to_be_bytes);
    field(
        12,
        12,
        &bad.each_ref().map(|b| &b[..]),
        &good.each_ref().map(|b| &b[..]),
        &[],
    );
}

/// A proposal that is refused with this by the studies and by Add, on an empty table and on one of two.
fn proposal_refused(channel: u32, proposal: Proposal, number: u32) {
    for table in [image_of(&[]), two()] {
        // A present id left aside and the other standard change nothing, and an absent id comes later.
        for (aside, standard) in [(0, 1), (7, 2), (9, 1)] {
            for question in studies(channel, proposal, Terms::new(aside, standard)) {
                refused(&question, &table, number, 0);
            }
        }
        // A standard that is none comes after 16 and before 17.
        let first = if number == 17 { 26 } else { number };
        for (aside, standard) in [(0, 0), (7, 3), (9, 257)] {
            for question in studies(channel, proposal, Terms::new(aside, standard)) {
                refused(&question, &table, first, 0);
            }
        }
        // Faults that come later in Add: id 0, an id that is present, a short station.
        for id in [9, 0, 7] {
            refused(
                &Question::Add {
                    id,
                    channel,
                    proposal,
                },
                &table,
                number,
                0,
            );
        }
    }
}

#[test]
fn refusal_13() {
    let right = class_a(0, 0);
    let wrong = Proposal {
        station_class: 8,
        zone: 0,
        lat: i32::MAX,
        lon: i32::MIN,
    };
    for channel in [0, 1, 201, 220, 301, 65_536 + 250, u32::MAX] {
        proposal_refused(channel, right, 13);
        proposal_refused(channel, wrong, 13);
        // Absent, present, fixed and low stations alike.
        let low = Station {
            id: 9,
            channel: 220,
            ..STATION
        };
        let table = image_of(&[
            STATION,
            Station {
                id: 8,
                class: 1,
                flags: 1,
                ..STATION
            },
            low,
        ]);
        for id in [7, 8, 9, 10, 0] {
            refused(&Question::Move { id, channel }, &table, 13, 0);
        }
    }
    for (first, last) in [
        (220, 300),
        (221, 301),
        (300, 221),
        (251, 250),
        (220, 220),
        (301, 301),
        (0, u32::MAX),
        (301, 220),
    ] {
        for proposal in [right, wrong] {
            for (aside, standard) in [(0, 1), (0, 2), (9, 1), (9, 3)] {
                let terms = Terms::new(aside, standard);
                refused(
                    &Question::arrange(first, last, proposal, terms),
                    &two(),
                    13,
                    0,
                );
            }
        }
    }
    for (first, last) in [(221, 221), (300, 300), (221, 300)] {
        for standard in [1, 2] {
            let question = Question::arrange(first, last, right, Terms::new(0, standard));
            granted(&question, &image_of(&[]), 3 * (last - first + 1));
        }
    }
}

#[test]
fn refusal_14() {
    for station_class in [8, 9, 256, 256 + 3, u32::MAX] {
        for (zone, lat) in [(3, 0), (0, 0), (3, 270_001)] {
            proposal_refused(
                250,
                Proposal {
                    station_class,
                    zone,
                    lat,
                    lon: 0,
                },
                14,
            );
        }
    }
}

#[test]
fn refusal_15() {
    for zone in [0, 4, 256 + 3, u32::MAX] {
        for (station_class, lat) in [(0, 0), (1, 0), (7, 0), (0, 270_001)] {
            proposal_refused(
                250,
                Proposal {
                    station_class,
                    zone,
                    lat,
                    lon: 0,
                },
                15,
            );
        }
    }
}

/// Zones 1 and 2 permit A, B1 and B; zone 3 permits A, C3, C2, C1, C0 and C.
#[test]
fn refusal_16() {
    for zone in 1..=3 {
        for station_class in 0..=7 {
            let permitted = if zone == 3 {
                [0, 3, 4, 5, 6, 7].contains(&station_class)
            } else {
                station_class <= 2
            };
            for lat in [100_000, 270_001] {
                let proposal = Proposal {
                    station_class,
                    zone,
                    lat,
                    lon: 0,
                };
                if !permitted {
                    proposal_refused(250, proposal, 16);
                } else if lat == 270_001 {
                    proposal_refused(250, proposal, 17);
                } else {
                    studies_granted(250, proposal, 0, &image_of(&[]), [0, 3, 0]);
                    granted(
                        &Question::Add {
                            id: 1,
                            channel: 250,
                            proposal,
                        },
                        &image_of(&[]),
                        24,
                    );
                }
            }
        }
    }
}

const OUTSIDE: [(i32, i32); 9] = [
    (270_001, 0),
    (-270_001, 0),
    (0, 648_001),
    (0, -648_001),
    (i32::MAX, i32::MAX),
    (i32::MIN, 0),
    (0, i32::MIN),
    (i32::MIN, i32::MIN),
    (270_000, i32::MAX),
];

#[test]
fn refusal_17() {
    for (lat, lon) in OUTSIDE {
        proposal_refused(250, class_a(lat, lon), 17);
        for (inner_lat, inner_lon) in [(0, 0), (270_000, 648_000), (-270_000, -648_000), (lat, lon)]
        {
            let question = Question::Distance {
                lat1: lat,
                lon1: lon,
                lat2: inner_lat,
                lon2: inner_lon,
            };
            refused(&question, &[], 17, 0);
            let question = Question::Distance {
                lat1: inner_lat,
                lon1: inner_lon,
                lat2: lat,
                lon2: lon,
            };
            refused(&question, &[], 17, 0);
        }
    }
    for (lat, lon) in [
        (270_000, 648_000),
        (-270_000, -648_000),
        (270_000, -648_000),
        (-270_000, 648_000),
    ] {
        studies_granted(250, class_a(lat, lon), 0, &two(), [0, 3, 0]);
        let question = Question::Distance {
            lat1: lat,
            lon1: lon,
            lat2: lat,
            lon2: lon,
        };
        assert_eq!(agree_in(&question, &[], 0, 0).answer, Answer::Granted(0));
    }
}

/// An Add on 250 at a site of longitude 0.
fn add(id: u32, lat: i32) -> Question {
    Question::Add {
        id,
        channel: 250,
        proposal: class_a(lat, 0),
    }
}

/// A latitude at which a proposal is short to the first station of the table of two and to every dense one, and one at which it is
/// short to nobody.
const SHORT: i32 = 0;
const SPACED: i32 = 200_000;

/// Id 0, also where the proposal is short and the table is full.
#[test]
fn refusal_18() {
    for table in [table_of(0), two(), table_of(LINE), table_of(LIMIT)] {
        for lat in [SHORT, SPACED] {
            refused(&add(0, lat), &table, 18, 0);
        }
    }
}

/// An id that is present, with its position, also where the proposal is short and the table is full.
#[test]
fn refusal_19() {
    for lat in [SHORT, SPACED] {
        refused(&add(7, lat), &two(), 19, 0);
        refused(&add(8, lat), &two(), 19, 1);
        for position in [0, 1, 999, 1_999, 2_000, 3_998, 3_999] {
            let present = add(10 * (position + 1), lat);
            refused(&present, &table_of(LIMIT), 19, position);
        }
        refused(&add(20_000, lat), &table_of(LINE), 19, 1_999);
    }
}

/// A dense table in which all but some positions are far from (0, 0).
fn near(count: usize, positions: &[usize]) -> Vec<u8> {
    let mut stations = dense(count, 0);
    for (position, station) in stations.iter_mut().enumerate() {
        if !positions.contains(&position) {
            station.lat -= SPACED;
        }
    }
    image_of(&stations)
}

/// Short: the first short position, before a full table and before the room.
#[test]
fn refusal_20_of_add() {
    let table = image_of(&[
        Station {
            id: 1,
            lat: 100_000,
            ..STATION
        },
        Station {
            id: 3,
            channel: 254,
            ..STATION
        },
        Station {
            id: 5,
            channel: 253,
            ..STATION
        },
        Station {
            id: 7,
            channel: 250,
            ..STATION
        },
    ]);
    for id in [2, 4, 6, 8, u32::MAX] {
        refused(
            &Question::Add {
                id,
                channel: 250,
                proposal: class_a(0, 0),
            },
            &table,
            20,
            2,
        );
        refused(
            &Question::Add {
                id,
                channel: 254,
                proposal: class_a(0, 0),
            },
            &table,
            20,
            1,
        );
        granted(
            &Question::Add {
                id,
                channel: 258,
                proposal: class_a(0, 0),
            },
            &table,
            8 + 16 * 5,
        );
    }
    for count in [LINE, LINE + 1, LIMIT] {
        refused(&add(5, SHORT), &table_of(count), 20, 0);
        let last = count - 1;
        refused(&add(5, SHORT), &near(count, &[last]), 20, last as u32);
    }
    refused(&add(5, SHORT), &near(LIMIT, &[2_000, 3_999]), 20, 2_000);
}

/// Stations from 201 to 220 make a proposal short too, by difference 1 to 3 and by 53 and 54.
#[test]
fn refusal_20_by_a_low_station() {
    for (low, channel) in [
        (220, 221),
        (219, 221),
        (218, 221),
        (220, 223),
        (220, 273),
        (220, 274),
        (201, 254),
        (201, 255),
    ] {
        let table = image_of(&[Station {
            channel: low,
            ..STATION
        }]);
        refused(
            &Question::Add {
                id: 9,
                channel,
                proposal: class_a(0, 0),
            },
            &table,
            20,
            0,
        );
    }
    for (low, channel) in [
        (220, 224),
        (217, 221),
        (220, 272),
        (220, 275),
        (201, 253),
        (201, 256),
    ] {
        let table = image_of(&[Station {
            channel: low,
            ..STATION
        }]);
        granted(
            &Question::Add {
                id: 9,
                channel,
                proposal: class_a(0, 0),
            },
            &table,
            40,
        );
    }
}

/// Across the 180th meridian too, by 3,702 seconds of the equator and not by 3,703: Add, and Move to the own channel.
#[test]
fn refusal_20_across_the_meridian() {
    for (lon, short, spaced) in [
        (647_000, -645_298, -645_297),
        (-647_000, 645_298, 645_297),
        (648_000, -644_298, -644_297),
        (-648_000, 644_298, 644_297),
    ] {
        let there = Station { lon, ..STATION };
        let far = Station {
            id: 3,
            lat: 100_000,
            ..there
        };
        let table = image_of(&[far, there]);
        let add = |lon| Question::Add {
            id: 9,
            channel: 250,
            proposal: class_a(0, lon),
        };
        refused(&add(short), &table, 20, 1);
        granted(&add(spaced), &table, bytes_of(3));
        let stay = |lon| {
            let other = Station {
                id: 9,
                lon,
                ..STATION
            };
            image_of(&[far, there, other])
        };
        for (id, other) in [(7, 2), (9, 1)] {
            let to_its_own = Question::Move { id, channel: 250 };
            refused(&to_its_own, &stay(short), 20, other);
            granted(&to_its_own, &stay(spaced), bytes_of(3));
        }
    }
}

#[test]
fn refusal_20_of_move() {
    // Position 1 is the one that moves; it is short to position 2 on 254, to position 0 on 240, to nobody on 290.
    let table = image_of(&[
        Station {
            id: 1,
            channel: 240,
            ..STATION
        },
        Station {
            id: 3,
            channel: 270,
            ..STATION
        },
        Station {
            id: 5,
            channel: 254,
            ..STATION
        },
    ]);
    refused(
        &Question::Move {
            id: 3,
            channel: 254,
        },
        &table,
        20,
        2,
    );
    refused(
        &Question::Move {
            id: 3,
            channel: 240,
        },
        &table,
        20,
        0,
    );
    granted(
        &Question::Move {
            id: 3,
            channel: 290,
        },
        &table,
        8 + 16 * 3,
    );
    // Its own channel: granted where it is spaced, 20 where it is short.
    granted(
        &Question::Move {
            id: 3,
            channel: 270,
        },
        &table,
        8 + 16 * 3,
    );
    let short = image_of(&[
        Station {
            id: 1,
            channel: 240,
            ..STATION
        },
        Station {
            id: 3,
            channel: 270,
            ..STATION
        },
        Station {
            id: 5,
            channel: 272,
            ..STATION
        },
    ]);
    refused(
        &Question::Move {
            id: 3,
            channel: 270,
        },
        &short,
        20,
        2,
    );
    refused(
        &Question::Move {
            id: 5,
            channel: 272,
        },
        &short,
        20,
        1,
    );
    granted(
        &Question::Move {
            id: 3,
            channel: 268,
        },
        &short,
        8 + 16 * 3,
    );
    // A fixed station and one at or below 220 stand in the way as well.
    let table = image_of(&[
        Station {
            id: 1,
            channel: 240,
            flags: 1,
            ..STATION
        },
        Station {
            id: 3,
            channel: 270,
            ..STATION
        },
        Station {
            id: 5,
            channel: 220,
            ..STATION
        },
    ]);
    refused(
        &Question::Move {
            id: 3,
            channel: 240,
        },
        &table,
        20,
        0,
    );
    refused(
        &Question::Move {
            id: 3,
            channel: 223,
        },
        &table,
        20,
        2,
    );
    refused(
        &Question::Move {
            id: 3,
            channel: 274,
        },
        &table,
        20,
        2,
    );
    granted(
        &Question::Move {
            id: 3,
            channel: 224,
        },
        &table,
        8 + 16 * 3,
    );
    // A full table is no matter of Move, nor is the line between the versions.
    let to = |id, channel| Question::Move { id, channel };
    refused(&to(10, 250), &table_of(LIMIT), 20, 1);
    refused(&to(40_000, 250), &table_of(LIMIT), 20, 0);
    refused(&to(10, 250), &near(LIMIT, &[0, 3_999]), 20, 3_999);
    refused(&to(40_000, 250), &near(LIMIT, &[2_000, 3_999]), 20, 2_000);
    for count in [LINE, LINE + 1, LIMIT] {
        for id in [10, 20_000, 10 * count as u32] {
            granted(&to(id, 260), &table_of(count), bytes_of(count));
        }
    }
}

/// A table of 4,000 is full, whatever the room; one of 2,000 is not.
#[test]
fn refusal_21() {
    for id in [1, 15, 20_005, 40_001] {
        refused(&add(id, SPACED), &table_of(LIMIT), 21, 0);
        let outcome = agree_in(&add(id, SPACED), &table_of(LIMIT), IMAGE + 16, 0);
        let refusal = Answer::Refused {
            number: 21,
            extra: 0,
        };
        assert_eq!(outcome.answer, refusal);
        assert!(outcome.untouched());
        for count in [LINE - 1, LINE, LINE + 1, LIMIT - 1] {
            granted(&add(id, SPACED), &table_of(count), bytes_of(count + 1));
        }
    }
}

#[test]
fn refusal_22() {
    for standard in [1, 2] {
        let terms = |aside| Terms::new(aside, standard);
        // Check: three numbers for each short station. The reason is never refused for its room.
        let [check, _, reason] = studies(250, class_a(0, 0), terms(0));
        for (table, count, place) in [
            (image_of(&[]), 0, 0),
            (table_of_one(250, 0, 0, 0), 3, 8),
            (table_of(LINE), 6_000, 8),
            (table_of(LIMIT), 12_000, 8),
        ] {
            granted(&check, &table, count);
            granted(&reason, &table, place);
        }
        // Arrange: the paper's counts.
        let arrange = |aside| Question::arrange(221, 300, class_a(0, 0), terms(aside));
        granted(&arrange(0), &image_of(&[]), 240);
        granted(&arrange(0), &table_of_one(260, 0, 0, 0), 3 * 584);
        granted(&arrange(0), &table_of(LIMIT), 3 * 73);
        // With a station left aside, the room is that of the table without it.
        granted(&arrange(7), &table_of_one(260, 0, 0, 0), 240);
        for aside in [10, 20_000, 20_010, 40_000] {
            let [check, _, reason] = studies(250, class_a(0, 0), terms(aside));
            granted(&check, &table_of(LIMIT), 11_997);
            granted(&arrange(aside), &table_of(LIMIT), 3 * 73);
            granted(&reason, &table_of(LIMIT), if aside == 10 { 24 } else { 8 });
        }
        let [_, one, _] = studies(260, class_a(0, 0), terms(0));
        granted(&one, &table_of_one(260, 0, 0, 0), 3 * 73);
        granted(
            &one,
            &image_of(&[Station {
                channel: 260,
                flags: 1,
                ..STATION
            }]),
            0,
        );
    }
    // The images: 16 bytes more, 16 less, as many.
    granted(
        &Question::Add {
            id: 9,
            channel: 230,
            proposal: class_a(200_000, 0),
        },
        &two(),
        56,
    );
    granted(&Question::Withdraw { id: 7 }, &two(), 24);
    granted(
        &Question::Withdraw { id: 7 },
        &table_of_one(250, 0, 0, 0),
        8,
    );
    granted(
        &Question::Move {
            id: 7,
            channel: 260,
        },
        &two(),
        40,
    );
    for count in [LINE, LINE + 1, LINE + 2, LIMIT] {
        for id in [10, 20_000, 10 * count as u32] {
            let withdraw = Question::Withdraw { id };
            granted(&withdraw, &table_of(count), bytes_of(count - 1));
        }
    }
}

#[test]
fn refusal_23() {
    let tables = [table_of(0), two(), table_of(LINE), table_of(LIMIT)];
    for table in &tables {
        for id in [0, 1, 9, 20_001, 40_001, u32::MAX] {
            refused(&Question::Withdraw { id }, table, 23, 0);
            for channel in [221, 250, 300] {
                refused(&Question::Move { id, channel }, table, 23, 0);
            }
        }
    }
    // A nonzero id that the studies should leave aside, before the room that their answers at (0, 0) need.
    for table in &tables {
        for aside in [1, 6, 9, 15, 20_001, 40_001, u32::MAX] {
            for (lat, standard) in [(SHORT, 1), (SHORT, 2), (SPACED, 1)] {
                for question in studies(250, class_a(lat, 0), Terms::new(aside, standard)) {
                    refused(&question, table, 23, 0);
                }
            }
        }
    }
    // Id 0 leaves nobody aside; with a station left aside the answer is that of the table without it.
    for (aside, told) in [(0, [3, 3 * 73, 8]), (7, [0, 3, 0]), (8, [3, 3 * 73, 8])] {
        studies_granted(250, class_a(0, 0), aside, &two(), told);
    }
    // Withdraw takes a fixed station, and one at or below 220.
    let table = image_of(&[
        Station {
            id: 1,
            flags: 1,
            ..STATION
        },
        Station {
            id: 2,
            channel: 201,
            ..STATION
        },
        Station {
            id: 3,
            channel: 220,
            flags: 1,
            ..STATION
        },
    ]);
    for id in 1..=3 {
        granted(&Question::Withdraw { id }, &table, 40);
    }
    // The studies leave them aside as well: each is the only one in the way on a channel, and does not move.
    for (id, channel) in [(1, 250), (2, 254), (3, 221)] {
        let blocked = [3, 0, 8 + 16 * (id - 1)];
        for (aside, told) in [(0, blocked), (id, [0, 3, 0]), (id % 3 + 1, blocked)] {
            studies_granted(channel, class_a(0, 0), aside, &table, told);
        }
    }
}

#[test]
fn refusal_24() {
    let far = |lat1, lon1, lat2, lon2| {
        refused(
            &Question::Distance {
                lat1,
                lon1,
                lat2,
                lon2,
            },
            &[],
            24,
            0,
        )
    };
    far(0, 0, 0, 648_000);
    far(0, 0, 0, -648_000);
    far(0, -324_000, 0, 324_000);
    far(0, -324_000, 0, 324_001);
    far(270_000, -648_000, -270_000, 648_000);
    far(-270_000, 0, 270_000, 0);
    // Along the equator 15,377 seconds are the last that round to 475 km, also across the 180th meridian.
    for (lon1, lon2, farther) in [
        (0, 15_377, 15_378),
        (647_000, -633_623, -633_622),
        (648_000, -632_623, -632_622),
        (-648_000, 632_623, 632_622),
        (-648_000, -632_623, -632_622),
    ] {
        let near = Question::Distance {
            lat1: 0,
            lon1,
            lat2: 0,
            lon2,
        };
        assert_eq!(agree_in(&near, &[], 0, 0).answer, Answer::Granted(475));
        far(0, lon1, 0, farther);
        far(0, farther, 0, lon1);
    }
}

/// Not movable: fixed, or at or below 220; before short and before the room, even on its own channel. Another one, at the site of
/// the first and on its channel, is of another class.
#[test]
fn refusal_25() {
    let table = image_of(&[
        Station {
            id: 1,
            channel: 240,
            flags: 1,
            ..STATION
        },
        Station {
            id: 2,
            channel: 220,
            ..STATION
        },
        Station {
            id: 3,
            channel: 201,
            flags: 1,
            ..STATION
        },
        Station {
            id: 4,
            channel: 240,
            class: 1,
            ..STATION
        },
        Station {
            id: 5,
            channel: 221,
            ..STATION
        },
    ]);
    for channel in [221, 240, 260, 300] {
        refused(&Question::Move { id: 1, channel }, &table, 25, 0);
        refused(&Question::Move { id: 2, channel }, &table, 25, 1);
        refused(&Question::Move { id: 3, channel }, &table, 25, 2);
    }
    refused(
        &Question::Move {
            id: 2,
            channel: 220,
        },
        &table,
        13,
        0,
    );
    refused(
        &Question::Move {
            id: 3,
            channel: 201,
        },
        &table,
        13,
        0,
    );
    refused(
        &Question::Move {
            id: 4,
            channel: 240,
        },
        &table,
        20,
        0,
    );
    granted(
        &Question::Move {
            id: 4,
            channel: 260,
        },
        &table,
        8 + 16 * 5,
    );
    granted(
        &Question::Move {
            id: 5,
            channel: 300,
        },
        &table,
        8 + 16 * 5,
    );
}

/// Numbers that are no standard, also such as are one if they are cut to fewer bits.
const NO_STANDARDS: [u32; 8] = [
    0,
    3,
    255,
    256 + 1,
    256 + 2,
    65_536 + 1,
    65_536 + 2,
    u32::MAX,
];

/// A standard that is neither 1 nor 2: after a class that the zone does not permit; before a site that is out of range, before an
/// id that is absent, and before the room.
#[test]
fn refusal_26() {
    for table in [table_of(0), two(), table_of(LINE), table_of(LIMIT)] {
        for standard in NO_STANDARDS {
            for lat in [SHORT, SPACED, 270_001] {
                // Nobody, one of the table of two, one of the dense tables, and one that is absent from all.
                for aside in [0, 7, 10, 9] {
                    let terms = Terms::new(aside, standard);
                    for question in studies(250, class_a(lat, 0), terms) {
                        refused(&question, &table, 26, 0);
                    }
                    let not_permitted = Proposal {
                        station_class: 1,
                        ..class_a(lat, 0)
                    };
                    for question in studies(250, not_permitted, terms) {
                        refused(&question, &table, 16, 0);
                    }
                }
            }
            let terms = Terms::new(0, standard);
            let arrange = Question::arrange(221, 300, class_a(0, 0), terms);
            refused(&arrange, &table, 26, 0);
        }
    }
    // Right standards, at the same places: the site comes next, then the id that is absent, then the room.
    for standard in [1, 2] {
        for aside in [0, 7, 9] {
            let terms = Terms::new(aside, standard);
            for question in studies(250, class_a(270_001, 0), terms) {
                refused(&question, &two(), 17, 0);
            }
        }
        for question in studies(250, class_a(SHORT, 0), Terms::new(9, standard)) {
            refused(&question, &two(), 23, 0);
        }
    }
    studies_granted(250, class_a(SHORT, 0), 0, &two(), [3, 3 * 73, 8]);
}

/// Questions, each with the refusal that it gets on a table that begins with STATION, fixed, and has no id 9.
fn questions_with_a_fault() -> Vec<(Question, u32)> {
    let right = class_a(SPACED, 0);
    let plain = Terms::new(0, 1);
    let add = |id, channel, proposal| Question::Add {
        id,
        channel,
        proposal,
    };
    let to = |id, channel| Question::Move { id, channel };
    let mut questions = vec![
        (add(9, 220, right), 13),
        (add(0, 250, right), 18),
        (add(7, 250, right), 19),
        (add(9, 250, class_a(SHORT, 0)), 20),
        (Question::Withdraw { id: 9 }, 23),
        (to(7, 220), 13),
        (to(9, 250), 23),
        (to(7, 260), 25),
        (Question::arrange(251, 250, right, plain), 13),
    ];
    let study = |channel, proposal, terms, number| {
        studies(channel, proposal, terms).map(|question| (question, number))
    };
    questions.extend(study(301, right, plain, 13));
    for (aside, standard, number) in [(9, 1, 23), (0, 0, 26), (9, 3, 26)] {
        questions.extend(study(250, right, Terms::new(aside, standard), number));
    }
    let wrong = [(8, 3, 0), (0, 0, 0), (1, 3, 0), (0, 3, 270_001)];
    for ((station_class, zone, lat), number) in wrong.into_iter().zip(14..) {
        let proposal = Proposal {
            station_class,
            zone,
            lat,
            lon: 0,
        };
        questions.extend(study(250, proposal, plain, number));
        questions.push((add(9, 250, proposal), number));
    }
    questions
}

/// Stations with the ids 7, 17, 27 and so on in the place of their own.
fn numbered(stations: &[Station]) -> Vec<Station> {
    let ids = (STATION.id..).step_by(10);
    ids.zip(stations)
        .map(|(id, &station)| Station { id, ..station })
        .collect()
}

/// A dense table in which a later station repeats an earlier one, and is fixed.
fn repeating(count: usize, earlier: usize, later: usize) -> Vec<u8> {
    let mut stations = dense(count, 0);
    stations[later] = Station {
        id: stations[later].id,
        flags: 1,
        ..stations[earlier]
    };
    image_of(&stations)
}

/// A record that agrees with an earlier one in channel, class, latitude and longitude: the position of the first that does. Flags
/// and ids are no matter.
#[test]
fn refusal_27() {
    let [a, b, c] = [(250, 0), (240, 50_000), (230, -50_000)].map(|(channel, lat)| Station {
        channel,
        lat,
        ..STATION
    });
    for (stations, position) in [
        (&[a, a][..], 1),
        (&[a, a, a], 1),
        (&[a, b, a], 2),
        (&[a, b, b], 2),
        (&[a, b, c, a], 3),
        (&[a, b, a, b], 2),
        (&[a, b, b, a], 2),
        (&[a, b, c, c, a, b, a], 3),
    ] {
        let mut stations = numbered(stations);
        table_refused(&image_of(&stations), 27, position);
        for place in 0..stations.len() {
            stations[place].flags = 1;
            table_refused(&image_of(&stations), 27, position);
        }
        for station in &mut stations[position as usize..] {
            station.id += 1_000_000_000;
        }
        table_refused(&image_of(&stations), 27, position);
    }
    for (count, earlier, later) in [
        (LINE, 0, LINE - 1),
        (LINE, LINE - 2, LINE - 1),
        (LINE + 1, 0, LINE),
        (LIMIT, 0, 1),
        (LIMIT, LINE - 1, LINE),
        (LIMIT, 1, LIMIT - 1),
        (LIMIT, LIMIT - 2, LIMIT - 1),
    ] {
        table_refused(&repeating(count, earlier, later), 27, later as u32);
    }
}

/// It comes before all that a question can be refused with for itself.
#[test]
fn refusal_27_before_the_question() {
    let fixed = Station {
        flags: 1,
        ..STATION
    };
    let other = Station {
        channel: 240,
        lat: 50_000,
        ..STATION
    };
    let [without, with] = [&[fixed, other][..], &[fixed, other, STATION]]
        .map(|stations| image_of(&numbered(stations)));
    for (question, number) in questions_with_a_fault() {
        refused(&question, &without, number, 0);
        refused(&question, &with, 27, 2);
    }
    for id in [1, 40_001] {
        refused(&add(id, SPACED), &table_of(LIMIT), 21, 0);
        refused(&add(id, SPACED), &repeating(LIMIT, 0, 9), 27, 9);
    }
}

/// Also at or below 220, and at the ends of the ranges.
#[test]
fn refusal_27_everywhere() {
    for channel in [201, 220, 221, 300] {
        for (class, lat, lon) in [
            (0, 0, 0),
            (7, 270_000, 648_000),
            (3, -270_000, -648_000),
            (5, 270_000, -648_000),
        ] {
            let station = Station {
                channel,
                class,
                lat,
                lon,
                ..STATION
            };
            let table = image_of(&numbered(&[station, STATION, station]));
            table_refused(&table, 27, 2);
        }
    }
}

/// Faults of the header come before it, and those of every record, also of one behind the repeat.
#[test]
fn refusal_27_after_the_records() {
    let repeat = image_of(&numbered(&[STATION; 2]));
    table_refused(&repeat[..7], 1, 0);
    for (at, byte, number) in [(0, b'X', 2), (4, 3, 3), (5, 1, 4), (4, 2, 5), (7, 3, 6)] {
        table_refused(&put(&repeat, &[(at, &[byte])]), number, 0);
    }
    let far = [270_001i32, 648_001].map(i32::to_be_bytes);
    let faults: [(usize, &[u8], u32); 6] = [
        (0, &[0; 4], 7),
        (4, &[1, 45], 8),
        (6, &[8], 9),
        (7, &[2], 10),
        (8, &far[0], 11),
        (12, &far[1], 12),
    ];
    for (offset, bytes, number) in faults {
        // In each record of four, of which the second repeats the first, and in the last of a full table.
        let four = image_of(&numbered(&[STATION; 4]));
        let full = repeating(LIMIT, 0, 1);
        for (table, positions) in [(four, 0..4), (full, LIMIT - 1..LIMIT)] {
            for position in positions {
                let fault = put(&table, &[(8 + 16 * position + offset, bytes)]);
                table_refused(&fault, number, position as u32);
            }
        }
    }
}

/// Stations that differ in one of the four alone are no repeats: by one, by a higher bit, by the sign, also where that makes one
/// meridian of two numbers.
#[test]
fn no_refusal_27() {
    let station = Station {
        channel: 220,
        class: 7,
        lat: 270_000,
        lon: 648_000,
        ..STATION
    };
    let changes: [fn(&mut Station); 10] = [
        |other| other.channel += 1,
        |other| other.channel -= 16,
        |other| other.class -= 1,
        |other| other.class -= 4,
        |other| other.lat -= 1,
        |other| other.lat -= 65_536,
        |other| other.lat = -other.lat,
        |other| other.lon -= 1,
        |other| other.lon -= 65_536,
        |other| other.lon = -other.lon,
    ];
    let mut all = vec![station];
    for change in changes {
        let mut other = station;
        change(&mut other);
        for pair in [[station, other], [other, station]] {
            let table = image_of(&numbered(&pair));
            read(&table, 2);
            granted(&Question::Withdraw { id: 7 }, &table, 24);
        }
        all.push(other);
    }
    read(&image_of(&numbered(&all)), all.len());
}
