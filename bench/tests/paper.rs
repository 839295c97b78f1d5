//! The cases of the paper, through the proved library.

mod common;

use common::{agree, class_a, dense, held, table_of_one, LIMIT, LINE};
use fms_bench::naive::{degrees, image_of, short, squared, Station};
use fms_bench::question::{Answer, Proposal, Question, Terms};

const A: u32 = 0;
const C: u32 = 7;

/// Nobody left aside, by Table A and by the lesser table.
const BY_TABLE_A: Terms = Terms::new(0, 1);
const BY_LESSER: Terms = Terms::new(0, 2);

/// Whether two stations of one class are short by Table A.
fn is_short(class: u32, difference: u32, first: (i32, i32), second: (i32, i32)) -> bool {
    short_on(BY_TABLE_A, class, difference, first, second)
}

/// Whether two stations of one class are short on some terms, asked of Check and for the reason from either end.
fn short_on(
    terms: Terms,
    class: u32,
    difference: u32,
    first: (i32, i32),
    second: (i32, i32),
) -> bool {
    let mut verdicts = Vec::new();
    for (there, here) in [(first, second), (second, first)] {
        for (station, asked) in [(221, 221 + difference), (221 + difference, 221)] {
            let table = table_of_one(station, class, there.0, there.1);
            let proposal = Proposal {
                station_class: class,
                zone: 3,
                lat: here.0,
                lon: here.1,
            };
            let check = agree(&Question::check(asked, proposal, terms), &table);
            let reason = agree(&Question::reason(asked, proposal, terms), &table);
            verdicts.extend([!check.list().is_empty(), reason.reason().is_some()]);
        }
    }
    assert!(
        verdicts.iter().all(|&verdict| verdict == verdicts[0]),
        "the order of the pair matters"
    );
    verdicts[0]
}

#[test]
fn p1_to_p10() {
    assert!(is_short(A, 0, (0, 0), (0, 3_702)));
    assert!(!is_short(A, 0, (0, 0), (0, 3_703)));
    assert!(is_short(A, 2, (0, 0), (0, 986)));
    assert!(!is_short(A, 2, (0, 0), (0, 987)));
    assert!(is_short(A, 53, (0, 0), (0, 307)));
    assert!(!is_short(A, 53, (0, 0), (0, 308)));
    assert!(is_short(C, 0, (4_712, 0), (-4_712, 0)));
    assert!(!is_short(C, 0, (4_713, 0), (-4_713, 0)));
    assert!(!is_short(A, 4, (0, 0), (0, 0)));
    assert!(!is_short(A, 52, (0, 0), (0, 0)));
}

/// Two stations on 220 at one site, of two classes, never meet in a question: the table is read, a proposal on 220 is refused.
#[test]
fn p11() {
    let station = Station {
        id: 7,
        channel: 220,
        class: A,
        flags: 0,
        lat: 0,
        lon: 0,
    };
    assert!(!short(&station, &station, 1) && !short(&station, &station, 2));
    let other = Station {
        id: 8,
        class: C,
        ..station
    };
    assert!(!short(&station, &other, 1) && !short(&station, &other, 2));
    let table = image_of(&[station, other]);
    assert_eq!(agree(&Question::Read, &table).answer, Answer::Granted(2));
    let [check, reason] = [Question::check, Question::reason];
    for ask in [check, reason] {
        let refusal = Answer::Refused {
            number: 13,
            extra: 0,
        };
        assert_eq!(
            agree(&ask(220, class_a(0, 0), BY_TABLE_A), &table).answer,
            refusal
        );
    }
    let found = agree(&check(221, class_a(0, 0), BY_TABLE_A), &table);
    assert_eq!(found.list(), [7, 0, 72, 8, 0, 165]);
    let found = agree(&reason(221, class_a(0, 0), BY_TABLE_A), &table);
    assert_eq!(found.reason(), Some((24, [8, 0, 165, 1])));
}

#[test]
fn p12() {
    let question = Question::Distance {
        lat1: 0,
        lon1: 0,
        lat2: 0,
        lon2: 3_600,
    };
    assert_eq!(agree(&question, &[]).answer, Answer::Granted(111));
}

/// Lines held up to each other: at (0, 3702) EW is 1,144,747; at (0, 3703) it is 1,145,057.
#[test]
fn decimetres_of_p1_and_p2() {
    assert_eq!(squared(0, 0, 0, 3_702), 1_144_747 * 1_144_747);
    assert_eq!(squared(0, 0, 0, 3_703), 1_145_057 * 1_145_057);
}

/// Differences 0 to 79 at one site: short at 0, 1, 2, 3, 53 and 54 alone, by the separation for two of class A in its column.
#[test]
fn differences() {
    for difference in 0..=79 {
        let expected = match difference {
            0 => Some([7, 0, 115, 0]),
            1 => Some([7, 0, 72, 1]),
            2 | 3 => Some([7, 0, 31, 2]),
            53 | 54 => Some([7, 0, 10, 3]),
            _ => None,
        };
        assert_eq!(
            is_short(A, difference, (0, 0), (0, 0)),
            expected.is_some(),
            "difference {difference}"
        );
        let reason = Question::reason(221 + difference, class_a(0, 0), BY_TABLE_A);
        let found = agree(&reason, &table_of_one(221, A, 0, 0)).reason();
        assert_eq!(found, expected.map(|numbers| (8, numbers)));
    }
}

#[test]
fn whole_output() {
    let table = table_of_one(250, A, 0, 0);
    let check = Question::check(250, class_a(0, 3_702), BY_TABLE_A);
    assert_eq!(agree(&check, &table).list(), [7, 114, 115]);
    let reason = Question::reason(250, class_a(0, 3_702), BY_TABLE_A);
    assert_eq!(agree(&reason, &table).reason(), Some((8, [7, 114, 115, 0])));
}

/// The rows of Arrange over the whole range for class A at (0, 0) in zone 3.
fn arrangements(table: &[u8]) -> Vec<[u32; 3]> {
    let question = Question::arrange(221, 300, class_a(0, 0), BY_TABLE_A);
    agree(&question, table)
        .list()
        .chunks(3)
        .map(|row| [row[0], row[1], row[2]])
        .collect()
}

#[test]
fn arrange_on_an_empty_table() {
    let rows = arrangements(&image_of(&[]));
    assert_eq!(
        rows,
        (221..=300)
            .map(|channel| [channel, 0, 0])
            .collect::<Vec<_>>()
    );
}

#[test]
fn arrange_beside_a_movable_station() {
    let rows = arrangements(&table_of_one(260, A, 0, 0));
    assert_eq!(rows.len(), 584);
    assert_eq!(rows.iter().filter(|row| row[1] == 0).count(), 73);
    for channel in 257..=263 {
        assert_eq!(
            rows.iter()
                .filter(|row| row[0] == channel && row[1] == 7)
                .count(),
            73
        );
    }
    assert_eq!(rows.iter().find(|row| row[1] != 0), Some(&[257, 7, 221]));
}

#[test]
fn arrange_beside_a_fixed_station() {
    let table = image_of(&[Station {
        id: 7,
        channel: 260,
        class: A,
        flags: 1,
        lat: 0,
        lon: 0,
    }]);
    let rows = arrangements(&table);
    assert_eq!(rows.len(), 73);
    assert!(rows
        .iter()
        .all(|row| row[1] == 0 && row[2] == 0 && !(257..=263).contains(&row[0])));
}

/// a movable class A station, id 7, on 260 at (0, 0), and a class A proposal there in zone I. With 7 left aside every channel is
/// free, nothing is short and all is clear; 8 is absent.
#[test]
fn own_change_of_site() {
    let table = table_of_one(260, A, 0, 0);
    let proposal = Proposal {
        zone: 1,
        ..class_a(0, 0)
    };
    let terms = |aside| Terms::new(aside, 1);
    let arranged = |aside| agree(&Question::arrange(221, 300, proposal, terms(aside)), &table);
    let checked = |channel, aside| agree(&Question::check(channel, proposal, terms(aside)), &table);
    let reasoned =
        |channel, aside| agree(&Question::reason(channel, proposal, terms(aside)), &table);
    let free: Vec<u32> = (221..=300).flat_map(|channel| [channel, 0, 0]).collect();
    assert_eq!(arranged(7).list(), free);
    assert_eq!(arranged(0).list().len(), 3 * 584);
    for channel in 221..=300 {
        assert_eq!(checked(channel, 7).list(), []);
        assert_eq!(reasoned(channel, 7).reason(), None);
    }
    assert_eq!(checked(260, 0).list(), [7, 0, 115]);
    assert_eq!(reasoned(260, 0).reason(), Some((8, [7, 0, 115, 0])));
    let absent = Answer::Refused {
        number: 23,
        extra: 0,
    };
    assert_eq!(arranged(8).answer, absent);
    assert_eq!(checked(260, 8).answer, absent);
    assert_eq!(reasoned(260, 8).answer, absent);
}

/// A movable class A station on the equator.
fn movable(id: u32, channel: u32, lon: i32) -> Station {
    Station {
        id,
        channel,
        class: A,
        flags: 0,
        lat: 0,
        lon,
    }
}

/// Who moves where for a class A proposal at (0, 0) on a channel; (0, 0) where nobody has to.
fn moves(table: &[u8], channel: u32, terms: Terms) -> Vec<(u32, u32)> {
    let question = Question::arrange(channel, channel, class_a(0, 0), terms);
    let rows = agree(&question, table).list().to_vec();
    rows.chunks(3).map(|row| (row[1], row[2])).collect()
}

/// Station 7 to every channel that is good.
fn seven_to(good: impl Fn(u32) -> bool) -> Vec<(u32, u32)> {
    let channels = (221..=300).filter(|&channel| good(channel));
    channels.map(|channel| (7, channel)).collect()
}

/// the record left aside neither blocks, nor moves, nor restrains a station that moves.
#[test]
fn a_station_left_aside_restrains_nobody() {
    let table = image_of(&[movable(7, 260, 0), movable(9, 230, 0)]);
    let moves = |channel, aside| moves(&table, channel, Terms::new(aside, 1));
    // On 260 station 7 may go to any channel that is spaced from the new one, and from 9 where that one is not left aside.
    let spaced = |channel: u32, from: u32| !matches!(channel.abs_diff(from), 0..=3 | 53 | 54);
    let away =
        |others: &[u32]| seven_to(|channel| others.iter().all(|&other| spaced(channel, other)));
    assert_eq!(moves(260, 0), away(&[260, 230]));
    assert_eq!(moves(260, 9), away(&[260]));
    assert_eq!(moves(260, 7), [(0, 0)]);
    assert_eq!(moves(230, 9), [(0, 0)]);
}

/// neither the first, nor the nearest, nor the one with the largest separation, but the one with the largest shortfall; the
/// lowest id among equals; and the next one where that is left aside, its bytes still where they lie in the lent table.
#[test]
fn the_largest_shortfall() {
    let station = |id, channel, class, lon| Station {
        id,
        channel,
        class,
        flags: 0,
        lat: 0,
        lon,
    };
    // D is 0, 43, 115, 0, 79 and 0; R is 31, 115, 165, 72, 115 and 10: short by 31, 72, 50, 72, 36 and 10.
    let table = image_of(&[
        station(2, 258, A, 0),
        station(4, 256, A, 1_391),
        station(6, 257, C, 3_719),
        station(8, 255, A, 0),
        station(10, 256, A, -2_555),
        station(12, 203, A, 0),
    ]);
    let rows = agree(&Question::check(256, class_a(0, 0), BY_TABLE_A), &table);
    let shortfalls = rows.list().chunks(3).map(|row| row[2] - row[1]);
    assert_eq!(shortfalls.collect::<Vec<_>>(), [31, 72, 50, 72, 36, 10]);
    let reason = |aside| {
        let question = Question::reason(256, class_a(0, 0), Terms::new(aside, 1));
        agree(&question, &table).reason()
    };
    assert_eq!(reason(0), Some((24, [4, 43, 115, 0])));
    assert_eq!(reason(4), Some((56, [8, 0, 72, 1])));
    for other in [2, 6, 8, 10, 12] {
        assert_eq!(reason(other), reason(0));
    }
}

/// The bytes of a table with another version and count, and with records in the place of some from a position on.
fn changed(
    table: &[u8],
    version: u8,
    count: usize,
    position: usize,
    gone: usize,
    records: &[u8],
) -> Vec<u8> {
    let mut image = table.to_vec();
    image[4] = version;
    image[6..8].copy_from_slice(&(count as u16).to_be_bytes());
    let place = 8 + 16 * position;
    image.splice(place..place + 16 * gone, records.iter().copied());
    image
}

/// version 1 carries up to 2,000 stations and version 2 carries 2,001 to 4,000, in the same layout. Add and Withdraw write the
/// version of the new count, and Move the one that it finds; no other byte of the table changes.
#[test]
fn four_thousand_stations() {
    for (count, version, added, withdrawn) in [
        (LINE - 1, 1, Some(1), 1),
        (LINE, 1, Some(2), 1),
        (LINE + 1, 2, Some(2), 1),
        (LINE + 2, 2, Some(2), 2),
        (LIMIT - 1, 2, Some(2), 2),
        (LIMIT, 2, None, 2),
    ] {
        let stations = dense(count, 0);
        let table = image_of(&stations);
        let [high, low] = (count as u16).to_be_bytes();
        assert_eq!(table[..8], [b'F', b'M', b'S', 0, version, 0, high, low]);
        let read = agree(&Question::Read, &table).answer;
        assert_eq!(read, Answer::Granted(count as u32));
        let record = |station| image_of(&[station])[8..].to_vec();
        for position in [0, 1, LINE - 2, count - 2, count - 1] {
            let Station { id, .. } = stations[position];
            let told = agree(&Question::Withdraw { id }, &table);
            let without = changed(&table, withdrawn, count - 1, position, 1, &[]);
            assert_eq!(told.image(), without);

            let channel = 260;
            let told = agree(&Question::Move { id, channel }, &table);
            let moved = record(Station {
                channel,
                ..stations[position]
            });
            let with = changed(&table, version, count, position, 1, &moved);
            assert_eq!(told.image(), with);

            let id = id + 1;
            let add = Question::Add {
                id,
                channel,
                proposal: class_a(0, 0),
            };
            let told = agree(&add, &table);
            let Some(added) = added else {
                let refusal = Answer::Refused {
                    number: 21,
                    extra: 0,
                };
                assert_eq!(told.answer, refusal);
                continue;
            };
            let new = record(Station {
                id,
                channel,
                ..stations[0]
            });
            let with = changed(&table, added, count + 1, position + 1, 0, &new);
            assert_eq!(told.image(), with);
        }
    }
}

/// The answer of the distance question, the same from either site.
fn distance(first: (i32, i32), second: (i32, i32)) -> Answer {
    let [there, back] = [(first, second), (second, first)].map(|(one, other)| {
        let question = Question::Distance {
            lat1: one.0,
            lon1: one.1,
            lat2: other.0,
            lon2: other.1,
        };
        agree(&question, &[]).answer
    });
    assert_eq!(there, back);
    there
}

/// a longitude difference over 648,000 is replaced by 1,296,000 less it. Longitudes 647,990 and -647,990 differ by 20 seconds;
/// 648,000 and -648,000 by none; half the circle stays what it is, and is too far.
#[test]
fn the_short_way_round() {
    let (_, q) = degrees(0);
    for (lon1, lon2, seconds) in [
        (647_990, -647_990, 20),
        (648_000, -648_000, 0),
        (648_000, -647_999, 1),
        (0, 648_000, 648_000),
        (0, -648_000, 648_000),
        (-324_000, 324_000, 648_000),
        (-324_000, 324_001, 647_999),
        (-324_000, 323_999, 647_999),
        (-200_000, 200_000, 400_000),
        (-500_000, 500_000, 296_000),
    ] {
        let ew = seconds * q / 3_600_000;
        assert_eq!(squared(0, lon1, 0, lon2), ew * ew);
        assert_eq!(squared(0, lon2, 0, lon1), ew * ew);
    }
    let too_far = Answer::Refused {
        number: 24,
        extra: 0,
    };
    for lat in [-270_000, -186_720, -1, 0, 1, 186_720, 270_000] {
        let [east, west] = [(lat, 647_990), (lat, -647_990)];
        assert_eq!(distance(east, west), distance((lat, 0), (lat, 20)));
        let one_meridian = distance((lat, 648_000), (lat, -648_000));
        assert_eq!(one_meridian, Answer::Granted(0));
        for lon in [-648_000, 648_000] {
            assert_eq!(distance((lat, 0), (lat, lon)), too_far);
        }
    }
    // P12 and P1 to P8 with the meridian between the two sites, or as one end of the way.
    for east in [0, 1, 1_800, 3_599, 3_600] {
        let [first, second] = [(0, 648_000 - east), (0, 3_600 - 648_000 - east)];
        assert_eq!(distance(first, second), Answer::Granted(111));
    }
    for (difference, seconds) in [(0, 3_702), (2, 986), (53, 307)] {
        let east = |seconds| (0, seconds - 648_100);
        assert!(is_short(A, difference, (0, 647_900), east(seconds)));
        assert!(!is_short(A, difference, (0, 647_900), east(seconds + 1)));
    }
    assert!(is_short(C, 0, (4_712, 648_000), (-4_712, -648_000)));
    assert!(!is_short(C, 0, (4_713, 648_000), (-4_713, -648_000)));
}

/// a station at 51-52-00 N, 179-59-51 W, and a class A proposal ten seconds of longitude west of it, at 179-59-59 E; and the
/// other way about.
#[test]
fn the_far_aleutians() {
    let (lat, west, east) = (186_720, -647_991, 647_999);
    for (there, here) in [(west, east), (east, west)] {
        let table = table_of_one(250, A, lat, there);
        let proposal = class_a(lat, here);
        let check = agree(&Question::check(250, proposal, BY_TABLE_A), &table);
        assert_eq!(check.list(), [7, 0, 115]);
        let reason = agree(&Question::reason(250, proposal, BY_TABLE_A), &table);
        assert_eq!(reason.reason(), Some((8, [7, 0, 115, 0])));
        let add = Question::Add {
            id: 9,
            channel: 250,
            proposal,
        };
        let short = Answer::Refused {
            number: 20,
            extra: 0,
        };
        assert_eq!(agree(&add, &table).answer, short);
        let arrange = Question::arrange(250, 250, proposal, BY_TABLE_A);
        let rows = agree(&arrange, &table);
        assert_eq!(rows.list().len(), 3 * 73);
        assert_eq!(rows.list()[..3], [250, 7, 221]);
    }
}

/// the last seconds of the equator at which two of one class are short, by Table A and by the lesser table of §73.215(e): the
/// first three columns are less, the fourth is the same.
#[test]
fn the_lesser_separations() {
    for (class, difference, by_table_a, by_lesser) in [
        (A, 0, 3_702, 2_959),
        (A, 1, 2_312, 1_568),
        (A, 2, 986, 792),
        (A, 3, 986, 792),
        (A, 53, 307, 307),
        (A, 54, 307, 307),
        (C, 0, 9_362, 8_715),
        (C, 1, 7_777, 6_742),
        (C, 3, 3_379, 3_185),
        (C, 53, 1_536, 1_536),
    ] {
        for (terms, seconds) in [(BY_TABLE_A, by_table_a), (BY_LESSER, by_lesser)] {
            let short = |seconds| short_on(terms, class, difference, (0, 0), (0, seconds));
            assert!(short(seconds) && !short(seconds + 1), "{terms:?}");
        }
    }
    assert!(short_on(
        BY_LESSER,
        A,
        0,
        (0, 647_900),
        (0, 2_959 - 648_100)
    ));
    assert!(!short_on(
        BY_LESSER,
        A,
        0,
        (0, 647_900),
        (0, 2_960 - 648_100)
    ));
}

/// the paper's pair is short by Table A alone; nearer, it is short by both, each with its own R. Add and Move go by Table A.
#[test]
fn a_pair_by_either_standard() {
    let table = table_of_one(250, A, 0, 0);
    for (lon, d, by_table_a, by_lesser) in [
        (3_703, 115, None, None),
        (3_702, 114, Some(115), None),
        (2_960, 92, Some(115), None),
        (2_959, 91, Some(115), Some(92)),
        (1, 0, Some(115), Some(92)),
    ] {
        let proposal = class_a(0, lon);
        for (terms, r) in [(BY_TABLE_A, by_table_a), (BY_LESSER, by_lesser)] {
            let check = agree(&Question::check(250, proposal, terms), &table);
            assert_eq!(check.list(), r.map_or(vec![], |r| vec![7, d, r]));
            let reason = agree(&Question::reason(250, proposal, terms), &table);
            assert_eq!(reason.reason(), r.map(|r| (8, [7, d, r, 0])));
        }
        let refused = Answer::Refused {
            number: 20,
            extra: 0,
        };
        let changed = |count| by_table_a.map_or(Answer::Granted(count), |_| refused);
        let (id, channel) = (9, 250);
        let add = Question::Add {
            id,
            channel,
            proposal,
        };
        assert_eq!(agree(&add, &table).answer, changed(40));
        let both = image_of(&[movable(7, channel, 0), movable(id, channel, lon)]);
        let stay = Question::Move { id, channel };
        assert_eq!(agree(&stay, &both).answer, changed(40));
    }
}

/// at 100 km on the channel asked for one station is short by 15 by Table A, and is not by the lesser table; another, at the
/// site and 53 channels below, is short by 10 by either.
#[test]
fn the_reason_by_either_standard() {
    let table = image_of(&[movable(2, 207, 0), movable(4, 260, 3_234)]);
    let reason = |terms| agree(&Question::reason(260, class_a(0, 0), terms), &table).reason();
    assert_eq!(reason(BY_TABLE_A), Some((24, [4, 100, 115, 0])));
    assert_eq!(reason(BY_LESSER), Some((8, [2, 0, 10, 3])));
    assert_eq!(reason(Terms::new(2, 2)), None);
}

/// a channel that is had by moving a station by Table A, and is free by the lesser table. Where a station has to move by
/// either, it is held to the new one and to the others by the chosen table.
#[test]
fn arrangements_by_either_standard() {
    let moves = |table: &[u8], terms| moves(table, 260, terms);
    let all_but = |others: &[u32]| seven_to(|channel| !others.contains(&channel));
    let table = table_of_one(260, A, 0, 3_702);
    assert_eq!(moves(&table, BY_TABLE_A), all_but(&[260]));
    assert_eq!(moves(&table, BY_LESSER), [(0, 0)]);
    // Station 7 is 60 km from the site, and station 9 is 93 km from 7.
    let table = image_of(&[movable(7, 260, 1_940), movable(9, 230, 4_940)]);
    assert_eq!(moves(&table, BY_TABLE_A), all_but(&[230, 259, 260, 261]));
    assert_eq!(moves(&table, BY_LESSER), all_but(&[260]));
}

/// a record with the channel, class, latitude and longitude of an earlier one is refused with 27 and its position, whatever
/// its id and its flags; one that differs in any of the four is none, and the two numbers of the 180th meridian are different.
#[test]
fn no_repeats() {
    let station = Station {
        flags: 1,
        lat: 1,
        ..movable(7, 250, 648_000)
    };
    let read = |other: Station| {
        let table = image_of(&[movable(5, 250, 0), station, movable(9, 240, 0), other]);
        held(&Question::Read, &table).answer
    };
    let repeat = Station {
        id: 11,
        flags: 0,
        ..station
    };
    let refusal = Answer::Refused {
        number: 27,
        extra: 3,
    };
    assert_eq!(read(repeat), refusal);
    assert_eq!(read(Station { flags: 1, ..repeat }), refusal);
    for other in [
        Station {
            channel: 251,
            ..repeat
        },
        Station { class: C, ..repeat },
        Station { lat: -1, ..repeat },
        Station {
            lon: 647_999,
            ..repeat
        },
        Station {
            lon: -648_000,
            ..repeat
        },
    ] {
        assert_eq!(read(other), Answer::Granted(4));
    }
}
