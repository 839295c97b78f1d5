//! The proved library and the tuned desk held against the naive one: answers and whole buffers, on made tables.

mod common;

use std::collections::HashSet;

use common::{agree, agree_in, class_a, dense, held, held_in, zone_for, LIMIT, LINE, ROWS};
use fms_bench::made::{
    all_but_repeat, column_of, damaged, near_the_meridian, part, proposal_in, region,
    region_proposals, repeat, scene, scene_of, slow, standard, wrapped, Area, Chance, Manner,
    Scene, COMMON, DAMAGES, DIFFERENCES, LEVEL, MANNERS, SHARED, UNLIKE,
};
use fms_bench::naive::{degrees, image_in, image_of, km, rounded, squared, Station};
use fms_bench::question::{Answer, Proposal, Question, Terms};

/// A proposal near the stations; in one case of eight a wrong one.
fn proposal(chance: &mut Chance, scene: &Scene) -> Proposal {
    let mut proposal = proposal_in(chance, scene.area);
    if chance.once_in(8) {
        match chance.from(0, 3) {
            0 => proposal.station_class = chance.from(0, 9) as u32,
            1 => proposal.zone = chance.from(0, 4) as u32,
            2 => proposal.lat = chance.one_of(&[-270_001, -270_000, 270_000, 270_001]),
            _ => proposal.lon = chance.one_of(&[-648_001, -648_000, 648_000, 648_001]),
        }
    }
    proposal
}

/// A channel, most often one that may be asked for.
fn channel(chance: &mut Chance) -> u32 {
    match chance.from(1, 12) {
        1 => chance.one_of(&[0, 201, 220, 301, 65_786]),
        2 => chance.one_of(&[221, 300]),
        _ => chance.from(221, 300) as u32,
    }
}

/// The channel of a station, where it may be asked for, or any.
fn busy_channel(chance: &mut Chance, scene: &Scene) -> u32 {
    if scene.stations.is_empty() || chance.once_in(2) {
        channel(chance)
    } else {
        chance.one_of(&scene.stations).channel.max(221)
    }
}

/// An id of the table, or another one.
fn id(chance: &mut Chance, scene: &Scene) -> u32 {
    if chance.once_in(16) {
        chance.one_of(&[0, 1, u32::MAX])
    } else if scene.stations.is_empty() || chance.once_in(4) {
        chance.from(0, 5_000) as u32
    } else {
        chance.one_of(&scene.stations).id
    }
}

/// An id to leave aside: none, or one of the table.
fn nobody_or_one(chance: &mut Chance, scene: &Scene) -> u32 {
    match scene.stations.is_empty() || chance.once_in(2) {
        true => 0,
        false => chance.one_of(&scene.stations).id,
    }
}

/// Terms of a study: nobody left aside, or one of the table, or another one; and a standard.
fn terms(chance: &mut Chance, scene: &Scene) -> Terms {
    let aside = if chance.once_in(3) {
        0
    } else {
        id(chance, scene)
    };
    Terms::new(aside, standard(chance))
}

/// The eight questions about one scene.
fn questions(chance: &mut Chance, scene: &Scene) -> Vec<Question> {
    let (first, last) = match chance.from(0, 5) {
        0 => (221, 300),
        1 => (channel(chance), channel(chance)),
        2 => {
            let first = chance.from(221, 300);
            (first as u32, chance.from(first, 300) as u32)
        }
        _ => {
            let one = channel(chance);
            (one, one)
        }
    };
    let new = proposal(chance, scene);
    let other = proposal(chance, scene);
    let absent = chance.from(0, 10_000) as u32;
    vec![
        Question::Read,
        Question::Distance {
            lat1: new.lat,
            lon1: new.lon,
            lat2: other.lat,
            lon2: other.lon,
        },
        Question::Add {
            id: absent,
            channel: channel(chance),
            proposal: new,
        },
        Question::Add {
            id: id(chance, scene),
            channel: channel(chance),
            proposal: new,
        },
        Question::Withdraw {
            id: id(chance, scene),
        },
        Question::Move {
            id: id(chance, scene),
            channel: channel(chance),
        },
        Question::Move {
            id: id(chance, scene),
            channel: channel(chance),
        },
        Question::check(channel(chance), new, terms(chance, scene)),
        Question::reason(busy_channel(chance, scene), new, terms(chance, scene)),
        Question::arrange(first, last, new, terms(chance, scene)),
    ]
}

/// Those of Check's rows that have the largest shortfall.
fn worst(rows: &[[u32; 3]]) -> Vec<[u32; 3]> {
    let shortfall = |[_, d, r]: &[u32; 3]| r - d;
    let most = rows.iter().map(shortfall).max();
    let equal = rows.iter().filter(|row| Some(shortfall(row)) == most);
    equal.copied().collect()
}

/// The rows of Check, with the reason held to them: clear exactly where there are none; else the first row with the largest
/// shortfall, the column of the channel difference, and the record of that id in the lent table.
fn checked(table: &[u8], channel: u32, proposal: Proposal, terms: Terms) -> Vec<[u32; 3]> {
    let ask = |question| agree_in(&question, table, 0, ROWS);
    let check = ask(Question::check(channel, proposal, terms));
    let (rows, _) = check.list().as_chunks::<3>();
    let first = worst(rows).first().copied();
    let reason = ask(Question::reason(channel, proposal, terms)).reason();
    assert_eq!(reason.is_some(), first.is_some());
    if let (Some((place, numbers)), Some([id, d, r])) = (reason, first) {
        let (records, _) = table[8..].as_chunks::<16>();
        let [a, b, c, e, high, low, ..] = records[(place as usize - 8) / 16];
        assert_eq!(place % 16, 8);
        assert_eq!(u32::from_be_bytes([a, b, c, e]), id);
        let difference = channel.abs_diff(u32::from(u16::from_be_bytes([high, low])));
        assert_eq!(numbers, [id, d, r, column_of(difference) as u32]);
    }
    rows.to_vec()
}

/// A scene of as many stations as a version can carry, or of the fewest that version 2 can.
fn long_scene(chance: &mut Chance, manner: Manner) -> Scene {
    let count = chance.one_of(&[LINE, LINE + 1, LIMIT]);
    scene_of(chance, manner, count)
}

/// Stations of every manner: mostly few, at times many, or a long scene that is asked about from anywhere; at times all of one
/// class, or on one channel, or with the highest id. None repeats another.
fn any_scene(chance: &mut Chance, turn: usize) -> Scene {
    let manner = MANNERS[turn % MANNERS.len()];
    let mut scene = match chance.from(1, 400) {
        1 => Scene {
            area: Area::around(chance.from(-270_000, 270_000), 0, 648_000),
            ..long_scene(chance, manner)
        },
        2 => scene(chance, manner, LIMIT),
        3..=13 => scene(chance, manner, 300),
        _ => {
            let most = chance.one_of(&[0, 1, 2, 5, 12, 30]);
            scene(chance, manner, most)
        }
    };
    if chance.once_in(8) {
        let class = chance.from(0, 7) as u32;
        scene.stations.iter_mut().for_each(|one| one.class = class);
    }
    if chance.once_in(12) {
        let channel = chance.from(201, 300) as u32;
        scene
            .stations
            .iter_mut()
            .for_each(|one| one.channel = channel);
    }
    if chance.once_in(12) {
        if let Some(last) = scene.stations.last_mut() {
            last.id = u32::MAX;
        }
    }
    part(&mut scene.stations);
    scene
}

/// The image of a scene, in one case of six damaged, in half of these twice; and whether it may have a repeat.
fn any_table(chance: &mut Chance, scene: &Scene) -> (Vec<u8>, bool) {
    let mut table = scene.table();
    let mut repeats = false;
    if chance.once_in(6) {
        for number in [chance.one_of(&DAMAGES), chance.one_of(&DAMAGES[1..])] {
            table = damaged(chance, &table, number);
            repeats |= number == 27;
            if table.len() < 8 || chance.once_in(2) {
                break;
            }
        }
    }
    (table, repeats)
}

/// An Arrange of one channel: a wide range on a long table takes the naive desk too long.
fn narrow(question: &mut Question) {
    if let Question::Arrange { first, last, .. } = question {
        *last = *first;
    }
}

/// Made questions of every kind, the same in every run: as many as the variable FMS_QUESTIONS says, else 100,000. Each is asked
/// with ample room and, where it is granted, again with exactly the room it needs, with more, with one place less and with none.
#[test]
fn made_questions() {
    let count = std::env::var("FMS_QUESTIONS").map_or(100_000, |word| {
        word.parse().expect("FMS_QUESTIONS is to be a number")
    });
    let mut chance = Chance::new(11);
    let (mut asked, mut granted, mut refused) = (0, 0, [0; 28]);
    let mut reasons = 0;
    'asking: for turn in 0.. {
        let scene = any_scene(&mut chance, turn);
        let (table, repeats) = any_table(&mut chance, &scene);
        for mut question in questions(&mut chance, &scene) {
            if asked == count {
                break 'asking;
            }
            if scene.stations.len() > 60 {
                narrow(&mut question);
            }
            let outcome = held(&question, &table);
            assert!(repeats || !outcome.repeated(), "{question:?}");
            match outcome.answer {
                Answer::Granted(told) => {
                    granted += 1;
                    reasons += usize::from(matches!(question, Question::Reason { .. }) && told > 0);
                }
                Answer::Refused { number, .. } => refused[number as usize] += 1,
            }
            asked += 1;
        }
    }
    println!(
        "{asked} questions: {granted} granted, {reasons} with a reason, refused by number from 1 on: {:?}",
        &refused[1..]
    );
    assert!(
        reasons > asked / 100 || count < 100_000,
        "{reasons} reasons"
    );
    for (number, met) in refused.iter().enumerate().skip(1) {
        // 22 is met by each that is granted and has something to write, when it has too little room.
        assert!(
            *met > 0 || number == 22 || count < 100_000,
            "no refusal {number} was met"
        );
    }
}

/// Damaged tables: every question gives the refusal of the table.
#[test]
fn damaged_tables() {
    let mut chance = Chance::new(13);
    for number in DAMAGES {
        let mut met = 0;
        for turn in 0..400 {
            let manner = MANNERS[turn % MANNERS.len()];
            let scene = match turn % 20 {
                0 => long_scene(&mut chance, manner),
                _ => scene(&mut chance, manner, 40),
            };
            let table = damaged(&mut chance, &scene.table(), number);
            for question in questions(&mut chance, &scene) {
                let outcome = held(&question, &table);
                assert!(number == 27 || !outcome.repeated(), "{question:?}");
                if let Answer::Refused { number: found, .. } = outcome.answer {
                    met += usize::from(found == number);
                }
            }
        }
        assert!(met > 100, "refusal {number} was met {met} times");
    }
}

/// Tables damaged in two ways at once: the first in the paper's order is given.
#[test]
fn twice_damaged_tables() {
    let mut chance = Chance::new(14);
    let mut repeated = 0;
    for turn in 0..4_000 {
        let scene = scene(&mut chance, MANNERS[turn % MANNERS.len()], 10);
        let mut table = scene.table();
        let numbers = [0; 2].map(|_| chance.one_of(&DAMAGES[1..]));
        for number in numbers {
            table = damaged(&mut chance, &table, number);
        }
        let withdraw = Question::Withdraw {
            id: id(&mut chance, &scene),
        };
        for question in [Question::Read, withdraw] {
            let found = held(&question, &table).repeated();
            assert!(!found || numbers.contains(&27), "{question:?}");
            repeated += usize::from(found);
        }
    }
    assert!(repeated > 20, "27 was met {repeated} times");
}

/// The position of the first station that repeats an earlier one.
fn first_repeat(stations: &[Station]) -> Option<u32> {
    let mut seen = HashSet::new();
    let mut repeats = stations
        .iter()
        .map(|one| !seen.insert((one.channel, one.class, one.lat, one.lon)));
    repeats
        .position(|repeats| repeats)
        .map(|place| place as u32)
}

/// Asks every question about a scene, with a repeat or without: how many answers are 27, which they are exactly where the question
/// is on a table and the table has a repeat.
fn repeats_told(chance: &mut Chance, scene: &Scene) -> usize {
    let table = scene.table();
    let repeat = first_repeat(&scene.stations).map(|extra| Answer::Refused { number: 27, extra });
    let mut told = 0;
    for mut question in questions(chance, scene) {
        if scene.stations.len() > 60 {
            narrow(&mut question);
        }
        let outcome = held(&question, &table);
        let expected = match question {
            Question::Distance { .. } => None,
            _ => repeat,
        };
        assert_eq!(outcome.repeated().then_some(outcome.answer), expected);
        told += usize::from(outcome.repeated());
    }
    told
}

/// Two positions of so many stations, the earlier one first.
fn two_of(chance: &mut Chance, count: usize) -> (usize, usize) {
    let later = chance.from(1, count as i64 - 1);
    (chance.from(0, later - 1) as usize, later as usize)
}

/// A scene of every manner with two stations at least.
fn scene_of_some(chance: &mut Chance, turn: usize, most: usize) -> Scene {
    let manner = MANNERS[turn % MANNERS.len()];
    loop {
        let scene = scene(chance, manner, most);
        if scene.stations.len() > 1 {
            return scene;
        }
    }
}

/// One repeat at every distance from its first, in tables of 300; and in long ones, where a table is read.
#[test]
fn repeats_at_every_distance() {
    let mut chance = Chance::new(28);
    let scene = scene_of(&mut chance, Manner::Region, 300);
    for distance in 1..300 {
        let earlier = chance.from(0, 299 - distance as i64) as usize;
        let mut scene = scene.clone();
        repeat(
            &mut chance,
            &mut scene.stations,
            earlier,
            earlier + distance,
        );
        assert_eq!(repeats_told(&mut chance, &scene), 9);
    }
    for count in [LINE, LINE + 1, LIMIT] {
        let stations = dense(count, 0);
        for distance in (1..count).step_by(13).chain([2, count - 2, count - 1]) {
            let earlier = chance.from(0, (count - 1 - distance) as i64) as usize;
            let mut stations = stations.clone();
            repeat(&mut chance, &mut stations, earlier, earlier + distance);
            let refusal = Answer::Refused {
                number: 27,
                extra: (earlier + distance) as u32,
            };
            let read = held(&Question::Read, &image_of(&stations));
            assert_eq!(read.answer, refusal);
        }
    }
}

/// Some repeats in a scene, also of repeats, and half of the time a further one of the same station.
fn make_repeats(chance: &mut Chance, stations: &mut [Station]) {
    for _ in 0..chance.from(1, 4) {
        let (earlier, later) = two_of(chance, stations.len());
        repeat(chance, stations, earlier, later);
        if chance.once_in(2) {
            let further = chance.from(earlier as i64 + 1, stations.len() as i64 - 1);
            repeat(chance, stations, earlier, further as usize);
        }
    }
}

/// Several repeats, also three of a kind, in scenes of every manner.
#[test]
fn several_repeats() {
    let mut chance = Chance::new(29);
    let (scenes, mut low, mut unlike, mut three) = (4_000, 0, 0, 0);
    for turn in 0..scenes {
        let most = match turn % 400 {
            0 => LIMIT,
            1..20 => 300,
            _ => chance.one_of(&[2, 3, 12, 40]),
        };
        let mut scene = scene_of_some(&mut chance, turn, most);
        make_repeats(&mut chance, &mut scene.stations);
        assert_eq!(repeats_told(&mut chance, &scene), 9);
        let place = first_repeat(&scene.stations).expect("one was made") as usize;
        let one = scene.stations[place];
        let alike = |other: &&Station| {
            (other.channel, other.class, other.lat, other.lon)
                == (one.channel, one.class, one.lat, one.lon)
        };
        let all: Vec<&Station> = scene.stations.iter().filter(alike).collect();
        low += usize::from(one.channel <= 220);
        unlike += usize::from(all[0].flags != one.flags);
        three += usize::from(all.len() > 2);
    }
    println!("{scenes} scenes: the first repeat is at or below 220 in {low}, has another flag in {unlike}, is one of three or more in {three}");
    assert!([low, unlike, three].iter().all(|met| *met > scenes / 5));
}

/// Repeats beside a fault of the header or of a record: the fault is told, also where it stands behind them.
#[test]
fn repeats_beside_faults() {
    let mut chance = Chance::new(30);
    let (mut before, mut behind) = (0, 0);
    for number in DAMAGES.into_iter().filter(|number| *number != 27) {
        for turn in 0..200 {
            let most = match turn % 50 {
                0 => LIMIT,
                _ => chance.one_of(&[2, 12, 40]),
            };
            let mut scene = scene_of_some(&mut chance, turn, most);
            make_repeats(&mut chance, &mut scene.stations);
            let repeat = first_repeat(&scene.stations).expect("one was made");
            let table = damaged(&mut chance, &scene.table(), number);
            for question in questions(&mut chance, &scene) {
                if let Question::Distance { .. } = question {
                    continue;
                }
                let Answer::Refused {
                    number: found,
                    extra,
                } = held(&question, &table).answer
                else {
                    panic!("{question:?} is granted")
                };
                assert_eq!(found, number, "{question:?}");
                before += usize::from(number >= 7 && extra < repeat);
                behind += usize::from(number >= 7 && extra > repeat);
            }
        }
    }
    println!("{before} faults before the repeat, {behind} behind it");
    assert!(before > 2_000 && behind > 2_000);
}

/// Stations that differ from an earlier one in one thing alone: there is no repeat, but where another one happens to be met.
#[test]
fn all_but_repeats() {
    let mut chance = Chance::new(31);
    for unlike in UNLIKE {
        let (scenes, mut clear) = (800, 0);
        for turn in 0..scenes {
            let most = match turn % 200 {
                0 => LIMIT,
                1..10 => 300,
                _ => chance.one_of(&[2, 3, 12]),
            };
            let mut scene = scene_of_some(&mut chance, turn, most);
            let (earlier, later) = two_of(&mut chance, scene.stations.len());
            all_but_repeat(&mut chance, &mut scene.stations, earlier, later, unlike);
            clear += usize::from(repeats_told(&mut chance, &scene) == 0);
        }
        println!("{unlike:?}: {clear} of {scenes} scenes without a repeat");
        assert!(clear > scenes * 49 / 50);
    }
}

/// A full table of so many channels, classes, latitudes and longitudes in a row, each with each.
fn crowd(chance: &mut Chance, [channels, classes, lats, lons]: [u32; 4]) -> Vec<Station> {
    assert_eq!(channels * classes * lats * lons, LIMIT as u32);
    let [first_channel, first_class] = [100, 8].map(|count| chance.from(0, count - 1) as u32);
    let lat = chance.from(-270_000, 270_000 - i64::from(lats)) as i32;
    let lon = chance.from(-648_000, 648_000 - i64::from(lons)) as i32;
    (0..LIMIT as u32)
        .map(|place| Station {
            id: place + 1,
            channel: 201 + (first_channel + place % channels) % 100,
            class: (first_class + place / channels % classes) % 8,
            flags: chance.from(0, 1) as u32,
            lat: lat + (place / channels / classes % lats) as i32,
            lon: lon + (place / channels / classes / lats) as i32,
        })
        .collect()
}

/// Full tables in which every record differs from many others in one thing alone, so that these come upon each other in a search.
#[test]
fn crowds() {
    let mut chance = Chance::new(33);
    let crowds = [
        [100, 8, 5, 1],
        [100, 8, 1, 5],
        [100, 1, 8, 5],
        [1, 8, 20, 25],
        [1, 1, 4_000, 1],
        [1, 1, 1, 4_000],
        [1, 1, 50, 80],
    ];
    for counts in crowds.into_iter().cycle().take(10 * crowds.len()) {
        let mut stations = crowd(&mut chance, counts);
        let read = |stations: &[Station]| held(&Question::Read, &image_of(stations)).answer;
        assert_eq!(read(&stations), Answer::Granted(LIMIT as u32));
        let (earlier, later) = two_of(&mut chance, LIMIT);
        repeat(&mut chance, &mut stations, earlier, later);
        let refusal = Answer::Refused {
            number: 27,
            extra: later as u32,
        };
        assert_eq!(read(&stations), refusal);
    }
}

/// The records of a slow table are right and without repeats, and their numbers have bits in common; with a repeat it is refused.
#[test]
fn slow_tables() {
    for count in [2, 3, 40, LINE, LINE + 1, LIMIT] {
        let table = slow(count);
        let read = |table: &[u8]| held(&Question::Read, table).answer;
        assert_eq!(read(&table), Answer::Granted(count as u32));
        let (records, _) = table[8..].as_chunks::<16>();
        for &[_, _, _, _, _, low, class, _, a, b, c, d, e, f, g, h] in records {
            let [kind, north, east] = [[low, class, 0, 0], [a, b, c, d], [e, f, g, h]]
                .map(|bytes| u128::from(u32::from_le_bytes(bytes)));
            let number = 1_697_706_979 * kind + 1_652_984_621 * north + 1_440_846_997 * east;
            assert_eq!(number % (1 << SHARED), COMMON.into());
        }
        let last = count - 1;
        for earlier in [0, 1, SHARED as usize, last / 2, last - 1] {
            let mut table = table.clone();
            let from = 8 + 16 * earlier.min(last - 1);
            table.copy_within(from + 4..from + 16, 8 + 16 * last + 4);
            let refusal = Answer::Refused {
                number: 27,
                extra: last as u32,
            };
            assert_eq!(read(&table), refusal);
        }
    }
}

/// Tables of a region with 2,000 and with 4,000 stations: Check and the reason on every channel by either standard, with nobody and
/// with each short station left aside; Arrange over the whole range, with nobody and by one standard with the nearest of them.
#[test]
fn full_regions() {
    for (count, sites) in [(LINE, 6), (LIMIT, 3)] {
        let table = region(1, count);
        for (turn, proposal) in region_proposals(2, sites).into_iter().enumerate() {
            for standard in [1, 2] {
                let mut nearest = None;
                for channel in 221..=300 {
                    let checked =
                        |aside| checked(&table, channel, proposal, Terms::new(aside, standard));
                    let short = checked(0);
                    for (place, &[id, d, _]) in short.iter().enumerate() {
                        let others = [&short[..place], &short[place + 1..]].concat();
                        assert_eq!(checked(id), others);
                        nearest = nearest.into_iter().chain([(d, id)]).min();
                    }
                }
                let (_, nearest) = nearest.expect("somebody is short");
                let left_aside = turn % 2 + 1 == standard as usize;
                for aside in [0].into_iter().chain(left_aside.then_some(nearest)) {
                    let terms = Terms::new(aside, standard);
                    agree_in(
                        &Question::arrange(221, 300, proposal, terms),
                        &table,
                        0,
                        ROWS,
                    );
                }
            }
        }
    }
}

/// What Check and Arrange answer and write with a station left aside is what they do on the table without it, and its withdrawal
/// is what makes that table; so is the reason, but that its place is the one in the lent table. An id that no station has is
/// refused, and 0 is none.
#[test]
fn a_station_left_aside() {
    let mut chance = Chance::new(18);
    let (mut matters, mut asked) = (0, 0);
    let (mut other_reasons, mut behind) = (0, 0);
    for turn in 0..300 {
        let scene = scene(&mut chance, MANNERS[turn % MANNERS.len()], 12);
        let table = scene.table();
        let proposal = proposal_in(&mut chance, scene.area);
        let channel = match scene.stations.first() {
            Some(station) if chance.once_in(2) => station.channel.max(221),
            _ => chance.from(221, 300) as u32,
        };
        let first = chance.from(221, i64::from(channel)) as u32;
        let last = chance.from(i64::from(channel), 300) as u32;
        let standard = chance.one_of(&[1, 2]);
        let questions = |aside| {
            let terms = Terms::new(aside, standard);
            [
                Question::check(channel, proposal, terms),
                Question::arrange(first, last, proposal, terms),
            ]
        };
        let reason = |aside| Question::reason(channel, proposal, Terms::new(aside, standard));
        let whole = questions(0).map(|question| agree(&question, &table));
        let whole_reason = agree(&reason(0), &table).reason();
        for (own, station) in (8..).step_by(16).zip(&scene.stations) {
            let without = agree(&Question::Withdraw { id: station.id }, &table);
            for (place, question) in questions(station.id).iter().enumerate() {
                let found = agree(question, &table);
                let expected = agree(&questions(0)[place], without.image());
                assert_eq!(found.answer, expected.answer, "{question:?}");
                assert_eq!(found.list(), expected.list(), "{question:?}");
                matters += usize::from(found.list() != whole[place].list());
                asked += 1;
            }
            let found = agree(&reason(station.id), &table).reason();
            let expected = agree(&reason(0), without.image()).reason();
            let lent = |place| if place < own { place } else { place + 16 };
            assert_eq!(
                found,
                expected.map(|(place, numbers)| (lent(place), numbers))
            );
            other_reasons += usize::from(found != whole_reason);
            behind += usize::from(found.is_some_and(|(place, _)| place > own));
            let absent = station.id + 1;
            if scene.stations.iter().all(|other| other.id != absent) {
                for question in questions(absent).into_iter().chain([reason(absent)]) {
                    let refusal = Answer::Refused {
                        number: 23,
                        extra: 0,
                    };
                    assert_eq!(agree(&question, &table).answer, refusal);
                }
            }
        }
    }
    assert!(matters > 300, "of {asked} answers {matters} are others");
    assert!(
        other_reasons > 100 && behind > 100,
        "{other_reasons} reasons are others, {behind} stand behind the one left aside"
    );
}

/// Stations that are short by the same, alike and unlike: the first of them is the reason, and the next one where it is left aside.
#[test]
fn equal_shortfalls() {
    let mut chance = Chance::new(20);
    let (mut asked, mut several, mut unlike) = (0, 0, 0);
    for turn in 0..4_000 {
        let standard = turn % 2 + 1;
        let scene = scene(&mut chance, Manner::Level(standard), 12);
        let table = scene.table();
        let proposal = Proposal {
            station_class: 0,
            ..proposal_in(&mut chance, scene.area)
        };
        let ids = scene.stations.iter().map(|station| station.id);
        for aside in ids.chain([0]) {
            let terms = Terms::new(aside, standard);
            let equal = worst(&checked(&table, LEVEL, proposal, terms));
            asked += 1;
            several += usize::from(equal.len() > 1);
            unlike += usize::from(equal.iter().any(|[_, d, _]| *d != equal[0][1]));
        }
    }
    println!("{asked} reasons, {several} among equals, {unlike} of these at other distances");
    assert!(several > asked / 2 && unlike > asked / 3);
}

/// Of many stations, all short and no two at one site, one is nearer by 3 km: it is the reason wherever it stands, and the first
/// other one where it is left aside.
#[test]
fn one_of_many() {
    for (count, places) in [
        (LINE, &[0, 1, 2, 3, 4, 999, 1_998, 1_999][..]),
        (LINE + 1, &[0, 1_999, 2_000]),
        (LIMIT, &[0, 1_999, 2_000, 2_001, 3_998, 3_999]),
    ] {
        for &nearer in places {
            let mut stations = dense(count, 1_000);
            stations[nearer].lon = 900;
            let table = image_of(&stations);
            let Station { id, .. } = stations[nearer];
            for (aside, position, d) in [(0, nearer, 28), (id, usize::from(nearer == 0), 31)] {
                for (standard, r) in [(1, 115), (2, 92)] {
                    let terms = Terms::new(aside, standard);
                    let rows = checked(&table, 250, class_a(0, 0), terms);
                    assert_eq!(rows.len(), count - usize::from(aside != 0));
                    assert_eq!(worst(&rows)[0], [stations[position].id, d, r]);
                }
            }
        }
    }
}

/// A full table of which every station is short, of all classes and in all columns: Check needs 12,000 numbers, and three less with
/// one left aside.
#[test]
fn all_of_4000() {
    let mut chance = Chance::new(22);
    let mut stations = dense(LIMIT, 100);
    for station in &mut stations {
        let (_, difference) = chance.one_of(&DIFFERENCES);
        station.channel = LEVEL - difference;
        station.class = chance.from(0, 7) as u32;
    }
    let table = image_of(&stations);
    for standard in [1, 2] {
        let terms = |aside| Terms::new(aside, standard);
        let check = agree(&Question::check(LEVEL, class_a(0, 0), terms(0)), &table);
        assert_eq!(check.answer, Answer::Granted(3 * LIMIT as u32));
        let whole = checked(&table, LEVEL, class_a(0, 0), terms(0));
        let equal = worst(&whole);
        let places = [0, LINE - 1, LINE, LIMIT - 1].map(|position| whole[position]);
        for [aside, ..] in [equal[0], equal[1]].into_iter().chain(places) {
            let mut rows = whole.clone();
            rows.retain(|[id, ..]| *id != aside);
            assert_eq!(checked(&table, LEVEL, class_a(0, 0), terms(aside)), rows);
        }
    }
}

/// The lesser table asks for no more than Table A: a station that is short by standard 2 is so by 1, at the same D; what is
/// acceptable by 1 is by 2; and a channel that is free by 1, where nobody moves, is so by 2.
#[test]
fn short_by_the_lesser_table() {
    let mut chance = Chance::new(27);
    let (mut both, mut by_table_a_alone, mut cleared, mut freed) = (0, 0, 0, 0);
    for turn in 0..4_000 {
        let manner = MANNERS[turn % MANNERS.len()];
        let scene = scene(&mut chance, manner, 12);
        let table = scene.table();
        let mut proposal = proposal_in(&mut chance, scene.area);
        let mut channel = busy_channel(&mut chance, &scene).clamp(221, 300);
        if let Manner::Level(_) = manner {
            (proposal.station_class, channel) = (0, LEVEL);
        }
        let aside = nobody_or_one(&mut chance, &scene);
        let [full, lesser] = [1, 2].map(|standard| {
            let terms = Terms::new(aside, standard);
            let rows = checked(&table, channel, proposal, terms);
            let arrange = Question::arrange(221, 300, proposal, terms);
            let outcome = agree_in(&arrange, &table, 0, ROWS);
            let (arranged, _) = outcome.list().as_chunks::<3>();
            let unmoved = arranged.iter().filter(|[_, id, _]| *id == 0);
            (rows, unmoved.map(|row| row[0]).collect::<Vec<_>>())
        });
        for &[id, d, r] in &lesser.0 {
            let same = |row: &&[u32; 3]| row[..2] == [id, d];
            let &[_, _, more] = full.0.iter().find(same).expect("short by 1");
            assert!(d < r && r <= more);
        }
        assert!(full.1.iter().all(|free| lesser.1.contains(free)));
        both += lesser.0.len();
        by_table_a_alone += full.0.len() - lesser.0.len();
        cleared += usize::from(lesser.0.is_empty() && !full.0.is_empty());
        freed += lesser.1.len() - full.1.len();
    }
    println!("{both} short by both, {by_table_a_alone} by Table A alone; {cleared} proposals cleared and {freed} channels freed");
    assert!(both > 1_000 && by_table_a_alone > 500 && cleared > 50 && freed > 1_000);
}

/// Sets the last station of a scene apart, where it is short to nobody on any channel: its id, and a proposal as far from all.
fn last_apart(scene: &mut Scene) -> (u32, Proposal) {
    let north = scene.area.lat.0 > 0;
    let lat = if north { -100_000 } else { 100_000 };
    let last = scene.stations.last_mut().expect("a long scene");
    *last = Station {
        id: last.id,
        channel: 260,
        class: 0,
        flags: 0,
        lat,
        lon: 50_000,
    };
    (last.id, class_a(lat, 0))
}

/// Tables of every manner around the line between the versions and around the limit: the last station goes, moves, and gets another
/// one behind it while there is room; and made questions. Over the limit there is no table.
#[test]
fn around_the_lines() {
    let mut chance = Chance::new(23);
    let granted = |stations: usize| Answer::Granted(8 + 16 * stations as u32);
    let refused = |number| Answer::Refused { number, extra: 0 };
    for (count, version) in [
        (LINE - 1, 1),
        (LINE, 1),
        (LINE + 1, 2),
        (LINE + 2, 2),
        (LIMIT - 1, 2),
        (LIMIT, 2),
        (LIMIT + 1, 2),
    ] {
        let answers = match count {
            0..LIMIT => [count - 1, count, count + 1].map(granted),
            LIMIT => [granted(LIMIT - 1), granted(LIMIT), refused(21)],
            _ => [refused(5); 3],
        };
        // A lone scene has few stations.
        for manner in MANNERS.into_iter().filter(|&one| one != Manner::Lone) {
            let mut scene = scene_of(&mut chance, manner, count);
            let (id, proposal) = last_apart(&mut scene);
            let table = image_in(version, &scene.stations);
            let changes = [
                Question::Withdraw { id },
                Question::Move { id, channel: 300 },
                Question::Add {
                    id: id + 1,
                    channel: 260,
                    proposal,
                },
            ];
            for (change, answer) in changes.iter().zip(answers) {
                assert_eq!(agree(change, &table).answer, answer, "{change:?}");
            }
            for _ in 0..3 {
                for mut question in questions(&mut chance, &scene) {
                    narrow(&mut question);
                    agree(&question, &table);
                }
            }
        }
    }
}

/// Up over the line between the versions, or to the limit, and back down: each granted image is the next table, and the last one is
/// the first.
#[test]
fn across_the_lines() {
    for (start, most) in [(LINE - 2, LINE + 2), (LIMIT - 2, LIMIT)] {
        let first = image_of(&dense(start, 0));
        let mut table = first.clone();
        let sites = [(1, 0), (19_985, 20_000), (19_991, 40_000), (40_001, 60_000)];
        let adds = sites.map(|(id, lon)| Question::Add {
            id,
            channel: 250,
            proposal: class_a(200_000, lon),
        });
        let withdrawals = sites.map(|(id, _)| Question::Withdraw { id });
        let mut longest = 0;
        for change in adds.iter().chain(&withdrawals) {
            let outcome = agree(change, &table);
            if let Answer::Granted(_) = outcome.answer {
                table = outcome.image().to_vec();
            }
            longest = longest.max(table.len());
        }
        assert_eq!(longest, 8 + 16 * most);
        assert_eq!(table, first);
    }
}

/// One question for the whole range gives the rows of the 80 questions for one channel each.
#[test]
fn one_channel_at_a_time() {
    let mut chance = Chance::new(15);
    for turn in 0..60 {
        let scene = scene(&mut chance, MANNERS[turn % MANNERS.len()], 60);
        let table = scene.table();
        let proposal = proposal_in(&mut chance, scene.area);
        let aside = nobody_or_one(&mut chance, &scene);
        let terms = Terms::new(aside, chance.one_of(&[1, 2]));
        let arranged = |first, last| {
            let question = Question::arrange(first, last, proposal, terms);
            agree(&question, &table).list().to_vec()
        };
        let one_by_one: Vec<u32> = (221..=300)
            .flat_map(|channel| arranged(channel, channel))
            .collect();
        assert_eq!(arranged(221, 300), one_by_one);
    }
}

/// A desk's year, also across the 180th meridian: each granted image is the next table, and goes on to be accepted.
#[test]
fn changes_in_a_row() {
    let mut chance = Chance::new(16);
    for turn in 0..40 {
        let mut table = image_of(&[]);
        let lon = match turn % 2 {
            0 => chance.from(-600_000, 600_000),
            _ => near_the_meridian(&mut chance),
        };
        let area = Area::around(chance.from(-250_000, 250_000), lon, 9_000);
        for _ in 0..200 {
            let id = chance.from(1, 60) as u32;
            let channel = chance.from(221, 300) as u32;
            let question = match chance.from(0, 5) {
                0 => Question::Withdraw { id },
                1 => Question::Move { id, channel },
                _ => Question::Add {
                    id,
                    channel,
                    proposal: proposal_in(&mut chance, area),
                },
            };
            let outcome = agree(&question, &table);
            if let Answer::Granted(_) = outcome.answer {
                table = outcome.image().to_vec();
                assert!(matches!(
                    agree(&Question::Read, &table).answer,
                    Answer::Granted(_)
                ));
            }
        }
        assert!(table.len() > 8);
    }
}

/// Distances between any two sites, near ones and far ones.
#[test]
fn distances() {
    let mut chance = Chance::new(17);
    for turn in 0..200_000 {
        let lat1 = chance.from(-270_000, 270_000) as i32;
        let lon1 = chance.from(-648_000, 648_000) as i32;
        let reach = chance.one_of(&[1, 100, 4_000, 16_000, 60_000]);
        let lat2 = (lat1 + chance.from(-reach, reach) as i32).clamp(-270_001, 270_001);
        let lon2 = i64::from(lon1) + chance.from(-reach, reach);
        let lon2 = match chance.once_in(2) {
            true => wrapped(lon2) as i32,
            false => lon2.clamp(-648_001, 648_001) as i32,
        };
        let question = Question::Distance {
            lat1,
            lon1,
            lat2,
            lon2,
        };
        let answer = agree_in(&question, &[], 0, 0).answer;
        if turn % 16 == 0 {
            let back = Question::Distance {
                lat1: lat2,
                lon1: lon2,
                lat2: lat1,
                lon2: lon1,
            };
            assert_eq!(agree_in(&back, &[], 0, 0).answer, answer);
        }
    }
}

/// Holds two movable stations, D apart, to each other: the distance of their sites, Check, the reason and Arrange by either
/// standard and Add for either in a table of the other, and the Move of either to its own channel in a table of both, which is
/// refused where the second repeats the first. Says whether they are short by each standard.
fn held_to_each_other(a: Station, b: Station, d: u32) -> [bool; 2] {
    let column = column_of(a.channel.abs_diff(b.channel));
    let separations = [1, 2].map(|standard| km(standard, a.class, b.class, column));
    let distance = match d {
        0..=475 => Answer::Granted(d),
        _ => Answer::Refused {
            number: 24,
            extra: 0,
        },
    };
    let changed = |position| match d < separations[0] {
        true => Answer::Refused {
            number: 20,
            extra: position,
        },
        false => Answer::Granted(40),
    };
    let both = image_of(&[a, b]);
    let stayed = |other| match first_repeat(&[a, b]) {
        Some(extra) => Answer::Refused { number: 27, extra },
        None => changed(other),
    };
    for (new, old, other) in [(a, b, 1), (b, a, 0)] {
        let Station {
            id, channel, class, ..
        } = new;
        let proposal = Proposal {
            station_class: class,
            zone: zone_for(class),
            lat: new.lat,
            lon: new.lon,
        };
        let table = image_of(&[old]);
        let hold = |question: Question, table: &[u8]| agree_in(&question, table, 40, 3 * 79);
        let asked = Question::Distance {
            lat1: new.lat,
            lon1: new.lon,
            lat2: old.lat,
            lon2: old.lon,
        };
        assert_eq!(hold(asked, &[]).answer, distance);
        for (standard, r) in [1, 2].into_iter().zip(separations) {
            let terms = Terms::new(0, standard);
            let rows = checked(&table, channel, proposal, terms);
            assert_eq!(rows.first(), (d < r).then_some(&[old.id, d, r]));
            let arrange = Question::arrange(channel, channel, proposal, terms);
            let free = hold(arrange, &table).list() == [channel, 0, 0];
            assert_eq!(free, d >= r);
        }
        let add = Question::Add {
            id,
            channel,
            proposal,
        };
        assert_eq!(hold(add, &table).answer, changed(0));
        let stay = Question::Move { id, channel };
        assert_eq!(held_in(&stay, &both, 40, 0).answer, stayed(other));
    }
    separations.map(|r| d < r)
}

/// A difference of longitude at which two sites are about so many decimetres apart, 0 where their latitudes alone put them so far.
fn seconds_apart(lat1: i32, lat2: i32, decimetres: i64) -> i64 {
    let (p, q) = degrees(i128::from((lat1 + lat2).unsigned_abs()));
    let north = i64::from(lat1.abs_diff(lat2)) * p as i64 / 3_600_000;
    let east = (decimetres * decimetres - north * north).max(0).isqrt();
    east * 3_600_000 / q as i64
}

/// Pairs on both sides of the 180th meridian, or on it, at all latitudes: some seconds apart, half a km, a separation, and 475 km.
/// Each is held as it is where the same difference of longitude begins at 0.
#[test]
fn pairs_across_the_meridian() {
    let mut chance = Chance::new(24);
    let (pairs, mut across, mut repeats, mut short) = (50_000, 0, 0, [0; 2]);
    for _ in 0..pairs {
        let lat1 = match chance.once_in(8) {
            true => chance.one_of(&[-270_000, 0, 270_000]),
            false => chance.from(-270_000, 270_000) as i32,
        };
        let reach = chance.one_of(&[0, 3, 1_000, 9_000]);
        let lat2 = (lat1 + chance.from(-reach, reach) as i32).clamp(-270_000, 270_000);
        let (column, difference) = chance.one_of(&DIFFERENCES);
        let [first, second] = [0; 2].map(|_| chance.from(0, 7) as u32);
        let decimetres = match chance.from(0, 7) {
            0 => 0,
            1 => 5_000,
            2 => 4_755_000,
            _ => 10_000 * i64::from(km(chance.one_of(&[1, 2]), first, second, column)) - 5_000,
        };
        let apart = seconds_apart(lat1, lat2, decimetres) + chance.from(-2, 2);
        let apart = apart.max(0);
        let west = 648_000 - chance.from(0, apart);
        // The meridian itself has two numbers.
        let mut numbered = |lon: i64| match wrapped(lon) {
            648_000 | -648_000 => chance.one_of(&[-648_000, 648_000]),
            lon => lon as i32,
        };
        let station = |id, channel, class, lat, lon| Station {
            id,
            channel,
            class,
            flags: 0,
            lat,
            lon,
        };
        let one = station(7, 240, first, lat1, numbered(west));
        let other = station(8, 240 + difference, second, lat2, numbered(west + apart));
        let d = rounded(squared(lat1, 0, lat2, apart as i32));
        across += usize::from(one.lon.abs_diff(other.lon) > 648_000);
        repeats += usize::from(first_repeat(&[one, other]).is_some());
        for (short, found) in short.iter_mut().zip(held_to_each_other(one, other, d)) {
            *short += usize::from(found);
        }
    }
    println!("{pairs} pairs, {across} with more than 648,000 between their numbers, {short:?} short by each standard, {repeats} repeats");
    assert!(across > pairs / 2 && (1..pairs / 500).contains(&repeats));
    assert!(short
        .iter()
        .all(|short| (pairs / 4..pairs * 3 / 4).contains(short)));
}

/// A longitude so many seconds farther east, round the globe; one that is out of range as it is.
fn turned(lon: i32, by: i64) -> i32 {
    match lon {
        -648_000..=648_000 => wrapped(i64::from(lon) + by) as i32,
        _ => lon,
    }
}

/// A table with its stations so much farther east.
fn turned_table(table: &[u8], by: i64) -> Vec<u8> {
    let mut table = table.to_vec();
    let (records, _) = table[8..].as_chunks_mut::<16>();
    for [.., a, b, c, d] in records {
        [*a, *b, *c, *d] = turned(i32::from_be_bytes([*a, *b, *c, *d]), by).to_be_bytes();
    }
    table
}

/// A question with its sites so much farther east.
fn turned_question(mut question: Question, by: i64) -> Question {
    match &mut question {
        Question::Read | Question::Withdraw { .. } | Question::Move { .. } => {}
        Question::Distance { lon1, lon2, .. } => {
            *lon1 = turned(*lon1, by);
            *lon2 = turned(*lon2, by);
        }
        Question::Add { proposal, .. }
        | Question::Check { proposal, .. }
        | Question::Arrange { proposal, .. }
        | Question::Reason { proposal, .. } => proposal.lon = turned(proposal.lon, by),
    }
    question
}

/// Holds the answer to a question, and what is written, to what they are with all so much farther east; hands back the answer.
fn held_farther_east(question: Question, table: &[u8], by: i64) -> Answer {
    let found = agree_in(&question, table, table.len() + 16, ROWS);
    let east = turned_table(table, by);
    let expected = agree_in(
        &turned_question(question, by),
        &east,
        table.len() + 16,
        ROWS,
    );
    assert_eq!(found.answer, expected.answer, "{question:?} and {by} east");
    if let Answer::Refused { .. } = found.answer {
        return found.answer;
    }
    match question {
        Question::Read | Question::Distance { .. } => {}
        Question::Check { .. } | Question::Arrange { .. } => {
            assert_eq!(found.list(), expected.list(), "{question:?} and {by} east")
        }
        Question::Reason { .. } => assert_eq!(found.reason(), expected.reason()),
        Question::Add { .. } | Question::Withdraw { .. } | Question::Move { .. } => {
            assert_eq!(turned_table(found.image(), by), expected.image())
        }
    }
    found.answer
}

/// S goes by differences of longitude alone: scenes across the 180th meridian get the answers that they get on the other side of
/// the globe, and scenes from anywhere those that they get across the meridian.
#[test]
fn farther_east() {
    let mut chance = Chance::new(25);
    let (mut asked, mut short, mut reasons) = (0, 0, 0);
    for turn in 0..4_000 {
        let manner = MANNERS[turn % MANNERS.len()];
        let most = chance.one_of(&[2, 5, 12, 30]);
        let scene = scene(&mut chance, manner, most);
        let (west, east) = scene.area.lon;
        let by = match manner {
            Manner::Meridian => 648_000,
            _ => wrapped(near_the_meridian(&mut chance) - (west + east) / 2),
        };
        let table = scene.table();
        for question in questions(&mut chance, &scene) {
            asked += 1;
            match (question, held_farther_east(question, &table, by)) {
                (_, Answer::Refused { number: 20, .. }) => short += 1,
                (Question::Reason { .. }, Answer::Granted(1..)) => reasons += 1,
                _ => {}
            }
        }
    }
    println!("{asked} questions, {short} refused with 20, {reasons} reasons");
    assert!(short > asked / 100 && reasons > asked / 100);
}

/// Regions of 2,000 and of 4,000 stations with the site on the 180th meridian or near it: Check and the reason on every channel,
/// and Arrange, are what they are where the region lies.
#[test]
fn full_regions_across_the_meridian() {
    let mut chance = Chance::new(26);
    for (count, sites) in [(LINE, 4), (LIMIT, 2)] {
        let table = region(1, count);
        for proposal in region_proposals(2, sites) {
            let by = wrapped(near_the_meridian(&mut chance) - i64::from(proposal.lon));
            let studies = (221..=300).flat_map(|channel| {
                let [check, reason] = [Question::check, Question::reason];
                [(check, 1), (check, 2), (reason, 1), (reason, 2)]
                    .map(|(study, standard)| study(channel, proposal, Terms::new(0, standard)))
            });
            let arrange = [1, 2]
                .map(|standard| Question::arrange(221, 300, proposal, Terms::new(0, standard)));
            for question in studies.chain(arrange) {
                held_farther_east(question, &table, by);
            }
        }
    }
}
