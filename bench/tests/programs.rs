//! The programs held against the naive desk: all that they print, byte for byte, on made, cut, damaged, full and overlong inputs.
//! They are crates/NAME/out/NAME, as `rt run` builds them there. FMS_RUN names a command that runs them where they do not run by themselves,
//! FMS_PROGRAMS how many inputs each gets.

mod common;

use std::io::Write;
use std::path::{Path, PathBuf};
use std::process::{Command, Stdio};

use common::{class_a, dense, table_of_one, IMAGE, LIMIT, LINE, ROWS};
use fms_bench::made::{
    damaged, proposal_in, region, region_proposals, repeat, scene, Chance, Manner, Scene, DAMAGES,
    LEVEL, MANNERS,
};
use fms_bench::naive::{self, image_in, image_of};
use fms_bench::question::{Answer, Lent, Proposal, Question, Terms};

const PROGRAMS: [&str; 5] = [
    "fm_check",
    "fm_arrange",
    "fm_change",
    "fm_study",
    "fm_reason",
];

fn path(program: &str) -> PathBuf {
    Path::new(env!("CARGO_MANIFEST_DIR"))
        .join("../crates")
        .join(program)
        .join("out")
        .join(program)
}

/// All that a program prints of an input, where it can be started.
fn run(program: &str, input: &[u8]) -> std::io::Result<Vec<u8>> {
    let path = path(program);
    let mut command = match std::env::var("FMS_RUN") {
        Ok(runner) => {
            let mut words = runner.split_whitespace();
            let mut command = Command::new(words.next().expect("FMS_RUN names a command"));
            command.args(words).arg(path);
            command
        }
        Err(_) => Command::new(path),
    };
    let mut child = command
        .stdin(Stdio::piped())
        .stdout(Stdio::piped())
        .stderr(Stdio::null())
        .spawn()?;
    let mut stdin = child.stdin.take().expect("it is piped");
    std::thread::scope(|scope| {
        // A program may end before it has read an overlong input.
        scope.spawn(move || {
            let _ = stdin.write_all(input);
        });
        Ok(child.wait_with_output()?.stdout)
    })
}

fn u16_at(input: &[u8], at: usize) -> u32 {
    u32::from(u16::from_be_bytes(input[at..at + 2].try_into().unwrap()))
}

fn u32_at(input: &[u8], at: usize) -> u32 {
    u32::from_be_bytes(input[at..at + 4].try_into().unwrap())
}

fn i32_at(input: &[u8], at: usize) -> i32 {
    u32_at(input, at) as i32
}

fn proposal_at(input: &[u8], at: usize) -> Proposal {
    Proposal {
        station_class: u32::from(input[at]),
        zone: u32::from(input[at + 1]),
        lat: i32_at(input, at + 2),
        lon: i32_at(input, at + 6),
    }
}

/// The terms of fm_check and fm_arrange.
const PLAIN: Terms = Terms::new(0, 1);

/// The terms of a study: the id left aside, then the standard.
fn terms_at(input: &[u8], at: usize) -> Terms {
    Terms::new(u32_at(input, at), u32::from(input[at + 4]))
}

/// What fm_check reads from a place on.
fn check_at(input: &[u8], at: usize, terms: Terms) -> Question {
    Question::check(u16_at(input, at), proposal_at(input, at + 2), terms)
}

/// What fm_reason reads: what fm_check does, and then the terms.
fn reason_in(input: &[u8]) -> Question {
    Question::reason(u16_at(input, 0), proposal_at(input, 2), terms_at(input, 12))
}

/// What fm_arrange reads from a place on.
fn arrange_at(input: &[u8], at: usize, terms: Terms) -> Question {
    Question::arrange(221, 300, proposal_at(input, at), terms)
}

/// The question that an input puts, and where its table begins; nothing where it ends before the table or names none.
fn question(program: &str, input: &[u8]) -> Option<(Question, usize)> {
    let (question, from): (fn(&[u8]) -> Question, usize) = match (program, input.first()) {
        ("fm_check", _) => (|input| check_at(input, 0, PLAIN), 12),
        ("fm_reason", _) => (reason_in, 17),
        ("fm_arrange", _) => (|input| arrange_at(input, 0, PLAIN), 10),
        ("fm_change", Some(b'a')) => (
            |input| Question::Add {
                id: u32_at(input, 1),
                channel: u16_at(input, 5),
                proposal: proposal_at(input, 7),
            },
            17,
        ),
        ("fm_change", Some(b'w')) => (
            |input| Question::Withdraw {
                id: u32_at(input, 1),
            },
            5,
        ),
        ("fm_change", Some(b'm')) => (
            |input| Question::Move {
                id: u32_at(input, 1),
                channel: u16_at(input, 5),
            },
            7,
        ),
        ("fm_study", Some(b'c')) => (|input| check_at(input, 6, terms_at(input, 1)), 18),
        ("fm_study", Some(b'a')) => (|input| arrange_at(input, 6, terms_at(input, 1)), 16),
        ("fm_study", Some(b'd')) if input.len() == 17 => (
            |input| Question::Distance {
                lat1: i32_at(input, 1),
                lon1: i32_at(input, 5),
                lat2: i32_at(input, 9),
                lon2: i32_at(input, 13),
            },
            17,
        ),
        _ => return None,
    };
    (input.len() >= from).then(|| (question(input), from))
}

/// What a program has to print of an input.
fn printed(program: &str, input: &[u8]) -> Vec<u8> {
    let Some((question, from)) = question(program, input) else {
        return b"refused 1 0\n".to_vec();
    };
    let mut image = vec![0; IMAGE];
    let mut rows = vec![0; ROWS];
    let mut reason = [0; 4];
    let lent = Lent {
        image: &mut image,
        rows: &mut rows,
        reason: &mut reason,
    };
    let answer = naive::ask(&question, &input[from..], lent);
    let count = match answer {
        Answer::Refused { number, extra } => {
            return format!("refused {number} {extra}\n").into_bytes()
        }
        Answer::Granted(count) => count as usize,
    };
    let mut text = match question {
        Question::Distance { .. } => return format!("{count}\n").into_bytes(),
        Question::Reason { .. } if count == 0 => return b"clear\n".to_vec(),
        Question::Reason { terms, .. } => {
            let [id, d, r, column] = reason;
            return format!("{id} {d} {r} {column} {}\n", terms.standard).into_bytes();
        }
        Question::Check { .. } => format!("short {}\n", count / 3),
        Question::Arrange { .. } => String::new(),
        _ => return image[..count].to_vec(),
    };
    for row in rows[..count].chunks(3) {
        text.push_str(&format!("{} {} {}\n", row[0], row[1], row[2]));
    }
    text.into_bytes()
}

fn put_proposal(chance: &mut Chance, scene: &Scene, input: &mut Vec<u8>) {
    let mut proposal = proposal_in(chance, scene.area);
    match chance.from(0, 48) {
        0 => proposal.station_class = 8,
        1 => proposal.zone = 4,
        2 => proposal.lat = 270_001,
        3 => proposal.lon = -648_001,
        _ => {}
    }
    input.extend(proposal_bytes(&proposal));
}

fn proposal_bytes(proposal: &Proposal) -> Vec<u8> {
    let mut bytes = vec![proposal.station_class as u8, proposal.zone as u8];
    bytes.extend(proposal.lat.to_be_bytes());
    bytes.extend(proposal.lon.to_be_bytes());
    bytes
}

/// A proposal on a channel.
fn asked(channel: u32, proposal: &Proposal) -> Vec<u8> {
    let channel = (channel as u16).to_be_bytes();
    [&channel[..], &proposal_bytes(proposal)].concat()
}

fn put_channel(chance: &mut Chance, input: &mut Vec<u8>) {
    let channel = if chance.once_in(16) {
        chance.one_of(&[0, 220, 301, 65_535])
    } else {
        chance.from(221, 300) as u16
    };
    input.extend(channel.to_be_bytes());
}

fn put_id(chance: &mut Chance, scene: &Scene, input: &mut Vec<u8>) {
    let id = if scene.stations.is_empty() || chance.once_in(3) {
        chance.from(0, 5_000) as u32
    } else {
        chance.one_of(&scene.stations).id
    };
    input.extend(id.to_be_bytes());
}

/// The bytes of the terms of a study.
fn terms_bytes(aside: u32, standard: u8) -> [u8; 5] {
    let [a, b, c, d] = aside.to_be_bytes();
    [a, b, c, d, standard]
}

/// An id to leave aside, at times none, and a standard, at times a byte that is none.
fn put_terms(chance: &mut Chance, scene: &Scene, input: &mut Vec<u8>) {
    if chance.once_in(4) {
        input.extend([0; 4]);
    } else {
        put_id(chance, scene, input);
    }
    input.push(if chance.once_in(16) {
        chance.one_of(&[0, 3, 128, 129, 255])
    } else {
        chance.one_of(&[1, 2])
    });
}

fn put_site(chance: &mut Chance, scene: &Scene, input: &mut Vec<u8>) {
    let site = proposal_in(chance, scene.area);
    let (lat, lon) = (chance.once_in(16), chance.once_in(16));
    input.extend(if lat { -270_001 } else { site.lat }.to_be_bytes());
    input.extend(if lon { 648_001 } else { site.lon }.to_be_bytes());
}

/// What stands before the table of an input of a program, and whether a table follows.
fn put_question(chance: &mut Chance, program: &str, scene: &Scene, input: &mut Vec<u8>) -> bool {
    match program {
        "fm_check" | "fm_reason" => {
            put_channel(chance, input);
            put_proposal(chance, scene, input);
            if program == "fm_reason" {
                put_terms(chance, scene, input);
            }
        }
        "fm_arrange" => put_proposal(chance, scene, input),
        "fm_change" => match chance.from(0, 12) {
            0 => input.push(chance.from(0, 255) as u8),
            1..=4 => {
                input.push(b'w');
                put_id(chance, scene, input);
            }
            5..=8 => {
                input.push(b'm');
                put_id(chance, scene, input);
                put_channel(chance, input);
            }
            _ => {
                input.push(b'a');
                put_id(chance, scene, input);
                put_channel(chance, input);
                put_proposal(chance, scene, input);
            }
        },
        _ => {
            let letter = if chance.once_in(12) {
                chance.from(0, 255) as u8
            } else {
                chance.one_of(b"ccaad")
            };
            input.push(letter);
            if letter == b'd' || chance.once_in(16) {
                put_site(chance, scene, input);
                put_site(chance, scene, input);
                return chance.once_in(8);
            }
            put_terms(chance, scene, input);
            if letter != b'a' {
                put_channel(chance, input);
            }
            put_proposal(chance, scene, input);
        }
    }
    true
}

/// An input for a program, at times cut, damaged, too long, or with bytes that mean nothing; and whether its table may have a repeat.
fn input(chance: &mut Chance, program: &str, turn: usize) -> (Vec<u8>, bool) {
    let most = match program {
        "fm_arrange" | "fm_study" => chance.one_of(&[0, 2, 12, 40]),
        _ => chance.one_of(&[0, 2, 12, 40, 300, LIMIT]),
    };
    let scene = scene(chance, MANNERS[turn % MANNERS.len()], most);
    let mut input = Vec::new();
    let mut repeats = false;
    if put_question(chance, program, &scene, &mut input) {
        let mut table = scene.table();
        if chance.once_in(8) {
            let number = chance.one_of(&DAMAGES);
            table = damaged(chance, &table, number);
            repeats = number == 27;
        }
        input.extend(table);
    }
    match chance.from(0, 31) {
        0 => input.truncate(chance.from(0, input.len() as i64) as usize),
        1 => input.truncate(chance.from(0, 20.min(input.len() as i64)) as usize),
        2 => input.extend([0; 16]),
        3 => input.resize(input.len().max(65_530) + chance.from(0, 12) as usize, 0),
        4 => input.resize(70_000 + chance.from(0, 70_000) as usize, 1),
        _ => {}
    }
    (input, repeats)
}

/// Whether the programs are there and run; as `fm` sees it, by the answer to no input.
fn programs_run() -> bool {
    let runs = |program: &&str| run(program, b"").is_ok_and(|told| told == b"refused 1 0\n");
    let all = PROGRAMS.iter().all(runs);
    if !all {
        println!("the programs are not built, or do not run by themselves and FMS_RUN names nothing to run them by");
    }
    all
}

/// Holds all that a program prints of an input; 27 is told where the table may have a repeat alone.
fn held_with(program: &str, input: &[u8], repeats: bool, name: &str) -> Vec<u8> {
    let told = run(program, input).expect("it starts");
    let wanted = printed(program, input);
    assert!(
        told == wanted,
        "{program}, {name} of {} bytes: told {:?}, wanted {:?}",
        input.len(),
        String::from_utf8_lossy(&told[..told.len().min(200)]),
        String::from_utf8_lossy(&wanted[..wanted.len().min(200)])
    );
    assert!(
        repeats || !told.starts_with(b"refused 27 "),
        "{program}, {name}: a repeat that was not made"
    );
    told
}

/// The same of an input whose table has no repeat.
fn held(program: &str, input: &[u8], name: &str) -> Vec<u8> {
    held_with(program, input, false, name)
}

/// Cut before its table or in the header of it, an input is refused with 1.
fn held_cut(program: &str, input: &[u8]) {
    let (_, from) = question(program, input).expect("a whole input");
    for length in 0..from + 8 {
        let told = held(program, &input[..length], "a cut input");
        assert_eq!(told, b"refused 1 0\n");
    }
}

#[test]
fn programs_print_what_the_paper_says() {
    if !programs_run() {
        return;
    }
    let inputs = std::env::var("FMS_PROGRAMS").map_or(60, |word| word.parse().expect("a number"));
    for program in PROGRAMS {
        let mut chance = Chance::new(0x5EED + program.len() as u64);
        let mut refused = 0;
        for turn in 0..inputs {
            let (input, repeats) = input(&mut chance, program, turn);
            let told = held_with(program, &input, repeats, &format!("input {turn}"));
            refused += usize::from(told.starts_with(b"refused "));
        }
        println!("{program}: {inputs} inputs, {refused} refused");
    }
}

/// fm_study after `c` and `a` and the terms: with id 0 and standard 1 it prints what fm_check and fm_arrange print, with a present
/// or an absent id and with any other standard what the naive desk says; cut in the terms, before the table or in its header it is
/// refused, and so is any other letter.
#[test]
fn a_study_of_a_table() {
    if !programs_run() {
        return;
    }
    let mut chance = Chance::new(19);
    for (turn, manner) in MANNERS.into_iter().enumerate() {
        let scene = scene(&mut chance, manner, 12);
        for (letter, program) in [(b'c', "fm_check"), (b'a', "fm_arrange")] {
            let mut plain = Vec::new();
            put_question(&mut chance, program, &scene, &mut plain);
            plain.extend(scene.table());
            let study = |id, standard| [&[letter][..], &terms_bytes(id, standard), &plain].concat();
            let told = held("fm_study", &study(0, 1), "id 0");
            assert_eq!(told, run(program, &plain).expect("it starts"));
            let present = scene.stations.first().map(|station| station.id);
            for id in present.into_iter().chain([0, 4_999, u32::MAX]) {
                for standard in [1, 2, 0, 3, 255] {
                    let name = format!("id {id} by standard {standard}");
                    held("fm_study", &study(id, standard), &name);
                }
            }
            for other in [0, b'b', b'd', b'C', b'A', b'w', 255] {
                let mut input = study(0, 1);
                input[0] = other;
                assert_eq!(held("fm_study", &input, "another letter"), b"refused 1 0\n");
            }
            if turn == 0 {
                for standard in [1, 2, 0] {
                    held_cut("fm_study", &study(present.unwrap_or(7), standard));
                }
            }
        }
    }
}

/// fm_reason: the paper's example by either standard and by none, and the same with its station and with an absent one left aside;
/// stations that are short by the same, where it prints what the naive desk says, and `clear` exactly where fm_study prints
/// `short 0`.
#[test]
fn a_reason_for_a_sheet() {
    if !programs_run() {
        return;
    }
    let example = |lon, aside, standard| {
        let (asked, table) = (asked(250, &class_a(0, lon)), table_of_one(250, 0, 0, 0));
        [&asked[..], &terms_bytes(aside, standard), &table].concat()
    };
    for (lon, aside, standard, line) in [
        (3_702, 0, 1, "7 114 115 0 1"),
        (3_702, 7, 1, "clear"),
        (3_702, 8, 1, "refused 23 0"),
        (3_702, 0, 2, "clear"),
        (2_959, 0, 1, "7 91 115 0 1"),
        (2_959, 0, 2, "7 91 92 0 2"),
        (2_959, 7, 2, "clear"),
        (2_959, 8, 2, "refused 23 0"),
        (2_959, 0, 0, "refused 26 0"),
        (2_959, 8, 3, "refused 26 0"),
        (648_001, 8, 255, "refused 26 0"),
        (648_001, 8, 2, "refused 17 0"),
    ] {
        let told = held("fm_reason", &example(lon, aside, standard), "the example");
        assert_eq!(told, format!("{line}\n").as_bytes());
    }
    for standard in [1, 2, 0] {
        held_cut("fm_reason", &example(0, 0, standard));
    }
    let mut chance = Chance::new(21);
    for turn in 0..8 {
        let standard = turn % 2 + 1;
        let scene = scene(&mut chance, Manner::Level(standard.into()), 8);
        let table = scene.table();
        let (lat, lon) = (scene.area.lat.0 as i32, scene.area.lon.0 as i32);
        let asked = asked(LEVEL + chance.from(0, 2) as u32, &class_a(lat, lon));
        let ids = scene.stations.iter().map(|station| station.id);
        for aside in ids.chain([0]) {
            let terms = terms_bytes(aside, standard);
            let input = [&asked[..], &terms, &table].concat();
            let told = held("fm_reason", &input, &format!("id {aside}"));
            let study = [b"c", &terms[..], &asked, &table].concat();
            let check = run("fm_study", &study).expect("it starts");
            assert_eq!(told == b"clear\n", check == b"short 0\n");
        }
    }
}

/// A station ten seconds of longitude from the site, across the 180th meridian; and made scenes across it.
#[test]
fn across_the_meridian() {
    if !programs_run() {
        return;
    }
    let asked = asked(250, &class_a(186_720, 647_999));
    let table = table_of_one(250, 0, 186_720, -647_991);
    let [full, lesser] = [1, 2].map(|standard| terms_bytes(0, standard));
    for (program, head, told) in [
        ("fm_check", &[&asked[..]][..], "short 1\n7 0 115\n"),
        ("fm_reason", &[&asked, &full], "7 0 115 0 1\n"),
        ("fm_reason", &[&asked, &lesser], "7 0 92 0 2\n"),
        ("fm_study", &[b"c", &full, &asked], "short 1\n7 0 115\n"),
        ("fm_study", &[b"c", &lesser, &asked], "short 1\n7 0 92\n"),
        (
            "fm_change",
            &[b"a", &[0, 0, 0, 9], &asked],
            "refused 20 0\n",
        ),
    ] {
        let input = [&head.concat()[..], &table].concat();
        assert_eq!(held(program, &input, "the example"), told.as_bytes());
    }
    let distance = [b"d", &asked[4..], &table[16..]].concat();
    assert_eq!(held("fm_study", &distance, "the example"), b"0\n");
    let mut chance = Chance::new(24);
    for program in PROGRAMS {
        for turn in 0..16 {
            let scene = scene(&mut chance, Manner::Meridian, 12);
            let mut input = Vec::new();
            if put_question(&mut chance, program, &scene, &mut input) {
                input.extend(scene.table());
            }
            held(program, &input, &format!("scene {turn}"));
        }
    }
}

/// What stands before a table in an input of each program, one for each letter that it knows: about 250 at (0, 0), where all dense
/// stations are short, and with their first id; the Add far from them, with an id behind theirs.
fn heads() -> [(&'static str, Vec<u8>); 8] {
    let [first, behind] = [10, 40_001].map(u32::to_be_bytes);
    let [full, lesser] = [1, 2].map(|standard| terms_bytes(10, standard));
    let [short, spaced] = [0, 200_000].map(|lat| asked(250, &class_a(lat, 0)));
    let head = |program, parts: &[&[u8]]| (program, parts.concat());
    [
        head("fm_check", &[&short]),
        head("fm_reason", &[&short, &lesser]),
        head("fm_arrange", &[&short[2..]]),
        head("fm_study", &[b"c", &full, &short]),
        head("fm_study", &[b"a", &lesser, &short[2..]]),
        head("fm_change", &[b"a", &behind, &spaced]),
        head("fm_change", &[b"w", &first]),
        head("fm_change", &[b"m", &first, &260u16.to_be_bytes()]),
    ]
}

/// Every program on tables around the line between the versions and around the limit: in either version, cut, and in inputs up to
/// and over the 64 KiB that a program reads.
#[test]
fn tables_around_the_lines() {
    if !programs_run() {
        return;
    }
    let stations = dense(LIMIT + 1, 0);
    for (program, head) in heads() {
        let hold = |table: &[u8], name: &str| held(program, &[&head, table].concat(), name);
        for (version, counts) in [(1, 0..=LINE), (2, LINE + 1..=LIMIT)] {
            for count in [LINE - 1, LINE, LINE + 1, LIMIT - 1, LIMIT, LIMIT + 1] {
                let name = format!("{count} stations in version {version}");
                let told = hold(&image_in(version, &stations[..count]), &name);
                assert_eq!(told != b"refused 5 0\n", counts.contains(&count), "{name}");
            }
        }
        for count in [LINE + 1, LIMIT] {
            let table = image_of(&stations[..count]);
            for length in [9, table.len() - 16, table.len() - 1] {
                assert_eq!(hold(&table[..length], "a cut table"), b"refused 6 0\n");
            }
            for length in [(1 << 16) - 1, 1 << 16, (1 << 16) + 1, 100_000] {
                let mut longer = table.clone();
                longer.resize(length - head.len(), 0);
                assert_eq!(hold(&longer, "an overlong input"), b"refused 6 0\n");
            }
        }
    }
}

/// A repeat at any place of a table: every program refuses it with the position of the later record.
#[test]
fn repeats_in_a_table() {
    if !programs_run() {
        return;
    }
    let mut chance = Chance::new(32);
    for (program, head) in heads() {
        for (count, earlier, later) in [
            (2, 0, 1),
            (40, 3, 30),
            (LINE, 0, LINE - 1),
            (LINE + 1, LINE - 1, LINE),
            (LIMIT, 1, LIMIT - 1),
        ] {
            let mut stations = dense(count, 0);
            repeat(&mut chance, &mut stations, earlier, later);
            let input = [&head[..], &image_of(&stations)].concat();
            let told = held_with(program, &input, true, "a repeat");
            assert_eq!(told, format!("refused 27 {later}\n").as_bytes());
        }
    }
}

/// The longest output of a check: 4,000 stations with ids of ten digits, each short at a distance of three.
#[test]
fn a_check_of_4000() {
    if !programs_run() {
        return;
    }
    let mut stations = dense(LIMIT, 3_400);
    for (station, id) in stations.iter_mut().rev().zip((0..=u32::MAX).rev()) {
        station.id = id;
    }
    let question = asked(250, &class_a(0, 0));
    let table = image_of(&stations);
    let told = held("fm_check", &[&question[..], &table].concat(), "all short");
    assert_eq!(
        told.len(),
        "short 4000\n".len() + LIMIT * "4294967295 105 115\n".len()
    );
    let study = [b"c", &terms_bytes(0, 1)[..], &question, &table].concat();
    assert_eq!(held("fm_study", &study, "all short"), told);
}

/// The arrangements in a region of 4,000 stations, with nobody and, by either standard, with its first station left aside.
#[test]
fn a_region_of_4000() {
    if !programs_run() {
        return;
    }
    let table = region(1, LIMIT);
    for proposal in region_proposals(2, 2) {
        let plain = [&proposal_bytes(&proposal)[..], &table].concat();
        held("fm_arrange", &plain, "a region");
        for standard in [1, 2] {
            let study = [b"a", &table[8..12], &[standard], &plain].concat();
            held("fm_study", &study, "a region");
        }
    }
}

/// What fm_change prints is the next table: from 2,000 stations over the line and back, and from 3,999 to the limit, at which there
/// is no other Add, and back.
#[test]
fn changes_across_the_lines() {
    if !programs_run() {
        return;
    }
    let change = |head: &[&[u8]], table: &[u8]| {
        held("fm_change", &[&head.concat(), table].concat(), "a change")
    };
    let [new, next] = [40_001, 40_002].map(u32::to_be_bytes);
    let [here, there] = [0, 20_000].map(|lon| asked(250, &class_a(200_000, lon)));
    for count in [LINE, LIMIT - 1] {
        let first = image_of(&dense(count, 0));
        let longer = change(&[b"a", &new, &here], &first);
        assert_eq!(longer[..8], image_of(&dense(count + 1, 0))[..8]);
        let again = change(&[b"a", &next, &there], &longer);
        assert_eq!(again == b"refused 21 0\n", count + 1 == LIMIT);
        assert_eq!(change(&[b"w", &new], &longer), first);
    }
}
