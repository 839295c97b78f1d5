//! The eight questions, and the limit, as the papers say them, in the plainest words and wide numbers.

use crate::question::{Answer, Lent, Proposal, Question, Terms};
use std::cmp::Reverse;
use std::ops::RangeInclusive;

/// One record of a table.
#[derive(Clone, Copy, Debug, PartialEq, Eq)]
pub struct Station {
    pub id: u32,
    pub channel: u32,
    pub class: u32,
    pub flags: u32,
    pub lat: i32,
    pub lon: i32,
}

impl Station {
    /// Not fixed, and above channel 220.
    pub fn movable(&self) -> bool {
        self.flags & 1 == 0 && self.channel > 220
    }
}

/// A refusal's number and its extra number.
#[derive(Clone, Copy, Debug)]
pub struct Refusal {
    number: u32,
    extra: usize,
}

fn refuse<T>(number: u32, extra: usize) -> Result<T, Refusal> {
    Err(Refusal { number, extra })
}

const A: u32 = 0;
const B1: u32 = 1;
const B: u32 = 2;
const C3: u32 = 3;
const C2: u32 = 4;
const C1: u32 = 5;
const C0: u32 = 6;
const C: u32 = 7;

/// Table A of §73.207(b)(1): the km of the four columns for each pair of classes.
const TABLE_A: [(u32, u32, [u32; 4]); 36] = [
    (A, A, [115, 72, 31, 10]),
    (A, B1, [143, 96, 48, 12]),
    (A, B, [178, 113, 69, 15]),
    (A, C3, [142, 89, 42, 12]),
    (A, C2, [166, 106, 55, 15]),
    (A, C1, [200, 133, 75, 22]),
    (A, C0, [215, 152, 86, 25]),
    (A, C, [226, 165, 95, 29]),
    (B1, B1, [175, 114, 50, 14]),
    (B1, B, [211, 145, 71, 17]),
    (B1, C3, [175, 114, 50, 14]),
    (B1, C2, [200, 134, 56, 17]),
    (B1, C1, [233, 161, 77, 24]),
    (B1, C0, [248, 180, 87, 27]),
    (B1, C, [259, 193, 105, 31]),
    (B, B, [241, 169, 74, 20]),
    (B, C3, [211, 145, 71, 17]),
    (B, C2, [241, 169, 74, 20]),
    (B, C1, [270, 195, 79, 27]),
    (B, C0, [272, 214, 89, 31]),
    (B, C, [274, 217, 105, 35]),
    (C3, C3, [153, 99, 43, 14]),
    (C3, C2, [177, 117, 56, 17]),
    (C3, C1, [211, 144, 76, 24]),
    (C3, C0, [226, 163, 87, 27]),
    (C3, C, [237, 176, 96, 31]),
    (C2, C2, [190, 130, 58, 20]),
    (C2, C1, [224, 158, 79, 27]),
    (C2, C0, [239, 176, 89, 31]),
    (C2, C, [249, 188, 105, 35]),
    (C1, C1, [245, 177, 82, 34]),
    (C1, C0, [259, 196, 94, 37]),
    (C1, C, [270, 209, 105, 41]),
    (C0, C0, [270, 207, 96, 41]),
    (C0, C, [281, 220, 105, 45]),
    (C, C, [290, 241, 105, 48]),
];

/// The lesser table of §73.215(e): the km of co-channel, 200 kHz and 400/600 kHz for each relation.
const LESSER: [(u32, u32, [u32; 3]); 36] = [
    (A, A, [92, 49, 25]),
    (A, B1, [119, 72, 42]),
    (A, B, [143, 96, 63]),
    (A, C3, [119, 72, 36]),
    (A, C2, [143, 89, 49]),
    (A, C1, [178, 111, 69]),
    (A, C0, [193, 130, 80]),
    (A, C, [203, 142, 89]),
    (B1, B1, [143, 96, 44]),
    (B1, B, [178, 114, 65]),
    (B1, C3, [143, 96, 44]),
    (B1, C2, [175, 114, 50]),
    (B1, C1, [200, 134, 71]),
    (B1, C0, [215, 153, 81]),
    (B1, C, [233, 165, 99]),
    (B, B, [211, 145, 68]),
    (B, C3, [178, 114, 65]),
    (B, C2, [211, 145, 68]),
    (B, C1, [241, 169, 73]),
    (B, C0, [266, 195, 83]),
    (B, C, [268, 195, 99]),
    (C3, C3, [142, 89, 37]),
    (C3, C2, [166, 106, 50]),
    (C3, C1, [200, 133, 70]),
    (C3, C0, [215, 152, 81]),
    (C3, C, [226, 165, 90]),
    (C2, C2, [177, 117, 52]),
    (C2, C1, [211, 144, 73]),
    (C2, C0, [227, 163, 83]),
    (C2, C, [237, 176, 96]),
    (C1, C1, [224, 158, 76]),
    (C1, C0, [239, 176, 88]),
    (C1, C, [249, 188, 99]),
    (C0, C0, [259, 196, 90]),
    (C0, C, [270, 207, 99]),
    (C, C, [270, 209, 99]),
];

/// The km that a table lists for two classes in any order, at a column, where it lists them.
fn listed<const COLUMNS: usize>(
    table: &[(u32, u32, [u32; COLUMNS])],
    a: u32,
    b: u32,
    column: usize,
) -> Option<u32> {
    for (first, second, columns) in table {
        if (*first, *second) == (a, b) || (*first, *second) == (b, a) {
            return columns.get(column).copied();
        }
    }
    None
}

/// The standard of Table A, and that of the lesser table.
const BY_TABLE_A: u32 = 1;
const BY_LESSER: u32 = 2;

/// The km of a standard for two classes in any order, at a column; what the lesser table does not list keeps its Table A value.
pub fn km(standard: u32, a: u32, b: u32, column: usize) -> u32 {
    let lesser = match standard {
        BY_LESSER => listed(&LESSER, a, b, column),
        _ => None,
    };
    lesser
        .or_else(|| listed(&TABLE_A, a, b, column))
        .expect("every pair of classes stands in Table A")
}

/// The limit of Table A that S is held to for two classes in any order, at a column: (10,000 R - 5,000)², in square decimetres; 0
/// where there is no such class or column.
pub fn limit(a: u32, b: u32, column: u32) -> u64 {
    if a > 7 || b > 7 || column > 3 {
        return 0;
    }
    let decimetres = 10_000 * i128::from(km(BY_TABLE_A, a, b, column as usize)) - 5_000;
    (decimetres * decimetres) as u64
}

const E: i128 = 1_000_000_000;

/// The cosines of 1 to 5 times a mean latitude of h half-seconds; index 0 is not used.
pub fn cosines(h: i128) -> [i128; 6] {
    let x = h * 2_424_068_405_548 / E;
    let mut t = E;
    let mut c1 = t;
    for k in 0..9 {
        t = (t * x / E) * x / E / ((2 * k + 1) * (2 * k + 2));
        c1 += if k % 2 == 0 { -t } else { t };
    }
    let c2 = 2 * (c1 * c1 / E) - E;
    let c4 = 2 * (c2 * c2 / E) - E;
    let c3 = 2 * (c1 * c2 / E) - c1;
    let c5 = 2 * (c1 * c4 / E) - c3;
    [0, c1, c2, c3, c4, c5]
}

/// P and Q at a mean latitude of h half-seconds.
pub fn degrees(h: i128) -> (i128, i128) {
    let [_, c1, c2, c3, c4, c5] = cosines(h);
    let p = 1_111_320_900 - 5_660_500 * c2 / E + 12_000 * c4 / E;
    let q = 1_114_151_300 * c1 / E - 945_500 * c3 / E + 1_200 * c5 / E;
    (p, q)
}

/// The difference of two longitudes; one over 648,000 is replaced by 1,296,000 less it.
fn longitude_difference(lon1: i128, lon2: i128) -> i128 {
    let plain = (lon1 - lon2).abs();
    if plain > 648_000 {
        1_296_000 - plain
    } else {
        plain
    }
}

/// S, in square decimetres.
pub fn squared(lat1: i32, lon1: i32, lat2: i32, lon2: i32) -> i128 {
    let [lat1, lon1, lat2, lon2] = [lat1, lon1, lat2, lon2].map(i128::from);
    let (p, q) = degrees((lat1 + lat2).abs());
    let ns = (lat1 - lat2).abs() * p / 3_600_000;
    let ew = longitude_difference(lon1, lon2) * q / 3_600_000;
    ns * ns + ew * ew
}

/// The least D with S below (10,000 D + 5,000)²; so S is at least (10,000 D - 5,000)² where D is above 0.
pub fn rounded(s: i128) -> u32 {
    let below = |d: i128| s < (10_000 * d + 5_000) * (10_000 * d + 5_000);
    let (mut no, mut yes) = (-1, 1_000_000);
    while yes - no > 1 {
        let middle = (no + yes) / 2;
        if below(middle) {
            yes = middle;
        } else {
            no = middle;
        }
    }
    yes as u32
}

/// D of two stations.
fn kilometres(a: &Station, b: &Station) -> u32 {
    rounded(squared(a.lat, a.lon, b.lat, b.lon))
}

/// The column by which two stations have a requirement, where they have one.
fn column(a: &Station, b: &Station) -> Option<usize> {
    if a.channel <= 220 && b.channel <= 220 {
        return None;
    }
    match a.channel.abs_diff(b.channel) {
        0 => Some(0),
        1 => Some(1),
        2 | 3 => Some(2),
        53 | 54 => Some(3),
        _ => None,
    }
}

/// Why one station is blocked by another by a standard, where D is below R: id, D, R and column.
fn blocked_by(one: &Station, other: &Station, standard: u32) -> Option<[u32; 4]> {
    let column = column(one, other)?;
    let d = kilometres(one, other);
    let r = km(standard, one.class, other.class, column);
    (d < r).then_some([other.id, d, r, column as u32])
}

/// Two stations are short by a standard: D is below R.
pub fn short(a: &Station, b: &Station, standard: u32) -> bool {
    blocked_by(a, b, standard).is_some()
}

fn site_in_range(lat: i32, lon: i32) -> bool {
    (-270_000..=270_000).contains(&lat) && (-648_000..=648_000).contains(&lon)
}

fn number(bytes: &[u8]) -> u32 {
    bytes
        .iter()
        .fold(0, |so_far, &byte| so_far << 8 | u32::from(byte))
}

/// The longest list that has an image.
const LIMIT: usize = 4_000;

/// The versions of an image, each with the counts that it carries.
const VERSIONS: [(u16, RangeInclusive<usize>); 2] = [(1, 0..=2_000), (2, 2_001..=LIMIT)];

/// The stations of a table, or its refusal.
pub type Judged = Result<Vec<Station>, Refusal>;

/// What a table is.
pub fn judge(table: &[u8]) -> Judged {
    if table.len() < 8 {
        return refuse(1, 0);
    }
    if &table[0..3] != b"FMS" {
        return refuse(2, 0);
    }
    let version = number(&table[3..5]);
    let Some((_, counts)) = VERSIONS.iter().find(|&&(one, _)| u32::from(one) == version) else {
        return refuse(3, 0);
    };
    if table[5] != 0 {
        return refuse(4, 0);
    }
    let count = number(&table[6..8]) as usize;
    if !counts.contains(&count) {
        return refuse(5, 0);
    }
    if table.len() != 8 + 16 * count {
        return refuse(6, 0);
    }
    let mut stations: Vec<Station> = Vec::new();
    for (position, record) in table[8..].chunks(16).enumerate() {
        let station = Station {
            id: number(&record[0..4]),
            channel: number(&record[4..6]),
            class: number(&record[6..7]),
            flags: number(&record[7..8]),
            lat: number(&record[8..12]) as i32,
            lon: number(&record[12..16]) as i32,
        };
        if station.id == 0
            || stations
                .last()
                .is_some_and(|before| station.id <= before.id)
        {
            return refuse(7, position);
        }
        if !(201..=300).contains(&station.channel) {
            return refuse(8, position);
        }
        if station.class > 7 {
            return refuse(9, position);
        }
        if station.flags & !1 != 0 {
            return refuse(10, position);
        }
        if !site_in_range(station.lat, 0) {
            return refuse(11, position);
        }
        if !site_in_range(0, station.lon) {
            return refuse(12, position);
        }
        stations.push(station);
    }
    if let Some(position) = first_repeat(&stations) {
        return refuse(27, position);
    }
    Ok(stations)
}

/// The position of the first station that agrees with an earlier one in channel, class, latitude and longitude.
fn first_repeat(stations: &[Station]) -> Option<usize> {
    (0..stations.len()).find(|&later| {
        let one = &stations[later];
        stations[..later].iter().any(|other| {
            one.lat == other.lat
                && one.lon == other.lon
                && one.channel == other.channel
                && one.class == other.class
        })
    })
}

/// The image of a list of stations, in the one version that carries its count.
pub fn image_of(stations: &[Station]) -> Vec<u8> {
    let mut versions = VERSIONS.iter();
    let (version, _) = versions
        .find(|(_, counts)| counts.contains(&stations.len()))
        .expect("a list of at most 4,000");
    image_in(*version, stations)
}

/// The bytes of an image with a version, right or wrong, and a list of stations.
pub fn image_in(version: u16, stations: &[Station]) -> Vec<u8> {
    let mut image = b"FMS".to_vec();
    image.extend(version.to_be_bytes());
    image.push(0);
    image.extend((stations.len() as u16).to_be_bytes());
    for station in stations {
        image.extend(station.id.to_be_bytes());
        image.extend((station.channel as u16).to_be_bytes());
        image.push(station.class as u8);
        image.push(station.flags as u8);
        image.extend(station.lat.to_be_bytes());
        image.extend(station.lon.to_be_bytes());
    }
    image
}

/// The checks 13 to 16 of what is asked.
fn judge_asked(first: u32, last: u32, proposal: &Proposal) -> Result<(), Refusal> {
    judge_channel(first)?;
    judge_channel(last)?;
    if first > last {
        return refuse(13, 0);
    }
    if proposal.station_class > 7 {
        return refuse(14, 0);
    }
    let permitted: &[u32] = match proposal.zone {
        1 | 2 => &[A, B1, B],
        3 => &[A, C3, C2, C1, C0, C],
        _ => return refuse(15, 0),
    };
    if !permitted.contains(&proposal.station_class) {
        return refuse(16, 0);
    }
    Ok(())
}

fn judge_standard(standard: u32) -> Result<(), Refusal> {
    if ![BY_TABLE_A, BY_LESSER].contains(&standard) {
        return refuse(26, 0);
    }
    Ok(())
}

fn judge_site(lat: i32, lon: i32) -> Result<(), Refusal> {
    if !site_in_range(lat, lon) {
        return refuse(17, 0);
    }
    Ok(())
}

fn judge_channel(channel: u32) -> Result<(), Refusal> {
    if !(221..=300).contains(&channel) {
        return refuse(13, 0);
    }
    Ok(())
}

/// The station that a proposal would be on a channel.
fn proposed(id: u32, channel: u32, proposal: &Proposal) -> Station {
    Station {
        id,
        channel,
        class: proposal.station_class,
        flags: 0,
        lat: proposal.lat,
        lon: proposal.lon,
    }
}

/// The positions of the stations that are short to one by a standard, a position left out.
fn short_to(
    stations: &[Station],
    one: &Station,
    left_out: Option<usize>,
    standard: u32,
) -> Vec<usize> {
    (0..stations.len())
        .filter(|&i| Some(i) != left_out && short(one, &stations[i], standard))
        .collect()
}

fn position_of(stations: &[Station], id: u32) -> Option<usize> {
    stations.iter().position(|station| station.id == id)
}

fn added(judged: Judged, id: u32, channel: u32, proposal: &Proposal) -> Result<Vec<u8>, Refusal> {
    let mut stations = judged?;
    judge_asked(channel, channel, proposal)?;
    judge_site(proposal.lat, proposal.lon)?;
    if id == 0 {
        return refuse(18, 0);
    }
    if let Some(position) = position_of(&stations, id) {
        return refuse(19, position);
    }
    let station = proposed(id, channel, proposal);
    if let Some(&position) = short_to(&stations, &station, None, BY_TABLE_A).first() {
        return refuse(20, position);
    }
    if stations.len() == LIMIT {
        return refuse(21, 0);
    }
    stations.push(station);
    stations.sort_by_key(|station| station.id);
    Ok(image_of(&stations))
}

fn withdrawn(judged: Judged, id: u32) -> Result<Vec<u8>, Refusal> {
    let mut stations = judged?;
    let Some(position) = position_of(&stations, id) else {
        return refuse(23, 0);
    };
    stations.remove(position);
    Ok(image_of(&stations))
}

fn moved(judged: Judged, id: u32, channel: u32) -> Result<Vec<u8>, Refusal> {
    let mut stations = judged?;
    judge_channel(channel)?;
    let Some(position) = position_of(&stations, id) else {
        return refuse(23, 0);
    };
    if !stations[position].movable() {
        return refuse(25, position);
    }
    stations[position].channel = channel;
    if let Some(&other) =
        short_to(&stations, &stations[position], Some(position), BY_TABLE_A).first()
    {
        return refuse(20, other);
    }
    Ok(image_of(&stations))
}

/// The stations of a table without the one that is left aside, where the proposal may be asked about; 0 leaves nobody aside.
fn studied(
    judged: Judged,
    first: u32,
    last: u32,
    proposal: &Proposal,
    terms: &Terms,
) -> Result<Vec<Station>, Refusal> {
    let mut stations = judged?;
    judge_asked(first, last, proposal)?;
    judge_standard(terms.standard)?;
    judge_site(proposal.lat, proposal.lon)?;
    if terms.aside == 0 {
        return Ok(stations);
    }
    let Some(position) = position_of(&stations, terms.aside) else {
        return refuse(23, 0);
    };
    stations.remove(position);
    Ok(stations)
}

/// Why a proposal is blocked, by each station that it is short to, in table order.
fn blockers(
    judged: Judged,
    channel: u32,
    proposal: &Proposal,
    terms: &Terms,
) -> Result<Vec<[u32; 4]>, Refusal> {
    let stations = studied(judged, channel, channel, proposal, terms)?;
    let new = proposed(0, channel, proposal);
    Ok(stations
        .iter()
        .filter_map(|station| blocked_by(&new, station, terms.standard))
        .collect())
}

/// The rows of Check.
fn checked(blockers: Vec<[u32; 4]>) -> Vec<u32> {
    blockers
        .iter()
        .flat_map(|&[id, d, r, _]| [id, d, r])
        .collect()
}

/// The reason among the blockers: the largest shortfall, the lowest id among equals.
fn reason(blockers: Vec<[u32; 4]>) -> Option<[u32; 4]> {
    blockers
        .into_iter()
        .max_by_key(|&[id, d, r, _]| (r - d, Reverse(id)))
}

/// Where the sixteen bytes of the station with an id begin in a table.
fn place_in(table: &[u8], id: u32) -> usize {
    let mut places = (8..table.len()).step_by(16);
    places
        .find(|&place| number(&table[place..place + 4]) == id)
        .expect("it stands in the table")
}

fn arranged(
    judged: Judged,
    first: u32,
    last: u32,
    proposal: &Proposal,
    terms: &Terms,
) -> Result<Vec<u32>, Refusal> {
    let stations = studied(judged, first, last, proposal, terms)?;
    let mut rows = Vec::new();
    for channel in first..=last {
        let new = proposed(0, channel, proposal);
        let blockers = short_to(&stations, &new, None, terms.standard);
        if blockers.is_empty() {
            rows.extend([channel, 0, 0]);
            continue;
        }
        for (position, station) in stations.iter().enumerate() {
            if !station.movable() || blockers.iter().any(|&blocker| blocker != position) {
                continue;
            }
            for moved_channel in 221..=300 {
                let moved = Station {
                    channel: moved_channel,
                    ..*station
                };
                if moved_channel != station.channel
                    && !short(&new, &moved, terms.standard)
                    && short_to(&stations, &moved, Some(position), terms.standard).is_empty()
                {
                    rows.extend([channel, station.id, moved_channel]);
                }
            }
        }
    }
    Ok(rows)
}

/// The rounded distance between two sites, up to 475 km.
fn distant(lat1: i32, lon1: i32, lat2: i32, lon2: i32) -> Result<u32, Refusal> {
    judge_site(lat1, lon1)?;
    judge_site(lat2, lon2)?;
    let d = rounded(squared(lat1, lon1, lat2, lon2));
    if d > 475 {
        return refuse(24, 0);
    }
    Ok(d)
}

/// What is granted is written, if it fits, and its length told.
fn delivered<T: Copy>(outcome: Result<Vec<T>, Refusal>, buffer: &mut [T]) -> Result<u32, Refusal> {
    let content = outcome?;
    if buffer.len() < content.len() {
        return refuse(22, content.len());
    }
    buffer[..content.len()].copy_from_slice(&content);
    Ok(content.len() as u32)
}

/// A reason is written, and its place in the table told; 0 where there is none.
fn told(reason: Option<[u32; 4]>, table: &[u8], buffer: &mut [u32; 4]) -> u32 {
    let Some(numbers) = reason else {
        return 0;
    };
    *buffer = numbers;
    place_in(table, numbers[0]) as u32
}

/// Any question.
pub fn ask(question: &Question, table: &[u8], lent: Lent) -> Answer {
    ask_judged(question, table, judge(table), lent)
}

/// Any question, where it is known what the table is.
pub fn ask_judged(question: &Question, table: &[u8], judged: Judged, lent: Lent) -> Answer {
    let outcome = match question {
        Question::Read => judged.map(|stations| stations.len() as u32),
        Question::Distance {
            lat1,
            lon1,
            lat2,
            lon2,
        } => distant(*lat1, *lon1, *lat2, *lon2),
        Question::Add {
            id,
            channel,
            proposal,
        } => delivered(added(judged, *id, *channel, proposal), lent.image),
        Question::Withdraw { id } => delivered(withdrawn(judged, *id), lent.image),
        Question::Move { id, channel } => delivered(moved(judged, *id, *channel), lent.image),
        Question::Check {
            channel,
            proposal,
            terms,
        } => {
            let blockers = blockers(judged, *channel, proposal, terms);
            delivered(blockers.map(checked), lent.rows)
        }
        Question::Arrange {
            first,
            last,
            proposal,
            terms,
        } => delivered(arranged(judged, *first, *last, proposal, terms), lent.rows),
        Question::Reason {
            channel,
            proposal,
            terms,
        } => blockers(judged, *channel, proposal, terms)
            .map(|blockers| told(reason(blockers), table, lent.reason)),
    };
    match outcome {
        Ok(count) => Answer::Granted(count),
        Err(Refusal { number, extra }) => Answer::Refused {
            number,
            extra: extra as u32,
        },
    }
}
