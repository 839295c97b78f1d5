//! The eight questions, and the limit, tuned by hand for few instructions, in safe Rust. Far records are passed over by one
//! subtraction and one comparison: by their latitude alone, or, with `BOX`, by a box of latitudes and longitudes around the site,
//! also where it lies across the 180th meridian. Records are judged and passed over one a turn, and with `BOX` four.

use crate::question::{Answer, Lent, Proposal, Question, Terms};

const HEADER: usize = 8;
const RECORD: usize = 16;

/// The most stations of a table of version 1, and of one of version 2.
const LINE: u16 = 2_000;
const LIMIT: u16 = 4_000;

/// The sixteen bytes of a station.
pub(crate) type Record = [u8; RECORD];

/// Table A of §73.207(b)(1), one row of four for each pair of classes, in the document's order.
const TABLE_A: [[u16; 4]; 36] = [
    [115, 72, 31, 10],
    [143, 96, 48, 12],
    [178, 113, 69, 15],
    [142, 89, 42, 12],
    [166, 106, 55, 15],
    [200, 133, 75, 22],
    [215, 152, 86, 25],
    [226, 165, 95, 29],
    [175, 114, 50, 14],
    [211, 145, 71, 17],
    [175, 114, 50, 14],
    [200, 134, 56, 17],
    [233, 161, 77, 24],
    [248, 180, 87, 27],
    [259, 193, 105, 31],
    [241, 169, 74, 20],
    [211, 145, 71, 17],
    [241, 169, 74, 20],
    [270, 195, 79, 27],
    [272, 214, 89, 31],
    [274, 217, 105, 35],
    [153, 99, 43, 14],
    [177, 117, 56, 17],
    [211, 144, 76, 24],
    [226, 163, 87, 27],
    [237, 176, 96, 31],
    [190, 130, 58, 20],
    [224, 158, 79, 27],
    [239, 176, 89, 31],
    [249, 188, 105, 35],
    [245, 177, 82, 34],
    [259, 196, 94, 37],
    [270, 209, 105, 41],
    [270, 207, 96, 41],
    [281, 220, 105, 45],
    [290, 241, 105, 48],
];

/// The lesser table of §73.215(e) in the same order, one row of three: the fourth column keeps its Table A value.
const LESSER: [[u16; 3]; 36] = [
    [92, 49, 25],
    [119, 72, 42],
    [143, 96, 63],
    [119, 72, 36],
    [143, 89, 49],
    [178, 111, 69],
    [193, 130, 80],
    [203, 142, 89],
    [143, 96, 44],
    [178, 114, 65],
    [143, 96, 44],
    [175, 114, 50],
    [200, 134, 71],
    [215, 153, 81],
    [233, 165, 99],
    [211, 145, 68],
    [178, 114, 65],
    [211, 145, 68],
    [241, 169, 73],
    [266, 195, 83],
    [268, 195, 99],
    [142, 89, 37],
    [166, 106, 50],
    [200, 133, 70],
    [215, 152, 81],
    [226, 165, 90],
    [177, 117, 52],
    [211, 144, 73],
    [227, 163, 83],
    [237, 176, 96],
    [224, 158, 76],
    [239, 176, 88],
    [249, 188, 99],
    [259, 196, 90],
    [270, 207, 99],
    [270, 209, 99],
];

/// Table A with the columns that the lesser table lists put in their places.
const fn lesser() -> [[u16; 4]; 36] {
    let mut table = TABLE_A;
    let mut row = 0;
    while row < 36 {
        let [co_channel, first, second_and_third] = LESSER[row];
        table[row] = [co_channel, first, second_and_third, table[row][3]];
        row += 1;
    }
    table
}

/// A separation in km, the square that S is held against, and the seconds of latitude that alone are enough.
#[derive(Clone, Copy)]
struct Limit {
    squared: u64,
    apart: u32,
    km: u32,
}

impl Limit {
    const fn of(km: u32) -> Limit {
        let decimetres = decimetres(km);
        Limit {
            squared: decimetres * decimetres,
            apart: (decimetres * 3_600_000).div_ceil(LEAST_P) as u32,
            km,
        }
    }
}

/// A length that no degree of latitude falls below.
const LEAST_P: u64 = 1_105_648_400;

/// The least distance that rounds to a separation.
const fn decimetres(km: u32) -> u64 {
    10_000 * km as u64 - 5_000
}

/// The limits of one class: by the other class, then by column. Class C, the last, reaches farthest.
type Limits = [[Limit; 4]; 8];

/// The limits of every class by one table.
type Standard = [Limits; 8];

/// By Table A, as Add and Move always go.
static BY_TABLE_A: Standard = limits(&TABLE_A);

/// By the lesser table.
static BY_LESSER: Standard = limits(&lesser());

const fn limits(separations: &[[u16; 4]; 36]) -> Standard {
    let mut table = [[[Limit::of(1); 4]; 8]; 8];
    let (mut row, mut low, mut high) = (0, 0, 0);
    while row < 36 {
        let mut column = 0;
        while column < 4 {
            let limit = Limit::of(separations[row][column] as u32);
            table[low][high][column] = limit;
            table[high][low][column] = limit;
            column += 1;
        }
        row += 1;
        if high == 7 {
            low += 1;
            high = low;
        } else {
            high += 1;
        }
    }
    table
}

/// The square that S is held against by Table A, for two classes in any order, at a column; 0 where there is no such class or
/// column.
pub fn limit(a: u32, b: u32, column: u32) -> u64 {
    BY_TABLE_A
        .get(a as usize)
        .and_then(|limits| limits.get(b as usize))
        .and_then(|columns| columns.get(column as usize))
        .map_or(0, |limit| limit.squared)
}

/// Channels 221 to 300 as bits 0 to 79.
type Channels = u128;

/// All of them.
const EVERY: Channels = (1 << 80) - 1;

/// A table by channel: the low byte tells 201 to 300 apart.
type ByChannel<T> = [T; 256];

/// The channels that a station blocks: co-channel alone, with the first neighbours, with the second and third.
static BANDS: [ByChannel<Channels>; 3] = [within(0, 0), within(0, 1), within(0, 3)];

/// The channels 53 and 54 away.
static FAR: ByChannel<Channels> = within(53, 54);

/// No channel at all.
static NO_CHANNELS: ByChannel<Channels> = [0; 256];

/// For each channel, those of 221 to 300 whose difference to it lies from `least` to `most`.
const fn within(least: u32, most: u32) -> ByChannel<Channels> {
    let mut table = [0; 256];
    let mut channel: u32 = 201;
    while channel <= 300 {
        let mut other = 221;
        while other <= 300 {
            let difference = channel.abs_diff(other);
            if least <= difference && difference <= most {
                table[channel as usize % 256] |= 1 << (other - 221);
            }
            other += 1;
        }
        channel += 1;
    }
    table
}

/// The channel of a record as an index by channel.
fn by_channel(record: &Record) -> usize {
    usize::from(record[5])
}

fn be32(record: &Record, at: usize) -> u32 {
    u32::from_be_bytes([record[at], record[at + 1], record[at + 2], record[at + 3]])
}

fn id(record: &Record) -> u32 {
    be32(record, 0)
}

fn class(record: &Record) -> usize {
    usize::from(record[6] & 7)
}

fn lat(record: &Record) -> i32 {
    be32(record, 8) as i32
}

fn lon(record: &Record) -> i32 {
    be32(record, 12) as i32
}

/// Not fixed, and above channel 220.
fn movable(record: &Record) -> bool {
    record[7] == 0 && u16::from_be_bytes([record[4], record[5]]) > 220
}

/// What is granted, or the packed word of a refusal.
type Outcome<T> = Result<T, u64>;

fn refusal(number: u32, extra: usize) -> u64 {
    u64::from(number) << 32 | extra as u64
}

/// The records of a table, or its refusal.
fn judge<const BOX: bool>(table: &[u8]) -> Outcome<&[Record]> {
    judge_by::<BOX>(table, first_repeat)
}

/// The same by any search for the position of the first record that repeats an earlier one.
#[inline(always)]
fn judge_by<const BOX: bool>(
    table: &[u8],
    first_repeat: impl Fn(&[Record]) -> Option<usize>,
) -> Outcome<&[Record]> {
    let Some((header, records)) = table.split_first_chunk::<HEADER>() else {
        return Err(refusal(1, 0));
    };
    if header[..3] != *b"FMS" {
        return Err(refusal(2, 0));
    }
    let count = u16::from_be_bytes([header[6], header[7]]);
    let carried = match [header[3], header[4]] {
        [0, 1] => count <= LINE,
        [0, 2] => count > LINE && count <= LIMIT,
        _ => return Err(refusal(3, 0)),
    };
    if header[5] != 0 {
        return Err(refusal(4, 0));
    }
    if !carried {
        return Err(refusal(5, 0));
    }
    if records.len() != RECORD * usize::from(count) {
        return Err(refusal(6, 0));
    }
    let (records, _) = records.as_chunks();
    let sound = if BOX {
        all_sound(records)
    } else {
        sound(records, &mut 0)
    };
    if !sound {
        return Err(first_fault(records));
    }
    match first_repeat(records) {
        Some(position) => Err(refusal(27, position)),
        None => Ok(records),
    }
}

/// Whether no record has a fault, four in a turn.
#[inline(always)]
fn all_sound(records: &[Record]) -> bool {
    let (turns, last) = records.as_chunks::<4>();
    let mut before = 0;
    for turn in turns {
        if !sound(turn, &mut before) {
            return false;
        }
    }
    sound(last, &mut before)
}

/// Whether no record of some has a fault; `before` is the last id before them, and then of them.
#[inline(always)]
fn sound(records: &[Record], before: &mut u32) -> bool {
    for record in records {
        let (id, fields) = (id(record), be32(record, 4));
        if id <= *before
            || fields.wrapping_sub(201 << 16) >= 100 << 16
            || fields & 0xF8FE != 0
            || lat(record).wrapping_add(270_000) as u32 > 540_000
            || lon(record).wrapping_add(648_000) as u32 > 1_296_000
        {
            return false;
        }
        *before = id;
    }
    true
}

/// The refusal of records of which one is not right.
#[cold]
#[inline(never)]
fn first_fault(records: &[Record]) -> u64 {
    let mut before = 0;
    for (position, record) in records.iter().enumerate() {
        let number = fault(record, before);
        if number != 0 {
            return refusal(number, position);
        }
        before = id(record);
    }
    unreachable!("one record is not right")
}

/// What is wrong with a record after one with the id `before`: 7 to 12, or 0.
fn fault(record: &Record, before: u32) -> u32 {
    if id(record) <= before {
        7
    } else if !(201..=300).contains(&u16::from_be_bytes([record[4], record[5]])) {
        8
    } else if record[6] > 7 {
        9
    } else if record[7] > 1 {
        10
    } else if lat(record).unsigned_abs() > 270_000 {
        11
    } else if lon(record).unsigned_abs() > 648_000 {
        12
    } else {
        0
    }
}

/// Half of a record: id, channel, class and flags; or latitude and longitude.
type Half = [u8; RECORD / 2];

/// The slots where ways begin.
const BEGINNINGS: usize = 1 << 12;

/// The other slots: each half of a table has one at its place, so that two are a record's own. A power of two has room for all.
const OWN: usize = 1 << 13;

/// No half of a table.
const EMPTY: u16 = u16::MAX;

/// The position of the first record that agrees with an earlier one in channel, class, latitude and longitude. Each record is put,
/// by the place of its first half, into the first empty slot of its way. A way begins at a slot that the record's number tells, and
/// goes on from each record that it meets to one of that one's own two slots, by the bits of the number from the lowest on. So of
/// two that agree the later meets the earlier.
#[inline(never)]
fn first_repeat(records: &[Record]) -> Option<usize> {
    let (halves, _) = records.as_flattened().as_chunks::<{ RECORD / 2 }>();
    let (_, sites) = halves.split_first()?;
    // Known here, it spares every slot the question whether there is such a one.
    assert!(sites.len() < OWN, "a table has at most 4,000 records");
    let mut beginnings = [EMPTY; BEGINNINGS];
    let mut own = [EMPTY; OWN];
    let mut at = 0;
    while at < sites.len() {
        let number = number_of(&halves[at], &sites[at]);
        let beginning = (number as u32 >> 20) as usize;
        let mut met = usize::from(beginnings[beginning]);
        if met >= sites.len() {
            beginnings[beginning] = at as u16;
            at += 2;
            continue;
        }
        // Its bits are shifted down before each step, and not after it: so no copy of them is made. The highest is lost.
        let (mut way, mut slot) = (number << 1, 0);
        while let Some(site) = sites.get(met) {
            if *site == sites[at] && alike(&halves[met], &halves[at]) {
                return Some(at / 2);
            }
            way >>= 1;
            slot = met | (way & 1) as usize;
            met = usize::from(own[slot]);
        }
        own[slot] = at as u16;
        at += 2;
    }
    None
}

/// The number of a record, of which its first half and its site are given; bytes that are only compared are read the lowest first.
/// Of its low 32 bits the highest 12 are where its way begins.
#[inline(always)]
fn number_of([.., low, class, _]: &Half, [a, b, c, d, e, f, g, h]: &Half) -> u64 {
    let kind = u64::from(u16::from_le_bytes([*low, *class]));
    let north = u64::from(u32::from_le_bytes([*a, *b, *c, *d]));
    let east = u64::from(u32::from_le_bytes([*e, *f, *g, *h]));
    kind * 1_697_706_979 + north * 1_652_984_621 + east * 1_440_846_997
}

/// Whether the first halves of two records agree in channel and class.
fn alike(one: &Half, other: &Half) -> bool {
    let unlike = u64::from_be_bytes(*one) ^ u64::from_be_bytes(*other);
    unlike as u32 >> 8 == 0
}

/// The checks 13 to 16 of what is asked.
fn judge_asked(first: u32, last: u32, proposal: &Proposal) -> Outcome<()> {
    if first < 221 || last > 300 || first > last {
        return Err(refusal(13, 0));
    }
    if proposal.station_class > 7 {
        return Err(refusal(14, 0));
    }
    if proposal.zone.wrapping_sub(1) > 2 {
        return Err(refusal(15, 0));
    }
    let permitted = if proposal.zone == 3 {
        0b1111_1001
    } else {
        0b0000_0111
    };
    if permitted >> proposal.station_class & 1 == 0 {
        return Err(refusal(16, 0));
    }
    Ok(())
}

fn judge_site(lat: i32, lon: i32) -> Outcome<()> {
    if lat.unsigned_abs() > 270_000 || lon.unsigned_abs() > 648_000 {
        return Err(refusal(17, 0));
    }
    Ok(())
}

const E: u64 = 1_000_000_000;

/// a × b / E, cut toward zero.
fn scaled(a: i64, b: i64) -> i64 {
    a * b / E as i64
}

/// A mean latitude of half-seconds as x of the paper.
fn angle(half_seconds: u64) -> u64 {
    half_seconds * 2_424_068_405_548 / E
}

/// The whole circle, in seconds.
const CIRCLE: u32 = 1_296_000;

/// The eastern end of the longitudes, and the way by bits from it up to the western end.
const END: i32 = 648_000;
const BETWEEN: u32 = CIRCLE.wrapping_neg();

/// The difference of two longitudes, the short way round.
#[inline(always)]
fn across(lon1: i32, lon2: i32) -> u32 {
    let plain = lon1.abs_diff(lon2);
    plain.min(CIRCLE - plain)
}

/// S of two sites in range, in square decimetres.
#[inline(always)]
fn squared(lat1: i32, lon1: i32, lat2: i32, lon2: i32) -> u64 {
    let x = angle(u64::from((lat1 + lat2).unsigned_abs()));
    // From t7 on the terms are 0 at every mean latitude in range.
    let t1 = x * x / (2 * E);
    let t2 = t1 * x / E * x / (12 * E);
    let t3 = t2 * x / E * x / (30 * E);
    let t4 = t3 * x / E * x / (56 * E);
    let t5 = t4 * x / E * x / (90 * E);
    let t6 = t5 * x / E * x / (132 * E);
    let c1 = E - t1 + t2 - t3 + t4 - t5 + t6;
    let c2 = (2 * (c1 * c1 / E)) as i64 - E as i64;
    let c4 = (2 * ((c2 * c2) as u64 / E)) as i64 - E as i64;
    let c3 = 2 * scaled(c1 as i64, c2) - c1 as i64;
    let c5 = 2 * scaled(c1 as i64, c4) - c3;
    let p = 1_111_320_900 - scaled(5_660_500, c2) + scaled(12_000, c4);
    let q = (1_114_151_300 * c1 / E) as i64 - scaled(945_500, c3) + scaled(1_200, c5);
    let ns = u64::from((lat1 - lat2).unsigned_abs()) * p as u64 / 3_600_000;
    let ew = u64::from(across(lon1, lon2)) * q as u64 / 3_600_000;
    ns * ns + ew * ew
}

/// A length that no degree of longitude falls below, at the mean of a latitude and any at most 9,500 seconds from it.
fn least_scale(lat: i32) -> u64 {
    let x = angle((2 * u64::from(lat.unsigned_abs()) + 9_500).min(540_000));
    let least = E - x * x / E / 2;
    1_114_151_300 * least / E - 2_842_500
}

/// The whole km nearest to the root of S; a half rounds up.
fn rounded(s: u64) -> u32 {
    ((s.isqrt() + 5_000) / 10_000) as u32
}

/// The one walk over a table: the records that are not passed over, with their positions, in turn.
#[inline(always)]
fn walk<'a, const BOX: bool>(
    records: &'a [Record],
    passed: impl Fn(&Record) -> bool + 'a,
) -> impl Iterator<Item = (usize, &'a Record)> + 'a {
    let mut from = 0;
    std::iter::from_fn(move || {
        let position = if BOX {
            next::<4>(records, from, &passed)
        } else {
            next::<1>(records, from, &passed)
        };
        from = position + 1;
        Some((position, records.get(position)?))
    })
}

/// The first position from a place on whose record is not passed over, so many in a turn; the count where there is none.
#[inline(always)]
fn next<const TURN: usize>(
    records: &[Record],
    from: usize,
    passed: impl Fn(&Record) -> bool,
) -> usize {
    let (turns, last) = records.get(from..).unwrap_or_default().as_chunks::<TURN>();
    let mut position = from;
    for turn in turns {
        if let Some(place) = turn.iter().position(|record| !passed(record)) {
            return position + place;
        }
        position += TURN;
    }
    position + last.iter().take_while(|record| passed(record)).count()
}

/// The limits of a class at a site.
#[derive(Clone, Copy)]
struct Place {
    limits: &'static Limits,
    lat: i32,
    lon: i32,
}

impl Place {
    /// Where a station is proposed.
    fn of(proposal: &Proposal, standard: &'static Standard) -> Place {
        Place {
            limits: &standard[proposal.station_class as usize & 7],
            lat: proposal.lat,
            lon: proposal.lon,
        }
    }

    /// Where a record stands.
    fn at(record: &Record, standard: &'static Standard) -> Place {
        Place {
            limits: &standard[class(record)],
            lat: lat(record),
            lon: lon(record),
        }
    }
}

/// Coordinates by their bits: `low`, and those up to `size` above it, the highest bits followed by 0.
#[derive(Clone, Copy)]
struct Span {
    low: i32,
    size: u32,
}

impl Span {
    /// The numbers up to `far` from one.
    fn around(z: i32, far: u32) -> Span {
        Span {
            low: z - far as i32,
            size: 2 * far,
        }
    }

    /// The longitudes up to `far` from one, the short way round: where they come to one end they go on at the other, and none lies
    /// between.
    fn longitudes(lon: i32, far: u32) -> Span {
        let mut span = Span::around(lon, far);
        if lon + far as i32 >= END {
            span.size += BETWEEN;
        } else if span.low <= -END {
            span.low += CIRCLE as i32;
            span.size += BETWEEN;
        }
        span
    }

    /// Whether a coordinate is none of these.
    #[inline(always)]
    fn misses(&self, z: i32) -> bool {
        z.wrapping_sub(self.low) as u32 > self.size
    }
}

/// A place from which records are looked at.
struct Lookout<const BOX: bool> {
    limits: &'static Limits,
    lat: i32,
    lon: i32,
    /// A length that no degree of longitude falls below between here and a record that is not far.
    scale: u64,
    /// The latitudes outside of which nobody is short.
    lats: Span,
    /// The longitudes outside of which nobody of a class is short.
    lons: [Span; 8],
}

impl<const BOX: bool> Lookout<BOX> {
    fn new(Place { limits, lat, lon }: Place) -> Self {
        let scale = least_scale(lat);
        let east = |km| (decimetres(km) * 3_600_000 / scale) as u32;
        Lookout {
            limits,
            lat,
            lon,
            scale,
            lats: Span::around(lat, limits[7][0].apart - 1),
            lons: limits.map(|limit| Span::longitudes(lon, east(limit[0].km))),
        }
    }

    /// Whether a record is spaced in a column by its latitude alone or its longitude alone: by the limits of the class that
    /// reaches farthest, then by those of its own.
    #[inline(always)]
    fn spaced(&self, record: &Record, column: usize) -> bool {
        self.lats.misses(lat(record))
            || BOX && self.lons[7].misses(lon(record))
            || self.lat.abs_diff(lat(record)) >= self.limits[class(record)][column].apart
            || self.lons[class(record)].misses(lon(record))
    }

    /// The limits of a record's class, and S.
    #[inline(always)]
    fn held(&self, record: &Record) -> (&'static [Limit; 4], u64) {
        (
            &self.limits[class(record)],
            squared(self.lat, self.lon, lat(record), lon(record)),
        )
    }

    /// S of a record that is nearer than a separation; taken where neither its latitude alone nor its longitude alone is enough.
    #[inline(always)]
    fn nearer(&self, record: &Record, km: u32) -> Option<u64> {
        let least = decimetres(km);
        let enough = least * 3_600_000;
        if u64::from(self.lat.abs_diff(lat(record))) * LEAST_P >= enough
            || u64::from(across(self.lon, lon(record))) * self.scale >= enough
        {
            return None;
        }
        let (_, s) = self.held(record);
        (s < least * least).then_some(s)
    }

    /// How far a station here and a record reach; nothing where they are spaced on every channel.
    #[inline(always)]
    fn reach(&self, record: &Record) -> Option<Reach> {
        let (limits, s) = self.held(record);
        if s >= limits[0].squared {
            return None;
        }
        let band = if s >= limits[1].squared {
            &BANDS[0]
        } else if s >= limits[2].squared {
            &BANDS[1]
        } else {
            &BANDS[2]
        };
        let far = if s < limits[3].squared {
            &FAR
        } else {
            &NO_CHANNELS
        };
        Some(Reach { band, far })
    }
}

/// The channels of 221 to 300 that the others block for the station at a position of the table, with one position left aside.
#[inline(never)]
fn blocked<const BOX: bool>(
    records: &[Record],
    own: usize,
    aside: usize,
    standard: &'static Standard,
) -> Channels {
    let there = Lookout::<BOX>::new(Place::at(&records[own], standard));
    let mut blocked = 0;
    for (position, record) in walk::<BOX>(records, |record| there.spaced(record, 0)) {
        if position == own || position == aside {
            continue;
        }
        if let Some(reach) = there.reach(record) {
            blocked |= reach.around(by_channel(record));
        }
    }
    blocked
}

/// No requirement at this channel difference.
const NONE: u8 = 4;

/// The column of each channel against one from 221 on.
fn columns(channel: u32) -> ByChannel<u8> {
    let mut table = [NONE; 256];
    for (column, least, most) in [(3, 53, 54), (2, 2, 3), (1, 1, 1), (0, 0, 0)] {
        for difference in least..=most {
            for other in [channel - difference, channel + difference] {
                if (201..=300).contains(&other) {
                    table[other as usize % 256] = column;
                }
            }
        }
    }
    table
}

/// A station on a channel, of a class at a site, to which records are held.
struct Held<const BOX: bool> {
    columns: ByChannel<u8>,
    lookout: Lookout<BOX>,
}

impl<const BOX: bool> Held<BOX> {
    fn new(channel: u32, place: Place) -> Self {
        Held {
            columns: columns(channel),
            lookout: Lookout::new(place),
        }
    }

    /// The records that are not far, in turn: position, record and column.
    #[inline(always)]
    fn near<'a>(
        &'a self,
        records: &'a [Record],
    ) -> impl Iterator<Item = (usize, &'a Record, usize)> + 'a {
        let passed = |record: &Record| {
            let column = self.columns[by_channel(record)];
            column == NONE || self.lookout.spaced(record, usize::from(column & 3))
        };
        walk::<BOX>(records, passed).map(|(position, record)| {
            let column = usize::from(self.columns[by_channel(record)] & 3);
            (position, record, column)
        })
    }

    /// The records that are short, in turn: position, record, S and separation.
    #[inline(always)]
    fn short<'a>(
        &'a self,
        records: &'a [Record],
    ) -> impl Iterator<Item = (usize, &'a Record, u64, u32)> + 'a {
        self.near(records).filter_map(|(position, record, column)| {
            let (limits, s) = self.lookout.held(record);
            let limit = &limits[column];
            (s < limit.squared).then_some((position, record, s, limit.km))
        })
    }
}

/// The rounded distance between two sites.
fn distance(lat1: i32, lon1: i32, lat2: i32, lon2: i32) -> Outcome<usize> {
    judge_site(lat1, lon1)?;
    judge_site(lat2, lon2)?;
    match rounded(squared(lat1, lon1, lat2, lon2)) {
        km @ 0..=475 => Ok(km as usize),
        _ => Err(refusal(24, 0)),
    }
}

/// The stations to which a proposal is short, but for the one left aside: id, D and R of each.
fn check<const BOX: bool>(
    table: &[u8],
    channel: u32,
    proposal: &Proposal,
    terms: Terms,
    rows: &mut [u32],
) -> Outcome<usize> {
    let (records, standard, aside) = studied::<BOX>(table, channel, channel, proposal, terms)?;
    let held = Held::<BOX>::new(channel, Place::of(proposal, standard));
    let mut found = Vec::with_capacity(32);
    for (position, record, s, km) in held.short(records) {
        if position != aside {
            found.push([id(record), rounded(s), km]);
        }
    }
    let found = found.as_flattened();
    if rows.len() < found.len() {
        return Err(refusal(22, found.len()));
    }
    rows[..found.len()].copy_from_slice(found);
    Ok(found.len())
}

/// The place of the record that is short by the most, of the first among equals, but for the one left aside; 0 where none is short.
/// Its id, D, R and column are written.
fn reason<const BOX: bool>(
    table: &[u8],
    channel: u32,
    proposal: &Proposal,
    terms: Terms,
    reason: &mut [u32; 4],
) -> Outcome<usize> {
    let (records, standard, aside) = studied::<BOX>(table, channel, channel, proposal, terms)?;
    let held = Held::<BOX>::new(channel, Place::of(proposal, standard));
    let (mut most, mut found) = (0, None);
    for (position, record, column) in held.near(records) {
        let km = held.lookout.limits[class(record)][column].km;
        if km <= most {
            continue;
        }
        // Short by more than the most so far is nearer than a separation that is less by it.
        if let Some(s) = held.lookout.nearer(record, km - most) {
            if position != aside {
                most = km - rounded(s);
                found = Some((position, record, km, column));
            }
        }
    }
    let Some((position, record, km, column)) = found else {
        return Ok(0);
    };
    *reason = [id(record), km - most, km, column as u32];
    Ok(HEADER + RECORD * position)
}

/// The position of the record with an id, or the one where it would stand.
fn sought(records: &[Record], wanted: u32) -> Result<usize, usize> {
    records.binary_search_by_key(&wanted, id)
}

/// No position of a table.
const NOWHERE: usize = usize::MAX;

/// The records of a table against which a proposal is studied, the limits by which it is, 26 where there is no such standard, and
/// the position of the record that is left aside: 23 where there is none with the id, nowhere where nobody is, by id 0.
#[inline(always)]
fn studied<'a, const BOX: bool>(
    table: &'a [u8],
    first: u32,
    last: u32,
    proposal: &Proposal,
    Terms { aside, standard }: Terms,
) -> Outcome<(&'a [Record], &'static Standard, usize)> {
    let records = judge::<BOX>(table)?;
    judge_asked(first, last, proposal)?;
    let standard = match standard {
        1 => &BY_TABLE_A,
        2 => &BY_LESSER,
        _ => return Err(refusal(26, 0)),
    };
    judge_site(proposal.lat, proposal.lon)?;
    if aside == 0 {
        return Ok((records, standard, NOWHERE));
    }
    let position = sought(records, aside).map_err(|_| refusal(23, 0))?;
    Ok((records, standard, position))
}

/// The image of records in three parts.
fn put_image(parts: [&[Record]; 3], image: &mut [u8]) -> Outcome<usize> {
    let count = parts[0].len() + parts[1].len() + parts[2].len();
    let need = HEADER + RECORD * count;
    if image.len() < need {
        return Err(refusal(22, need));
    }
    let version = 1 + u8::from(count > usize::from(LINE));
    let [high, low] = (count as u16).to_be_bytes();
    image[..HEADER].copy_from_slice(&[b'F', b'M', b'S', 0, version, 0, high, low]);
    let mut at = HEADER;
    for part in parts {
        let bytes = part.as_flattened();
        image[at..at + bytes.len()].copy_from_slice(bytes);
        at += bytes.len();
    }
    Ok(need)
}

/// The table with one more station.
fn add<const BOX: bool>(
    table: &[u8],
    new: u32,
    channel: u32,
    proposal: &Proposal,
    image: &mut [u8],
) -> Outcome<usize> {
    let records = judge::<BOX>(table)?;
    judge_asked(channel, channel, proposal)?;
    judge_site(proposal.lat, proposal.lon)?;
    if new == 0 {
        return Err(refusal(18, 0));
    }
    let place = match sought(records, new) {
        Ok(position) => return Err(refusal(19, position)),
        Err(place) => place,
    };
    let held = Held::<BOX>::new(channel, Place::of(proposal, &BY_TABLE_A));
    if let Some((position, ..)) = held.short(records).next() {
        return Err(refusal(20, position));
    }
    if records.len() == usize::from(LIMIT) {
        return Err(refusal(21, 0));
    }
    let mut record = [0; RECORD];
    record[..4].copy_from_slice(&new.to_be_bytes());
    record[4..6].copy_from_slice(&(channel as u16).to_be_bytes());
    record[6] = proposal.station_class as u8;
    record[8..12].copy_from_slice(&proposal.lat.to_be_bytes());
    record[12..].copy_from_slice(&proposal.lon.to_be_bytes());
    let (before, after) = records.split_at(place);
    put_image([before, &[record], after], image)
}

/// The table without a station.
fn withdraw<const BOX: bool>(table: &[u8], gone: u32, image: &mut [u8]) -> Outcome<usize> {
    let records = judge::<BOX>(table)?;
    let Ok(position) = sought(records, gone) else {
        return Err(refusal(23, 0));
    };
    put_image([&records[..position], &[], &records[position + 1..]], image)
}

/// The table with a station on another channel.
fn move_to<const BOX: bool>(
    table: &[u8],
    mover: u32,
    channel: u32,
    image: &mut [u8],
) -> Outcome<usize> {
    let records = judge::<BOX>(table)?;
    if !(221..=300).contains(&channel) {
        return Err(refusal(13, 0));
    }
    let Ok(own) = sought(records, mover) else {
        return Err(refusal(23, 0));
    };
    let mut record = records[own];
    if !movable(&record) {
        return Err(refusal(25, own));
    }
    let held = Held::<BOX>::new(channel, Place::at(&record, &BY_TABLE_A));
    if let Some((other, ..)) = held.short(records).find(|&(position, ..)| position != own) {
        return Err(refusal(20, other));
    }
    record[4..6].copy_from_slice(&(channel as u16).to_be_bytes());
    put_image([&records[..own], &[record], &records[own + 1..]], image)
}

/// How far two stations reach along the channels: the band around a channel, and the channels 53 and 54 away.
#[derive(Clone, Copy)]
struct Reach {
    band: &'static ByChannel<Channels>,
    far: &'static ByChannel<Channels>,
}

impl Reach {
    /// The channels on which one of the two is short to the other on a channel.
    fn around(self, channel: usize) -> Channels {
        self.band[channel] | self.far[channel]
    }
}

/// Who stands in the way on each of 221 to 300: anybody, more than one, and the first one's position.
struct Survey {
    taken: Channels,
    many: Channels,
    who: [u16; 80],
}

impl Survey {
    fn mark(&mut self, channels: Channels, position: usize) {
        self.many |= self.taken & channels;
        let mut new = channels & !self.taken;
        self.taken |= channels;
        while new != 0 {
            self.who[new.trailing_zeros() as usize] = position as u16;
            new &= new - 1;
        }
    }
}

/// The channels of 201 to 300 that have a requirement against one from first to last.
fn touched(first: u32, last: u32) -> ByChannel<bool> {
    let mut table = [false; 256];
    for (from, to) in [
        (first - 54, last - 53),
        (first - 3, last + 3),
        (first + 53, last + 54),
    ] {
        for channel in from.max(201)..=to.min(300) {
            table[channel as usize % 256] = true;
        }
    }
    table
}

/// The survey of the channels from first to last, from a class and a site, with one position left aside.
#[inline(always)]
fn survey<const BOX: bool>(
    records: &[Record],
    first: u32,
    last: u32,
    aside: usize,
    lookout: &Lookout<BOX>,
) -> Survey {
    let asked = EVERY >> (300 - last) & EVERY << (first - 221);
    let mut survey = Survey {
        taken: 0,
        many: 0,
        who: [0; 80],
    };
    let look = |(position, record): (usize, &Record)| {
        if position == aside {
            return;
        }
        if let Some(reach) = lookout.reach(record) {
            survey.mark(reach.around(by_channel(record)) & asked, position);
        }
    };
    if asked == EVERY {
        walk::<BOX>(records, |record| lookout.spaced(record, 0)).for_each(look);
    } else {
        let touched = touched(first, last);
        let passed = |record: &Record| !touched[by_channel(record)] || lookout.spaced(record, 0);
        walk::<BOX>(records, passed).for_each(look);
    }
    survey
}

/// What may be done on one new channel.
#[derive(Clone, Copy)]
enum Plan {
    Nothing,
    Free,
    Moves { id: u32, to: Channels },
}

/// The clean arrangements, with one station left aside: new channel, id moved and its new channel of each.
fn arrange<const BOX: bool>(
    table: &[u8],
    first: u32,
    last: u32,
    proposal: &Proposal,
    terms: Terms,
    rows: &mut [u32],
) -> Outcome<usize> {
    let (records, standard, aside) = studied::<BOX>(table, first, last, proposal, terms)?;
    let lookout = Lookout::<BOX>::new(Place::of(proposal, standard));
    let survey = survey(records, first, last, aside, &lookout);
    let mut plans = [Plan::Nothing; 80];
    let mut need = 0;
    let mut kept = None;
    for channel in first..=last {
        let bit = channel as usize - 221;
        let plan = &mut plans[bit];
        if survey.taken >> bit & 1 == 0 {
            *plan = Plan::Free;
            need += 3;
        } else if survey.many >> bit & 1 == 0 {
            let position = usize::from(survey.who[bit]);
            let record = &records[position];
            if !movable(record) {
                continue;
            }
            let (taken, reach) = match kept {
                Some((whose, taken, reach)) if whose == position => (taken, reach),
                _ => {
                    let taken = blocked::<BOX>(records, position, aside, standard);
                    let reach = lookout.reach(record).expect("it stands in the way");
                    kept = Some((position, taken, reach));
                    (taken, reach)
                }
            };
            let to = EVERY & !taken & !reach.around(channel as usize % 256);
            *plan = Plan::Moves { id: id(record), to };
            need += 3 * to.count_ones() as usize;
        }
    }
    if rows.len() < need {
        return Err(refusal(22, need));
    }
    write(
        first,
        &plans[first as usize - 221..=last as usize - 221],
        rows,
    );
    Ok(need)
}

/// Writes the rows of the plans.
fn write(first: u32, plans: &[Plan], rows: &mut [u32]) {
    let mut places = rows.chunks_exact_mut(3);
    let mut put = |channel, id, to| {
        if let Some(place) = places.next() {
            place.copy_from_slice(&[channel, id, to]);
        }
    };
    for (channel, plan) in (first..).zip(plans) {
        match *plan {
            Plan::Nothing => {}
            Plan::Free => put(channel, 0, 0),
            Plan::Moves { id, to } => {
                let (mut low, mut high) = (to as u64, (to >> 64) as u64);
                while low != 0 {
                    put(channel, id, 221 + low.trailing_zeros());
                    low &= low - 1;
                }
                while high != 0 {
                    put(channel, id, 285 + high.trailing_zeros());
                    high &= high - 1;
                }
            }
        }
    }
}

/// Any question. Without the box.
pub fn ask(question: &Question, table: &[u8], lent: Lent) -> Answer {
    answer::<false>(question, table, lent)
}

/// The same with the box.
pub fn ask_box(question: &Question, table: &[u8], lent: Lent) -> Answer {
    answer::<true>(question, table, lent)
}

/// Reads a table and does not look for repeats. Without the box.
pub fn read_unsearched(table: &[u8]) -> Answer {
    read_by(table, |_| None)
}

/// Reads a table by any search for repeats. Without the box.
pub(crate) fn read_by(table: &[u8], first_repeat: impl Fn(&[Record]) -> Option<usize>) -> Answer {
    told(judge_by::<false>(table, first_repeat).map(<[Record]>::len))
}

fn answer<const BOX: bool>(question: &Question, table: &[u8], lent: Lent) -> Answer {
    told(match *question {
        Question::Read => judge::<BOX>(table).map(<[Record]>::len),
        Question::Distance {
            lat1,
            lon1,
            lat2,
            lon2,
        } => distance(lat1, lon1, lat2, lon2),
        Question::Add {
            id,
            channel,
            ref proposal,
        } => add::<BOX>(table, id, channel, proposal, lent.image),
        Question::Withdraw { id } => withdraw::<BOX>(table, id, lent.image),
        Question::Move { id, channel } => move_to::<BOX>(table, id, channel, lent.image),
        Question::Check {
            channel,
            ref proposal,
            terms,
        } => check::<BOX>(table, channel, proposal, terms, lent.rows),
        Question::Arrange {
            first,
            last,
            ref proposal,
            terms,
        } => arrange::<BOX>(table, first, last, proposal, terms, lent.rows),
        Question::Reason {
            channel,
            ref proposal,
            terms,
        } => reason::<BOX>(table, channel, proposal, terms, lent.reason),
    })
}

/// The answer that tells an outcome.
fn told(outcome: Outcome<usize>) -> Answer {
    Answer::of(match outcome {
        Ok(count) => count as u64,
        Err(refusal) => refusal,
    })
}
