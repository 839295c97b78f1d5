//! Made-up tables, sites and questions, the same in every run.

use crate::naive::{degrees, image_of, km, Station};
use crate::question::Proposal;
use std::collections::HashSet;

/// Numbers that look like chance: xorshift from a seed.
pub struct Chance {
    state: u64,
}

impl Chance {
    pub fn new(seed: u64) -> Chance {
        Chance {
            state: seed.wrapping_mul(0x9E37_79B9_7F4A_7C15) | 1,
        }
    }

    fn next(&mut self) -> u64 {
        self.state ^= self.state << 13;
        self.state ^= self.state >> 7;
        self.state ^= self.state << 17;
        self.state.wrapping_mul(0x2545_F491_4F6C_DD1D) >> 16
    }

    /// A number from `least` to `most`.
    pub fn from(&mut self, least: i64, most: i64) -> i64 {
        least + (self.next() % (most - least + 1) as u64) as i64
    }

    /// Once in `n` times.
    pub fn once_in(&mut self, n: i64) -> bool {
        self.from(1, n) == 1
    }

    /// One of several.
    pub fn one_of<T: Copy>(&mut self, several: &[T]) -> T {
        several[self.from(0, several.len() as i64 - 1) as usize]
    }
}

/// A region: 33 to 47 degrees north, 70 to 100 degrees west, in seconds.
const REGION: Area = Area {
    lat: (33 * 3_600, 47 * 3_600),
    lon: (-100 * 3_600, -70 * 3_600),
};

/// A longitude that runs over one end of the range, as the one that it comes to from the other end.
pub fn wrapped(lon: i64) -> i64 {
    match lon {
        648_001.. => lon - 1_296_000,
        ..=-648_001 => lon + 1_296_000,
        _ => lon,
    }
}

/// A rectangle of latitudes and longitudes, both ends inside; its longitudes may run over an end of the range.
#[derive(Clone, Copy, Debug)]
pub struct Area {
    pub lat: (i64, i64),
    pub lon: (i64, i64),
}

impl Area {
    /// The rectangle of so many seconds around a site, cut at the ends of the latitudes.
    pub fn around(lat: i64, lon: i64, seconds: i64) -> Area {
        let cut = |lat: i64| lat.clamp(-270_000, 270_000);
        Area {
            lat: (cut(lat - seconds), cut(lat + seconds)),
            lon: (lon - seconds, lon + seconds),
        }
    }

    fn site(&self, chance: &mut Chance) -> (i32, i32) {
        let lat = chance.from(self.lat.0, self.lat.1);
        let lon = chance.from(self.lon.0, self.lon.1);
        (lat as i32, wrapped(lon) as i32)
    }
}

/// Stations in an area on channels from `least` to `most`, of all classes, a quarter of them fixed.
fn spread(chance: &mut Chance, count: usize, area: Area, least: i64, most: i64) -> Vec<Station> {
    let mut id = 0;
    let mut stations = Vec::new();
    for _ in 0..count {
        id += chance.from(1, 9) as u32;
        let (lat, lon) = area.site(chance);
        stations.push(Station {
            id,
            channel: chance.from(least, most) as u32,
            class: chance.from(0, 7) as u32,
            flags: u32::from(chance.once_in(4)),
            lat,
            lon,
        });
    }
    stations
}

/// Moves every station that repeats an earlier one, in channel, class, latitude and longitude, east by single seconds to where it
/// repeats none. The two numbers of the 180th meridian are taken for one, so that no repeat comes of turning all longitudes.
pub fn part(stations: &mut [Station]) {
    let place = |station: &Station| {
        let lon = station.lon.rem_euclid(1_296_000);
        (station.channel, station.class, station.lat, lon)
    };
    let mut taken = HashSet::new();
    for station in stations {
        while !taken.insert(place(station)) {
            station.lon = wrapped(i64::from(station.lon) + 1) as i32;
        }
    }
}

/// A table of a region, without repeats.
pub fn region(seed: u64, count: usize) -> Vec<u8> {
    let mut stations = spread(&mut Chance::new(seed), count, REGION, 201, 300);
    part(&mut stations);
    image_of(&stations)
}

/// Proposals at sites of the region, each of a class that its zone permits.
pub fn region_proposals(seed: u64, count: usize) -> Vec<Proposal> {
    let mut chance = Chance::new(seed);
    (0..count)
        .map(|_| proposal_in(&mut chance, REGION))
        .collect()
}

/// A proposal in an area, of a class that its zone permits.
pub fn proposal_in(chance: &mut Chance, area: Area) -> Proposal {
    let zone = chance.from(1, 3) as u32;
    let station_class = if zone == 3 {
        chance.one_of(&[0, 3, 4, 5, 6, 7])
    } else {
        chance.one_of(&[0, 1, 2])
    };
    let (lat, lon) = area.site(chance);
    Proposal {
        station_class,
        zone,
        lat,
        lon,
    }
}

/// The manners in which a scene is made.
#[derive(Clone, Copy, Debug, PartialEq, Eq)]
pub enum Manner {
    /// Spread over the region.
    Region,
    /// Within the reach of each other, on all channels.
    Cluster,
    /// Few and near, so that most blocked channels have one blocker.
    Lone,
    /// At the ends of the ranges of latitude and longitude.
    Ends,
    /// Mostly on channels up to 220, and on those 53 and 54 above.
    Low,
    /// On few channels at few sites, at the distances of Table A and of the lesser table.
    Limits,
    /// So far inside of those of a standard that they are short to a class A proposal on `LEVEL` by the same in whole km, and some
    /// by one more.
    Level(u32),
    /// On both sides of the 180th meridian and on it, at any latitude.
    Meridian,
}

/// The channel of a proposal to which level stations are short.
pub const LEVEL: u32 = 260;

/// The channel differences that have a column, each with its own.
pub const DIFFERENCES: [(usize, u32); 6] = [(0, 0), (1, 1), (2, 2), (2, 3), (3, 53), (3, 54)];

/// Every manner.
pub const MANNERS: [Manner; 9] = [
    Manner::Region,
    Manner::Cluster,
    Manner::Lone,
    Manner::Ends,
    Manner::Low,
    Manner::Limits,
    Manner::Level(1),
    Manner::Level(2),
    Manner::Meridian,
];

/// Stations, and a place from which to ask about them.
#[derive(Clone, Debug)]
pub struct Scene {
    pub stations: Vec<Station>,
    pub area: Area,
}

impl Scene {
    pub fn table(&self) -> Vec<u8> {
        image_of(&self.stations)
    }
}

/// A scene of up to `most` stations, without repeats.
pub fn scene(chance: &mut Chance, manner: Manner, most: usize) -> Scene {
    let count = chance.from(0, most as i64) as usize;
    scene_of(chance, manner, count)
}

/// A scene of so many stations, without repeats; of a few where they are to be lone.
pub fn scene_of(chance: &mut Chance, manner: Manner, count: usize) -> Scene {
    let (mut stations, area) = placed(chance, manner, count);
    part(&mut stations);
    Scene { stations, area }
}

/// Stations in a manner, which may repeat each other, and the area around them.
fn placed(chance: &mut Chance, manner: Manner, count: usize) -> (Vec<Station>, Area) {
    let lat = chance.from(-270_000, 270_000);
    let lon = chance.from(-648_000, 648_000);
    match manner {
        Manner::Region => {
            let area = Area::around(lat, lon, 18_000);
            (spread(chance, count, area, 201, 300), area)
        }
        Manner::Cluster => {
            let area = Area::around(lat, lon, 4_000);
            (spread(chance, count, area, 201, 300), area)
        }
        Manner::Lone => {
            let area = Area::around(lat, lon, 1_500);
            let few = count.min(chance.from(0, 6) as usize);
            let mut stations = spread(chance, few, area, 201, 300);
            if chance.once_in(2) {
                stations.iter_mut().for_each(|station| station.flags = 0);
            }
            (stations, area)
        }
        Manner::Ends => {
            let lat = chance.one_of(&[-270_000, 0, 270_000]);
            let lon = chance.one_of(&[-648_000, 0, 648_000]);
            let area = Area::around(lat, lon, chance.one_of(&[0, 1, 5_000]));
            let mut stations = spread(chance, count, area, 201, 300);
            for station in &mut stations {
                if chance.once_in(3) {
                    station.lat = -station.lat;
                }
                if chance.once_in(3) {
                    station.lon = -station.lon;
                }
            }
            (stations, area)
        }
        Manner::Low => {
            let area = Area::around(lat, lon, 1_000);
            let mut stations = spread(chance, count, area, 201, 224);
            for station in &mut stations {
                if chance.once_in(3) {
                    station.channel += chance.from(53, 54) as u32;
                }
            }
            (stations, area)
        }
        Manner::Limits => {
            let lat = if chance.once_in(3) { 0 } else { lat };
            let lon = at_times_near_the_meridian(chance, lon);
            let area = Area::around(lat, lon, 0);
            let mut stations = spread(chance, count, area, 245, 255);
            for station in &mut stations {
                let column = chance.from(0, 3) as usize;
                let class = chance.from(0, 7) as u32;
                let km = km(chance.one_of(&[1, 2]), class, station.class, column);
                let more = chance.from(-1, 2);
                set_off(chance, station, 10_000 * i64::from(km) - 5_000, more);
            }
            (stations, area)
        }
        Manner::Level(standard) => {
            let lon = at_times_near_the_meridian(chance, lon);
            let area = Area::around(lat, lon, 0);
            let mut stations = spread(chance, count, area, 201, 300);
            let shortfall = chance.one_of(&[1, 5, 9, 20, 31, 60]);
            for station in &mut stations {
                let (column, difference) = chance.one_of(&DIFFERENCES);
                station.channel = if difference <= 3 && chance.once_in(2) {
                    LEVEL + difference
                } else {
                    LEVEL - difference
                };
                let shortfall = shortfall + u32::from(chance.once_in(3));
                let km = km(standard, 0, station.class, column).saturating_sub(shortfall);
                let decimetres = 10_000 * i64::from(km) + chance.from(-4_500, 4_500);
                set_off(chance, station, decimetres, 0);
            }
            (stations, area)
        }
        Manner::Meridian => {
            let lat = chance.one_of(&[-270_000, 0, 270_000, lat, lat, lat]);
            let lon = near_the_meridian(chance);
            let area = Area::around(lat, lon, chance.one_of(&[1, 60, 1_500, 4_000, 20_000]));
            let mut stations = spread(chance, count, area, 201, 300);
            for station in &mut stations {
                if chance.once_in(8) {
                    station.lon = chance.one_of(&[-648_000, 648_000]);
                }
            }
            (stations, area)
        }
    }
}

/// A longitude on the 180th meridian, or some seconds or some thousands from it.
pub fn near_the_meridian(chance: &mut Chance) -> i64 {
    let seconds = chance.one_of(&[0, 1, 100, 5_000]);
    wrapped(chance.one_of(&[-648_000, 648_000]) + chance.from(-seconds, seconds))
}

/// Such a longitude in one case of three, else a given one.
fn at_times_near_the_meridian(chance: &mut Chance, lon: i64) -> i64 {
    if chance.once_in(3) {
        near_the_meridian(chance)
    } else {
        lon
    }
}

/// Sets a station so many decimetres, and some seconds more, off its site: north or south or, more often, east or west.
fn set_off(chance: &mut Chance, station: &mut Station, decimetres: i64, more: i64) {
    let (p, q) = degrees(i128::from(station.lat.unsigned_abs()) * 2);
    let north = chance.once_in(3);
    let degree = if north { p } else { q };
    let seconds = decimetres * 3_600_000 / degree as i64 + more;
    let seconds = if chance.once_in(2) { seconds } else { -seconds };
    if north {
        station.lat = (station.lat + seconds as i32).clamp(-270_000, 270_000);
    } else {
        station.lon = wrapped(i64::from(station.lon) + seconds) as i32;
    }
}

/// A standard: mostly one of the two, now and then a number that is none, also one that is if it is cut to fewer bits.
pub fn standard(chance: &mut Chance) -> u32 {
    if chance.once_in(12) {
        chance.one_of(&[0, 3, 256, 257, 258, 65_537, u32::MAX])
    } else {
        chance.one_of(&[1, 2])
    }
}

/// The column of a channel difference that has one.
pub fn column_of(difference: u32) -> usize {
    let mut columns = DIFFERENCES.iter().filter(|(_, one)| *one == difference);
    columns.next().expect("a difference that has a column").0
}

/// Versions, each with a count outside of its range.
pub const WRONG_COUNTS: [(u16, u16); 11] = [
    (1, 2_001),
    (1, 2_002),
    (1, 4_000),
    (1, 4_001),
    (1, 65_535),
    (2, 0),
    (2, 1),
    (2, 1_999),
    (2, 2_000),
    (2, 4_001),
    (2, 65_535),
];

/// Makes a later station repeat an earlier one: its id stays its own, and its flag is left to chance.
pub fn repeat(chance: &mut Chance, stations: &mut [Station], earlier: usize, later: usize) {
    stations[later] = Station {
        id: stations[later].id,
        flags: chance.from(0, 1) as u32,
        ..stations[earlier]
    };
}

/// In what one station differs from another that it all but repeats.
#[derive(Clone, Copy, Debug, PartialEq, Eq)]
pub enum Unlike {
    Channel,
    Class,
    Lat,
    Lon,
    /// Longitudes that are the two numbers of the 180th meridian.
    Ends,
}

/// Every such difference.
pub const UNLIKE: [Unlike; 5] = [
    Unlike::Channel,
    Unlike::Class,
    Unlike::Lat,
    Unlike::Lon,
    Unlike::Ends,
];

/// Makes a later station all but repeat an earlier one.
pub fn all_but_repeat(
    chance: &mut Chance,
    stations: &mut [Station],
    earlier: usize,
    later: usize,
    unlike: Unlike,
) {
    if unlike == Unlike::Ends {
        stations[earlier].lon = chance.one_of(&[-648_000, 648_000]);
    }
    repeat(chance, stations, earlier, later);
    let station = &mut stations[later];
    // A coordinate a second or some thousands nearer to the middle, or mirrored in it.
    let mut other = |z: i32| match z {
        0 => chance.one_of(&[-5_000, -1, 1, 5_000]),
        _ => chance.one_of(&[z - z.signum(), z - z.signum() * z.abs().min(5_000), -z]),
    };
    match unlike {
        Unlike::Lat => station.lat = other(station.lat),
        Unlike::Lon => station.lon = other(station.lon),
        Unlike::Ends => station.lon = -station.lon,
        Unlike::Channel => {
            station.channel = 201 + (station.channel - 201 + chance.from(1, 99) as u32) % 100
        }
        Unlike::Class => station.class = (station.class + chance.from(1, 7) as u32) % 8,
    }
}

/// The refusals that a damaged table can get.
pub const DAMAGES: [u32; 13] = [1, 2, 3, 4, 5, 6, 7, 8, 9, 10, 11, 12, 27];

/// A table damaged in the way of one refusal; in a table with no record, or with one, some of these ways change nothing.
pub fn damaged(chance: &mut Chance, table: &[u8], number: u32) -> Vec<u8> {
    let mut table = table.to_vec();
    let count = (table.len() - 8) / 16;
    let at = 8 + 16 * chance.from(0, (count as i64 - 1).max(0)) as usize;
    let bit = 1 << chance.from(0, 7);
    match number {
        1 => table.truncate(chance.from(0, 7) as usize),
        2 => table[chance.from(0, 2) as usize] ^= bit,
        3 => {
            let version =
                chance.one_of(&[0u16, 3, 5, 129, 256, 257, 258, 512, 513, 32_770, 65_535]);
            put(&mut table, 3, &version.to_be_bytes());
        }
        4 => table[5] ^= bit,
        // The other version for the count that it has.
        5 if chance.once_in(2) => table[4] ^= 1 ^ 2,
        5 => {
            let (version, count) = chance.one_of(&WRONG_COUNTS);
            put(&mut table, 3, &version.to_be_bytes());
            put(&mut table, 6, &count.to_be_bytes());
            if chance.once_in(2) {
                table.resize(8 + 16 * usize::from(count), 0);
            }
        }
        6 => {
            let length = table.len() as i64 + chance.one_of(&[-16, -1, 1, 15, 16, 17]);
            table.resize(length.max(8) as usize, chance.one_of(&[0, 255]));
        }
        7 => {
            let before = if at > 8 {
                number_at(&table, at - 16)
            } else {
                0
            };
            let id = chance.one_of(&[0, before, before.saturating_sub(1)]);
            put(&mut table, at, &id.to_be_bytes());
        }
        8 => {
            let channel = chance.one_of(&[0u16, 200, 301, 456, 457, 512, 65_535]);
            put(&mut table, at + 4, &channel.to_be_bytes());
        }
        9 => put(&mut table, at + 6, &[chance.one_of(&[8, 9, 16, 128, 255])]),
        10 => put(
            &mut table,
            at + 7,
            &[chance.one_of(&[2, 3, 4, 5, 128, 129, 255])],
        ),
        11 => {
            let lat = chance.one_of(&[-270_001, 270_001, i32::MIN, i32::MAX]);
            put(&mut table, at + 8, &lat.to_be_bytes());
        }
        12 => {
            let lon = chance.one_of(&[-648_001, 648_001, i32::MIN, i32::MAX]);
            put(&mut table, at + 12, &lon.to_be_bytes());
        }
        _ if at > 8 => {
            let earlier = 8 + 16 * chance.from(0, (at as i64 - 8) / 16 - 1) as usize;
            table.copy_within(earlier + 4..earlier + 16, at + 4);
            table[at + 7] = chance.from(0, 1) as u8;
        }
        _ => {}
    }
    table
}

/// Bytes into a table, where it reaches so far.
fn put(table: &mut [u8], at: usize, bytes: &[u8]) {
    if let Some(place) = table.get_mut(at..at + bytes.len()) {
        place.copy_from_slice(bytes);
    }
}

fn number_at(table: &[u8], at: usize) -> u32 {
    u32::from_be_bytes([table[at], table[at + 1], table[at + 2], table[at + 3]])
}

/// The search for repeats goes by a number of each record: the low byte of its channel and its class, the bytes of its latitude and
/// those of its longitude, in each the lowest first, multiplied by one of these, and added up.
const BY_KIND: u64 = 1_697_706_979;
const BY_NORTH: u64 = 1_652_984_621;
const BY_EAST: u64 = 1_440_846_997;

/// What BY_EAST is to be multiplied by to give 1: its own three low bits are right, and each turn makes twice as many so.
const BACK: u64 = {
    let mut back = BY_EAST;
    let mut turn = 0;
    while turn < 5 {
        back = back.wrapping_mul(2_u64.wrapping_sub(back.wrapping_mul(BY_EAST)));
        turn += 1;
    }
    back
};

/// How many low bits the numbers of a slow table have in common, and which.
pub const SHARED: u32 = 38;
pub const COMMON: u64 = 0x4726;

/// A table of so many stations, at most 4,000, without repeats, that is slow to search: by their numbers all go one way for as many
/// steps as these have low bits in common.
pub fn slow(count: usize) -> Vec<u8> {
    let mut stations = Vec::new();
    for channel in 201..=300 {
        for class in 0..8 {
            for (lat, lon) in sites_in_common(u64::from(channel % 256 + 256 * class)) {
                let place = stations.len() as u32;
                stations.push(Station {
                    id: 10 * (place + 1),
                    channel,
                    class,
                    flags: place % 2,
                    lat,
                    lon,
                });
            }
        }
    }
    image_of(&stations[..count])
}

/// The sites at which the number of a channel and class has the bits in common.
fn sites_in_common(kind: u64) -> Vec<(i32, i32)> {
    let mut sites = Vec::new();
    for north in first_bytes(270_000) {
        for east in first_bytes(648_000) {
            let number = kind * BY_KIND + north * BY_NORTH + east * BY_EAST;
            // The last two bytes of a coordinate leave the low sixteen bits as they are.
            if number as u16 != COMMON as u16 {
                continue;
            }
            for more_north in (0..1 << 32).step_by(1 << 16) {
                let missing = COMMON.wrapping_sub(number + more_north * BY_NORTH);
                let more_east = missing.wrapping_mul(BACK) % (1 << SHARED);
                let [lat, lon] = [north + more_north, east + more_east].map(coordinate);
                if more_east < 1 << 32 && lat.abs() <= 270_000 && lon.abs() <= 648_000 {
                    sites.push((lat, lon));
                }
            }
        }
    }
    sites
}

/// The first two bytes, the lowest first, of the coordinates up to one and of those below 0 down to as far.
fn first_bytes(most: i32) -> impl Iterator<Item = u64> {
    (-most >> 16..=most >> 16).map(|first| u64::from((first as u16).swap_bytes()))
}

/// The coordinate whose bytes make a number, the lowest first.
fn coordinate(number: u64) -> i32 {
    (number as u32).swap_bytes() as i32
}
