//! The limits that S is held to; sites at which a separation is just kept and just missed, and those at which one unit of P or Q
//! decides.

mod common;

use common::{agree_in, table_of_one, zone_for};
use fms_bench::made::{column_of, wrapped, DIFFERENCES};
use fms_bench::naive::{cosines, degrees, km, rounded, squared};
use fms_bench::question::{Answer, Proposal, Question, Terms};
use fms_bench::{fms, naive, tuned};
use std::collections::BTreeMap;

const E: i128 = 1_000_000_000;

/// The greatest mean latitude, in half-seconds.
const HIGHEST: i64 = 540_000;

/// A relation: two classes and a channel difference, by a standard.
#[derive(Clone, Copy, Debug)]
struct Relation {
    standard: u32,
    a: u32,
    b: u32,
    difference: u32,
}

impl Relation {
    fn column(&self) -> usize {
        column_of(self.difference)
    }

    fn km(&self) -> u32 {
        km(self.standard, self.a, self.b, self.column())
    }

    /// The square of the least distance that rounds to its separation.
    fn limit(&self) -> i128 {
        let decimetres = 10_000 * i128::from(self.km()) - 5_000;
        decimetres * decimetres
    }
}

/// Every relation of a standard, each pair of classes in one order.
fn relations(standard: u32) -> impl Iterator<Item = Relation> {
    let pairs = (0..8).flat_map(|a| (a..8).map(move |b| (a, b)));
    pairs.flat_map(move |(a, b)| {
        DIFFERENCES.map(|(_, difference)| Relation {
            standard,
            a,
            b,
            difference,
        })
    })
}

/// For each separation that Table A or the lesser table has, one relation that has it; for one that both have, one of each.
fn separations() -> BTreeMap<(u32, u32), Relation> {
    [1, 2]
        .into_iter()
        .flat_map(relations)
        .map(|relation| ((relation.km(), relation.standard), relation))
        .collect()
}

/// Who tells a limit: of two classes and a column.
type Tell = fn(u32, u32, u32) -> u64;

/// All of them.
const TELLERS: [(&str, Tell); 3] = [
    ("product", fms::limit),
    ("naive", naive::limit),
    ("tuned", tuned::limit),
];

/// Numbers for a class or a column: 0 to 9, and large ones that are a class or a column if they are cut to fewer bits.
fn numbers() -> Vec<u32> {
    let large = (4..32).flat_map(|bit| [0, 3, 7, 8].map(|low| (1 << bit) + low));
    let largest = [7, 3, 0].map(|less| u32::MAX - less);
    (0..=9).chain(large).chain(largest).collect()
}

/// All tell one limit for any three numbers: 0 where one is no class or no column, and there alone.
#[test]
fn limits_of_any_numbers() {
    let numbers = numbers();
    for &a in &numbers {
        for &b in &numbers {
            for &column in &numbers {
                let expected = naive::limit(a, b, column);
                assert_eq!(expected == 0, a > 7 || b > 7 || column > 3);
                for (who, limit) in TELLERS {
                    let found = limit(a, b, column);
                    assert_eq!(found, expected, "{who}: {a} to {b}, column {column}");
                }
            }
        }
    }
}

/// The limit is the same in either order of the classes.
#[test]
fn limits_in_either_order() {
    for (who, limit) in TELLERS {
        for a in 0..=9 {
            for b in 0..a {
                for column in 0..=5 {
                    let [there, back] = [limit(a, b, column), limit(b, a, column)];
                    assert_eq!(there, back, "{who}: {a} to {b}, column {column}");
                }
            }
        }
    }
}

/// Limits by hand. A to A: 115 km, 1,145,000²; 10 km, 95,000². A to B1: 143 km, 1,425,000². C0 to C: 220 km, 2,195,000². C to C:
/// 290 km, 2,895,000²; 48 km, 475,000².
#[test]
fn limits_by_hand() {
    for (a, b, column, expected) in [
        (0, 0, 0, 1_311_025_000_000),
        (0, 0, 3, 9_025_000_000),
        (0, 1, 0, 2_030_625_000_000),
        (6, 7, 1, 4_818_025_000_000),
        (7, 7, 0, 8_381_025_000_000),
        (7, 7, 3, 225_625_000_000),
    ] {
        for (who, limit) in TELLERS {
            let found = [limit(a, b, column), limit(b, a, column)];
            assert_eq!(found, [expected; 2], "{who}: {a} to {b}, column {column}");
        }
    }
}

/// The limit stays Table A's.
#[test]
fn limits_of_table_a() {
    for (who, limit) in TELLERS {
        for relation in relations(1) {
            let Relation { a, b, .. } = relation;
            let found = limit(a, b, relation.column() as u32);
            assert_eq!(i128::from(found), relation.limit(), "{who}: {relation:?}");
        }
    }
}

/// Relations of the lesser table by hand, as printed in §73.215(e). Every one is below Table A in its three columns, and keeps the
/// fourth.
#[test]
fn lesser_separations() {
    for (a, b, columns) in [
        (0, 0, [92, 49, 25]),
        (0, 1, [119, 72, 42]),
        (0, 3, [119, 72, 36]),
        (1, 6, [215, 153, 81]),
        (2, 6, [266, 195, 83]),
        (2, 7, [268, 195, 99]),
        (3, 6, [215, 152, 81]),
        (4, 7, [237, 176, 96]),
        (6, 6, [259, 196, 90]),
        (7, 7, [270, 209, 99]),
    ] {
        for (a, b) in [(a, b), (b, a)] {
            assert_eq!([0, 1, 2].map(|column| km(2, a, b, column)), columns);
        }
    }
    for a in 0..8 {
        for b in 0..8 {
            assert_eq!(km(2, a, b, 3), km(1, a, b, 3));
            for column in 0..3 {
                assert!(km(2, a, b, column) < km(1, a, b, column));
            }
        }
    }
}

/// S just below the limit rounds to a D below R, and S at the limit to R.
#[test]
fn limits_and_distances() {
    for (who, limit) in TELLERS {
        for a in 0..8 {
            for b in 0..8 {
                for column in 0..4 {
                    let s = i128::from(limit(a, b, column as u32));
                    let r = km(1, a, b, column);
                    let found = [rounded(s - 1), rounded(s)];
                    assert_eq!(found, [r - 1, r], "{who}: {a} to {b}, column {column}");
                }
            }
        }
    }
}

/// Two sites.
#[derive(Clone, Copy, Debug)]
struct Sites {
    lat1: i32,
    lon1: i32,
    lat2: i32,
    lon2: i32,
}

impl Sites {
    /// Two sites of a mean latitude of h half-seconds and given differences of latitude and longitude, where they are in range.
    fn at(h: i64, dlat: i64, dlon: i64) -> Option<Sites> {
        if (h + dlat) % 2 != 0 || (h + dlat) / 2 > 270_000 {
            return None;
        }
        let west = dlon / 2;
        Some(Sites {
            lat1: ((h + dlat) / 2) as i32,
            lon1: -west as i32,
            lat2: ((h - dlat) / 2) as i32,
            lon2: (dlon - west) as i32,
        })
    }

    fn squared(&self) -> i128 {
        squared(self.lat1, self.lon1, self.lat2, self.lon2)
    }

    fn kilometres(&self) -> u32 {
        rounded(self.squared())
    }

    /// The same sites south of the equator.
    fn south(&self) -> Sites {
        Sites {
            lat1: -self.lat1,
            lat2: -self.lat2,
            ..*self
        }
    }

    /// The same sites on the other side of the globe, across the 180th meridian.
    fn across(&self) -> Sites {
        let turned = |lon: i32| wrapped(i64::from(lon) + 648_000) as i32;
        Sites {
            lon1: turned(self.lon1),
            lon2: turned(self.lon2),
            ..*self
        }
    }

    /// The same sites in the other order.
    fn back(&self) -> Sites {
        Sites {
            lat1: self.lat2,
            lon1: self.lon2,
            lat2: self.lat1,
            lon2: self.lon1,
        }
    }

    /// Holds Check, the reason, Arrange and Add for a relation, and the distance, against the naive desk, from either site; says
    /// whether the two are short, which they are where S is below the limit. Add goes by Table A.
    fn held(&self, relation: Relation) -> bool {
        let Relation {
            standard,
            a,
            b,
            difference,
        } = relation;
        let mut verdicts = Vec::new();
        let column = relation.column() as u32;
        let numbers = [7, self.kilometres(), relation.km(), column];
        let by_table_a = self.squared() < i128::from(fms::limit(a, b, column));
        for (station_class, class, station, asked) in [
            (a, b, 240, 240 + difference),
            (b, a, 240 + difference, 240),
            (a, b, 240 + difference, 240),
        ] {
            let table = table_of_one(station, class, self.lat1, self.lon1);
            let zone = zone_for(station_class);
            let proposal = Proposal {
                station_class,
                zone,
                lat: self.lat2,
                lon: self.lon2,
            };
            let hold = |question: Question| agree_in(&question, &table, 40, 240);
            let add = hold(Question::Add {
                id: 9,
                channel: asked,
                proposal,
            });
            assert_eq!(add.answer == Answer::Granted(40), !by_table_a);
            let check = |aside| {
                let terms = Terms::new(aside, standard);
                let check = hold(Question::check(asked, proposal, terms));
                let short = !check.list().is_empty();
                let reason = hold(Question::reason(asked, proposal, terms)).reason();
                assert_eq!(reason, short.then_some((8, numbers)));
                let arrange = hold(Question::arrange(asked, asked, proposal, terms));
                assert_eq!(arrange.list() == [asked, 0, 0], !short);
                short
            };
            // Left aside, the station is short at no distance.
            assert!(!check(7));
            verdicts.push(check(0));
        }
        let short = self.squared() < relation.limit();
        assert_eq!(verdicts, [short; 3], "{self:?}: {relation:?}");
        let Sites {
            lat1,
            lon1,
            lat2,
            lon2,
        } = *self;
        agree_in(
            &Question::Distance {
                lat1,
                lon1,
                lat2,
                lon2,
            },
            &[],
            0,
            0,
        );
        agree_in(
            &Question::Distance {
                lat1: lat2,
                lon1: lon2,
                lat2: lat1,
                lon2: lon1,
            },
            &[],
            0,
            0,
        );
        short
    }
}

/// The least difference of longitude at which D is at least r.
fn crossing_east(h: i64, dlat: i64, r: u32) -> Option<i64> {
    let far = |dlon| Sites::at(h, dlat, dlon).map(|sites| sites.kilometres() >= r);
    if far(0)? {
        return None;
    }
    let (mut near, mut apart) = (0, 648_000);
    while apart - near > 1 {
        let middle = (near + apart) / 2;
        if far(middle)? {
            apart = middle;
        } else {
            near = middle;
        }
    }
    Some(apart)
}

/// The least difference of latitude, of the parity of h, at which D is at least r.
fn crossing_north(h: i64, r: u32) -> Option<i64> {
    let (mut near, mut apart) = (-1, 10_000);
    while apart - near > 1 {
        let middle = (near + apart) / 2;
        if Sites::at(h, 2 * middle + h % 2, 0)?.kilometres() >= r {
            apart = middle;
        } else {
            near = middle;
        }
    }
    Some(2 * apart + h % 2)
}

/// Every pair of classes and every difference by either standard, east and north, on both sides of the line, at many latitudes,
/// around longitude 0 and across the 180th meridian.
#[test]
fn every_pair_of_classes() {
    let mut lines = 0;
    for h in (0..HIGHEST)
        .step_by(22_501)
        .chain([1, 2, 216_001, 324_000, 519_999, 520_000, 540_000])
    {
        for relation in [1, 2].into_iter().flat_map(relations) {
            let r = relation.km();
            for dlat in [h % 2, 200 + h % 2] {
                if let Some(dlon) = crossing_east(h, dlat, r) {
                    for (dlon, short) in [(dlon - 1, true), (dlon, false)] {
                        let sites = Sites::at(h, dlat, dlon).expect("both in range");
                        let across = sites.across();
                        for sites in [sites, sites.south(), across, across.back()] {
                            assert_eq!(sites.held(relation), short);
                        }
                        lines += 1;
                    }
                }
            }
            if let Some(dlat) = crossing_north(h, r) {
                for (dlat, short) in [(dlat - 2, true), (dlat, false)] {
                    let sites = Sites::at(h, dlat, 0).expect("both in range");
                    assert_eq!(sites.held(relation), short);
                    assert_eq!(sites.across().held(relation), short);
                    lines += 1;
                }
            }
        }
    }
    assert!(lines > 40_000, "{lines} lines");
}

/// S exactly at the square of the limit is spaced, and D is R.
#[test]
fn exactly_at_the_limit() {
    let mut met = 0;
    for (&(r, _), &relation) in &separations() {
        let limit = 10_000 * i64::from(r) - 5_000;
        let exact = (0..HIGHEST).step_by(2).filter_map(|h| {
            let (_, q) = degrees(i128::from(h));
            let dlon = (limit * 3_600_000 + q as i64 - 1) / q as i64;
            (dlon * q as i64 / 3_600_000 == limit)
                .then(|| Sites::at(h, 0, dlon))
                .flatten()
        });
        for sites in exact.take(3) {
            assert_eq!(sites.kilometres(), r);
            assert!(!sites.held(relation));
            assert!(!sites.across().held(relation));
            met += 1;
        }
    }
    assert!(met > 100, "{met} sites");
}

/// One more or one less in Q, or in P, moves the line between two neighbouring sites: all such lines of Table A and of the lesser
/// table along a parallel or a meridian.
#[test]
fn where_one_unit_decides() {
    let separations = separations();
    let mut by_q = 0;
    let mut by_p = 0;
    for h in 0..=HIGHEST {
        let (p, q) = degrees(i128::from(h));
        let (p, q) = (p as i64, q as i64);
        for (&(r, _), &relation) in &separations {
            let need = (10_000 * i64::from(r) - 5_000) * 3_600_000;
            // The least n with n × scale at least need, unless a scale of one more or one less gives the same.
            let decided = |scale: i64| {
                let n = (need + scale - 1) / scale;
                (n * (scale - 1) < need || (n - 1) * (scale + 1) >= need).then_some(n)
            };
            if h % 2 == 0 {
                if let Some(dlon) = decided(q) {
                    for (dlon, short) in [(dlon - 1, true), (dlon, false)] {
                        let sites = Sites::at(h, 0, dlon).expect("both in range");
                        assert_eq!(sites.held(relation), short, "{sites:?}");
                    }
                    by_q += 1;
                }
            }
            if let Some(dlat) = decided(p).filter(|dlat| (dlat + h) % 2 == 0) {
                if let Some(sites) = Sites::at(h, dlat, 0) {
                    assert!(!sites.held(relation), "{sites:?}");
                    by_p += 1;
                }
            }
            if let Some(dlat) = decided(p).filter(|dlat| (dlat + h) % 2 != 0) {
                if let Some(sites) = Sites::at(h, dlat - 1, 0) {
                    assert!(sites.held(relation), "{sites:?}");
                    by_p += 1;
                }
            }
        }
    }
    assert!(by_q > 50 && by_p > 50, "{by_q} by Q, {by_p} by P");
}

/// The quotient cut toward minus infinity.
fn floored(a: i128, b: i128) -> i128 {
    a.div_euclid(b)
}

/// Q with the quotients in c3 and c5 cut by one rule each.
fn q_cut(h: i64, third: fn(i128, i128) -> i128, fifth: fn(i128, i128) -> i128) -> i128 {
    let [_, c1, c2, _, c4, _] = cosines(i128::from(h));
    let c3 = 2 * third(c1 * c2, E) - c1;
    let c5 = 2 * fifth(c1 * c4, E) - c3;
    1_114_151_300 * c1 / E - 945_500 * c3 / E + 1_200 * c5 / E
}

/// The mean latitudes at which cutting c3 or c5 toward minus infinity would change Q: at each, a pair that would show it in D.
#[test]
fn where_flooring_would_show() {
    let toward_zero: fn(i128, i128) -> i128 = |a, b| a / b;
    let separations = separations();
    let mut latitudes = 0;
    let mut shown = 0;
    for h in 0..=HIGHEST {
        let q = q_cut(h, toward_zero, toward_zero);
        for other in [
            q_cut(h, floored, toward_zero),
            q_cut(h, toward_zero, floored),
        ] {
            if q == other {
                continue;
            }
            latitudes += 1;
            if let Some((relation, near, far)) =
                shows(h, q as i64, other as i64, separations.values())
            {
                assert!(near.held(relation), "{near:?}");
                assert!(!far.held(relation), "{far:?}");
                shown += 1;
            }
        }
    }
    assert_eq!(latitudes, 461 + 6);
    assert!(shown > 400, "{shown} shown");
}

/// A relation and two pairs of sites, neighbours in longitude, one short and one not, of which Q and another Q judge one
/// differently.
fn shows<'a>(
    h: i64,
    q: i64,
    other: i64,
    relations: impl Iterator<Item = &'a Relation> + Clone,
) -> Option<(Relation, Sites, Sites)> {
    let (p, _) = degrees(i128::from(h));
    for dlat in (h % 2..4_000).step_by(2) {
        let ns = dlat * p as i64 / 3_600_000;
        for &relation in relations.clone() {
            let limit = 10_000 * i64::from(relation.km()) - 5_000;
            if ns >= limit {
                continue;
            }
            let rest = limit * limit - ns * ns;
            let root = rest.isqrt();
            let ew = if root * root == rest { root } else { root + 1 };
            let least = |scale: i64| (ew * 3_600_000 + scale - 1) / scale;
            if least(q) != least(other) {
                let near = Sites::at(h, dlat, least(q) - 1)?;
                return Some((relation, near, Sites::at(h, dlat, least(q))?));
            }
        }
    }
    None
}

/// The line of the distance question: 475 is answered, 476 is refused with 24, at many latitudes and across the 180th meridian.
#[test]
fn the_line_of_475() {
    for h in (0..=HIGHEST).step_by(3_001) {
        let dlon = crossing_east(h, h % 2, 476).expect("in range");
        for (dlon, answer) in [
            (dlon - 1, Answer::Granted(475)),
            (
                dlon,
                Answer::Refused {
                    number: 24,
                    extra: 0,
                },
            ),
        ] {
            for Sites {
                lat1,
                lon1,
                lat2,
                lon2,
            } in Sites::at(h, h % 2, dlon)
                .iter()
                .flat_map(|s| [*s, s.south(), s.across()])
            {
                let question = Question::Distance {
                    lat1,
                    lon1,
                    lat2,
                    lon2,
                };
                assert_eq!(agree_in(&question, &[], 0, 0).answer, answer);
            }
        }
    }
}
