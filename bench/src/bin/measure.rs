//! measure WHO WHAT SIZE SITES: one workload. Prints what came of it, the same for all who answer alike; then makes the same calls
//! again from `measured`, so that callgrind can count them alone.

use fms_bench::question::{Answer, Ask, Lent, Proposal, Question, Terms};
use fms_bench::{double_loop, fms, made, naive, tuned};
use std::hint::black_box;
use std::process::exit;

const USAGE: &str = "usage: measure product|tuned|tuned-box|naive \
    read|check|check-aside|check-lesser|reason|reason-aside|reason-lesser|arrange|arrange-aside|arrange-lesser|\
    arrange-one-by-one|add|withdraw|move 250|2000|4000|slow SITES\n       \
    measure unsearched|double-loop read 250|2000|4000|slow SITES";

/// Who answers. The tuned program also reads without a search for repeats, and with a double loop for it.
fn named(who: &str, what: &str) -> Option<Ask> {
    match (who, what) {
        ("product", _) => Some(fms::ask),
        ("tuned", _) => Some(tuned::ask),
        ("tuned-box", _) => Some(tuned::ask_box),
        ("naive", _) => Some(naive::ask),
        ("unsearched", "read") => Some(|_, table, _| tuned::read_unsearched(table)),
        ("double-loop", "read") => Some(|_, table, _| double_loop::read(table)),
        _ => None,
    }
}

/// Channels 221 to 300, in each turn from another one on.
fn channels(turn: usize) -> impl Iterator<Item = u32> {
    (0..80).map(move |place| 221 + (7 * turn as u32 + place) % 80)
}

/// The id of the station nearest to a site, by D, of those that are short on one of some channels; of another where none is.
fn in_the_way(
    table: &[u8],
    channels: impl Iterator<Item = u32>,
    proposal: Proposal,
    other: u32,
) -> u32 {
    let mut buffers = Buffers::new();
    let mut nearest = None;
    for channel in channels {
        let check = Question::check(channel, proposal, Terms::new(0, 1));
        let Answer::Granted(count) = tuned::ask_box(&check, table, buffers.lent()) else {
            panic!("every site is one that may be asked about")
        };
        let found = buffers.rows[..count as usize].chunks_exact(3);
        nearest = found.map(|row| (row[1], row[0])).chain(nearest).min();
    }
    nearest.map_or(other, |(_, id)| id)
}

/// The first of some changes that is granted.
fn granted(table: &[u8], mut changes: impl Iterator<Item = Question>) -> Vec<Question> {
    let mut buffers = Buffers::new();
    let change = changes.find(|change| {
        let answer = tuned::ask_box(change, table, buffers.lent());
        matches!(answer, Answer::Granted(_))
    });
    vec![change.expect("one is granted")]
}

/// The questions of a workload: one for each site, or 80 where each channel is asked for by itself. A study is by standard 2 where
/// it is `lesser`, else by 1. A station that is left aside is the nearest that stands in the way. Adds, withdrawals and moves are
/// such as are granted, at places of the table that are evenly spread; where every channel is blocked at a site, the Add is made at
/// the next site that has a free one.
fn questions(what: &str, table: &[u8], sites: &[Proposal]) -> Option<Vec<Question>> {
    let (records, _) = table[8..].as_chunks::<16>();
    let ids: Vec<u32> = records
        .iter()
        .map(|&[a, b, c, d, ..]| u32::from_be_bytes([a, b, c, d]))
        .collect();
    let mut questions = Vec::new();
    for (turn, &proposal) in sites.iter().enumerate() {
        let ids = &ids[turn * ids.len() / sites.len()..];
        let channel = channels(turn).next().expect("80 channels");
        let terms = |first, last| match what.split_once('-') {
            Some((_, "aside")) => Terms::new(in_the_way(table, first..=last, proposal, ids[0]), 1),
            Some((_, "lesser")) => Terms::new(0, 2),
            _ => Terms::new(0, 1),
        };
        questions.extend(match what {
            "read" => vec![Question::Read],
            "check" | "check-aside" | "check-lesser" => {
                vec![Question::check(channel, proposal, terms(channel, channel))]
            }
            "reason" | "reason-aside" | "reason-lesser" => {
                vec![Question::reason(channel, proposal, terms(channel, channel))]
            }
            "arrange" | "arrange-aside" | "arrange-lesser" => {
                vec![Question::arrange(221, 300, proposal, terms(221, 300))]
            }
            "arrange-one-by-one" => (221..=300)
                .map(|channel| Question::arrange(channel, channel, proposal, terms(221, 300)))
                .collect(),
            "add" => {
                let mut pairs = ids.windows(2);
                let gap = pairs
                    .find(|pair| pair[0] + 1 < pair[1])
                    .expect("ids with a gap");
                let id = gap[0] + 1;
                let adds = |&proposal: &Proposal| {
                    channels(turn).map(move |channel| Question::Add {
                        id,
                        channel,
                        proposal,
                    })
                };
                let (before, from_here) = sites.split_at(turn);
                granted(table, from_here.iter().chain(before).flat_map(adds))
            }
            "withdraw" => granted(table, ids.iter().map(|&id| Question::Withdraw { id })),
            "move" => {
                let moves =
                    |&id: &u32| channels(turn).map(move |channel| Question::Move { id, channel });
                granted(table, ids.iter().flat_map(moves))
            }
            _ => return None,
        });
    }
    Some(questions)
}

/// Room for any answer.
struct Buffers {
    image: Vec<u8>,
    rows: Vec<u32>,
    reason: [u32; 4],
}

impl Buffers {
    fn new() -> Buffers {
        Buffers {
            image: vec![0; 8 + 16 * 4_000],
            rows: vec![0; 3 * 80 * 79],
            reason: [0; 4],
        }
    }

    fn lent(&mut self) -> Lent<'_> {
        Lent {
            image: &mut self.image,
            rows: &mut self.rows,
            reason: &mut self.reason,
        }
    }
}

/// A workload: who answers, what is asked about which table, and the lent buffers.
struct Workload {
    ask: Ask,
    table: Vec<u8>,
    questions: Vec<Question>,
    buffers: Buffers,
}

impl Workload {
    /// The workload of these words, where they name one.
    fn named(words: &[String]) -> Option<Workload> {
        let [who, what, size, sites] = words else {
            return None;
        };
        let ask = named(who, what)?;
        // Add has room for one more station.
        let room = usize::from(what == "add");
        let table = match &size[..] {
            "250" => made::region(1, 250 - room),
            "2000" => made::region(1, 2_000 - room),
            "4000" => made::region(1, 4_000 - room),
            "slow" => made::slow(4_000 - room),
            _ => return None,
        };
        let sites = made::region_proposals(2, sites.parse().ok()?);
        Some(Workload {
            ask,
            questions: questions(what, &table, &sites)?,
            table,
            buffers: Buffers::new(),
        })
    }

    /// A sum over the answers and what was written for each, and how many questions are granted.
    fn told(&mut self) -> String {
        let (mut sum, mut granted) = (0u64, 0);
        for question in &self.questions {
            let answer = (self.ask)(question, &self.table, self.buffers.lent());
            let written = match answer {
                Answer::Granted(count) => question.room(count),
                Answer::Refused { .. } => 0,
            };
            granted += usize::from(matches!(answer, Answer::Granted(_)));
            let Buffers {
                image,
                rows,
                reason,
            } = &self.buffers;
            let bytes = image.iter().take(written);
            let numbers = rows.iter().take(written).chain(reason);
            sum = [answer.word()]
                .into_iter()
                .chain(bytes.map(|&byte| byte.into()))
                .chain(numbers.map(|&number| number.into()))
                .fold(sum, |sum, word| sum.wrapping_mul(31).wrapping_add(word));
        }
        format!("{sum}, {granted} of {} granted", self.questions.len())
    }
}

/// Every call that is to be counted. Nothing may follow it: on Arm callgrind does not always see where it ends.
#[no_mangle]
#[inline(never)]
fn measured(work: &mut Workload) {
    for question in &work.questions {
        black_box((work.ask)(question, &work.table, work.buffers.lent()));
    }
}

fn main() {
    let words: Vec<String> = std::env::args().skip(1).collect();
    let Some(mut work) = Workload::named(&words) else {
        eprintln!("{USAGE}");
        exit(2);
    };
    println!("{}", work.told());
    measured(&mut work);
    exit(0);
}
