//! Questions of kind 8: firings done and the lists that they are told from.

use crate::random::Random;
use crate::{damage, Stream};

/// The body of a question. The told lengths may not be those of the lists.
#[derive(Clone)]
struct Request {
    done: u64,
    start_length: u16,
    start: Vec<u16>,
    round_length: u16,
    round: Vec<u16>,
}

impl Request {
    fn of(done: u64, start: Vec<u16>, round: Vec<u16>) -> Request {
        let (start_length, round_length) = (start.len() as u16, round.len() as u16);
        Request { done, start_length, start, round_length, round }
    }

    fn body(&self) -> Vec<u8> {
        let mut bytes = self.done.to_le_bytes().to_vec();
        for (length, list) in [(self.start_length, &self.start), (self.round_length, &self.round)] {
            bytes.extend_from_slice(&length.to_le_bytes());
            for station in list {
                bytes.extend_from_slice(&station.to_le_bytes());
            }
        }
        bytes
    }
}

/// Lists in which every entry is another one.
fn numbered(done: u64, start: u16, round: u16) -> Request {
    let entries = |first: u16, length: u16| (first..first + length).collect();
    Request::of(done, entries(100, start), entries(20_000, round))
}

pub fn systematic(stream: &mut Stream) {
    for (start, round) in
        [(0, 0), (0, 1), (1, 0), (1, 1), (2, 3), (3, 2), (4, 4), (0, 5), (5, 0), (1_000, 1_000)]
    {
        for done in around(start, round) {
            stream.ask(8, &numbered(done, start, round).body());
        }
    }
    for (start, round) in [(1_000, 0), (0, 1_000), (1_001, 0), (0, 1_001), (1_001, 1_001)] {
        stream.ask(8, &numbered(999, start, round).body());
    }
    stream.ask_lengths(8, &numbered(1, 3, 2).body(), 3);
    told_lengths(stream);
}

/// Firings done around 0, the start list's end, the ends of the next rounds and the largest
/// numbers.
fn around(start: u16, round: u16) -> Vec<u64> {
    let (start, round) = (u64::from(start), u64::from(round));
    let rounds = [0, 1, 2, 3, 1_000_000].map(|rounds| start + rounds * round);
    let mut all: Vec<u64> = rounds.into_iter().chain([0, 1 << 32, 1 << 63]).collect();
    all = all.iter().flat_map(|&done| [done.saturating_sub(1), done, done + 1]).collect();
    all.extend((0..4).map(|less| u64::MAX - less));
    all.sort();
    all.dedup();
    all
}

fn told_lengths(stream: &mut Stream) {
    let base = numbered(1, 3, 2);
    for start_length in [0, 2, 4, 1_000, 1_001, 65_535] {
        stream.ask(8, &Request { start_length, ..base.clone() }.body());
    }
    for round_length in [0, 1, 3, 1_000, 1_001, 65_535] {
        stream.ask(8, &Request { round_length, ..base.clone() }.body());
    }
}

pub fn random_body(random: &mut Random) -> Vec<u8> {
    let most = *random.pick(&[1, 4, 9, 9, 40, 1_000]);
    let start: Vec<u16> = random_list(random.below(most + 1), random);
    let round: Vec<u16> = random_list(random.below(most + 1), random);
    let done = random_done(start.len(), round.len(), random);
    let mut bytes = Request::of(done, start, round).body();
    if random.one_in(4) {
        damage::perhaps_bytes(&mut bytes, random);
    }
    bytes
}

fn random_list(length: usize, random: &mut Random) -> Vec<u16> {
    (0..length).map(|_| random.below(32) as u16).collect()
}

fn random_done(start: usize, round: usize, random: &mut Random) -> u64 {
    match random.below(6) {
        0 => random.next(),
        1 => u64::MAX - random.below(50) as u64,
        2 => random.below(start + 2) as u64,
        3 => (start + round * random.below(1_000)) as u64,
        _ => random.below(start + 3 * round + 2) as u64,
    }
}
