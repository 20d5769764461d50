//! Questions of kind 6: where a retiming moves one copy.

use crate::draft::Draft;
use crate::known::{self, Known};
use crate::random::Random;
use crate::shapes::{chained, longest_row};
use crate::{bench_rows, damage, refused, Stream};

/// What stands before the sheet.
fn head(station: u16, copy: u16, r: i32) -> Vec<u8> {
    [&station.to_le_bytes()[..], &copy.to_le_bytes(), &r.to_le_bytes()].concat()
}

pub fn systematic(stream: &mut Stream) {
    stream.ask_lengths(6, &[head(0, 1, -1), bench_rows::alone(7).sheet()].concat(), 1);
    for row in bench_rows::all() {
        stream.ask_about(6, &head(0, 1, -1), &row.sheet());
    }
    every_remainder(stream);
    large_count(stream);
    limits(stream);
    stations(stream);
    refused::ask(6, &[head(1, 1, -1), head(2, 0, i32::MAX)], stream);
}

/// Every copy of small counts, by every number of more than two rounds on and back.
fn every_remainder(stream: &mut Stream) {
    for count in 1..=3 {
        let sheet = chained(&[(count, 1)]).sheet();
        let far = 2 * i32::from(count) + 1;
        for copy in 1..=count {
            for r in -far..=far {
                stream.ask_about(6, &head(1, copy, r), &sheet);
            }
        }
    }
}

/// Counts 1, 5 and 250, the last of which is as large as a count can be.
fn counts_to_250() -> Draft {
    chained(&[(5, 1), (50, 1)])
}

fn large_count(stream: &mut Stream) {
    let sheet = counts_to_250().sheet();
    for copy in [1, 2, 249, 250] {
        for r in [0, 1, 249, 250, 251, 65_500, 65_535] {
            stream.ask_about(6, &head(2, copy, r), &sheet);
            stream.ask_about(6, &head(2, copy, -r), &sheet);
        }
    }
}

/// Numbers at and around the limits for both copies of the sample's station 0, and copies that it
/// doesn't have.
fn limits(stream: &mut Stream) {
    let sheet = bench_rows::sample().sheet();
    for copy in [1, 2] {
        for r in [0, -65_535, 65_535, -65_536, 65_536, -131_071, 131_071, i32::MIN, i32::MAX] {
            stream.ask_about(6, &head(0, copy, r), &sheet);
        }
    }
    for copy in [0, 3, 257, 65_535] {
        for r in [0, -1, 65_536] {
            stream.ask_about(6, &head(0, copy, r), &sheet);
        }
    }
}

/// Stations at and around n, then the last copy of each station and one more.
fn stations(stream: &mut Stream) {
    for draft in [bench_rows::alone(7), bench_rows::sample(), longest_row()] {
        for station in [0, draft.n - 1, draft.n, draft.n + 1, draft.n + 256, 65_535] {
            stream.ask_about(6, &head(station, 1, 4), &draft.sheet());
        }
    }
    let sheet = counts_to_250().sheet();
    for (station, count) in [(0, 1), (1, 5), (2, 250)] {
        for copy in [count, count + 1] {
            stream.ask_about(6, &head(station, copy, -7), &sheet);
        }
    }
}

pub fn random_body(random: &mut Random) -> Vec<u8> {
    let Known { draft, counts, .. } = known::random(random);
    let station = random.below(counts.len());
    let copy = random_copy(counts[station], random);
    let r = random_r(counts[station], random);
    let told = if random.one_in(30) { random.below(34) } else { station };
    damage::seldom(&head(told as u16, copy as u16, r), draft, random)
}

fn random_copy(count: usize, random: &mut Random) -> usize {
    match random.below(30) {
        0 => 0,
        1 => count + 1,
        2 => random.below(300),
        3..=7 => count,
        _ => 1 + random.below(count),
    }
}

/// Mostly a few rounds, often exactly, on or back.
fn random_r(count: usize, random: &mut Random) -> i32 {
    let size = match random.below(16) {
        0 => random.next() as u32 as usize / 2,
        1 => 65_530 + random.below(10),
        2..=4 => random.below(65_536),
        5 | 6 => count * random.below(65_535 / count + 1),
        7..=9 => count * random.below(4),
        _ => random.below(3 * count + 1),
    };
    random.signed(size)
}
