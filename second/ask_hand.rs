//! Questions of kind 5: the period of a hand retiming.

use crate::draft::Draft;
use crate::planned::{self, Planned};
use crate::random::Random;
use crate::shapes::{chain, joined, longest_row, star, timed};
use crate::{bench_rows, damage, hand_lists, known, paths, refused, Stream};

/// What stands before the sheet, with a told length that may not be the list's.
fn told(length: u16, list: &[i32]) -> Vec<u8> {
    let entries = list.iter().flat_map(|r| r.to_le_bytes());
    length.to_le_bytes().into_iter().chain(entries).collect()
}

fn head(list: &[i32]) -> Vec<u8> {
    told(list.len() as u16, list)
}

pub fn systematic(stream: &mut Stream) {
    stream.ask_lengths(5, &[head(&[-3]), bench_rows::alone(7).sheet()].concat(), 1);
    list_lengths(stream);
    told_lengths(stream);
    small_lists(stream);
    limits(stream);
    far_apart(stream);
    every_remainder(stream);
    for planned in planned::all() {
        around_plan(&planned, stream);
    }
    several_negative(stream);
    long_paths(stream);
    refused::ask(5, &[head(&[0, 0]), head(&[i32::MAX])], stream);
}

/// Lists of n entries, one fewer or more, and of as many as a question may have and one more.
fn list_lengths(stream: &mut Stream) {
    let row = Draft { target: 320, ..longest_row() };
    for draft in [bench_rows::alone(7), bench_rows::k(4, 5), row] {
        let n = usize::from(draft.n);
        for length in [0, n - 1, n, n + 1, n + 256, 1_000, 1_001] {
            stream.ask_about(5, &head(&vec![0; length]), &draft.sheet());
        }
    }
}

/// The sheet is taken to begin inside the list or behind its end. With 14 entries nothing is left
/// of it.
fn told_lengths(stream: &mut Stream) {
    let sheet = bench_rows::sample().sheet();
    for length in [0, 1, 3, 14, 15, 1_000, 1_001, 65_535] {
        stream.ask_about(5, &told(length, &[0, 1]), &sheet);
    }
}

/// Every list of small numbers for the sample, for its target and for one that more of them meet.
fn small_lists(stream: &mut Stream) {
    for target in [3, 5] {
        let sheet = bench_rows::k(4, target).sheet();
        for first in -5..=3 {
            for second in -2..=2 {
                stream.ask_about(5, &head(&[first, second]), &sheet);
            }
        }
    }
}

/// One entry or all of them at and around the limits, or such that 16 bits of them are within.
fn limits(stream: &mut Stream) {
    let ring = joined(2, vec![[0, 1, 1, 1, 1], [1, 0, 1, 1, 1]]).sheet();
    let cut = [-131_072, -65_537, 65_537, 131_072];
    let edges = [i32::MIN, i32::MIN + 1, -65_536, -65_535, 65_535, 65_536, i32::MAX];
    for r in edges.into_iter().chain(cut) {
        for list in [[r, 0], [0, r], [r, r]] {
            stream.ask_about(5, &head(&list), &ring);
        }
    }
}

/// Lists at the limits whose entries lie far apart, which gives the largest new delays and the most
/// negative ones, or just so far that the delay is used up.
fn far_apart(stream: &mut Stream) {
    for delay in [0, 4_095] {
        let sheet = joined(2, vec![[0, 1, 64, 64, delay]]).sheet();
        for list in [
            [-65_535, 65_535],
            [65_535, -65_535],
            [-65_536, 65_535],
            [65_535, 65_472],
            [65_535, 65_471],
            [-65_472, -65_535],
            [-65_471, -65_535],
        ] {
            stream.ask_about(5, &head(&list), &sheet);
        }
    }
}

/// Every number back of more than two rounds of a station with tokens for two. A self-queue makes
/// its copies wait for each other, so that the period shows where the tokens end.
fn every_remainder(stream: &mut Stream) {
    for count in [2, 3, 5] {
        let queues = vec![[0, 1, count, 1, 2 * count], [1, 1, 1, 1, 1]];
        let draft = Draft { target: 100, ..timed(vec![20, 3], queues) };
        for r in -2 * i32::from(count) - 1..=1 {
            stream.ask_about(5, &head(&[0, r]), &draft.sheet());
        }
    }
}

/// The plan's retiming and the same with rounds added, which change nothing; one entry more or
/// less; and targets around the period.
fn around_plan(planned: &Planned, stream: &mut Stream) {
    let Planned { draft, counts, retiming, period } = planned;
    let largest = counts.iter().copied().max().unwrap_or(1);
    let most = 65_535 / largest;
    for rounds in [-most, -1_000, -1, 0, 1, most, most + 1] {
        let list = hand_lists::moved(retiming, counts, rounds);
        stream.ask_about(5, &head(&list), &draft.sheet());
    }
    for (station, r) in retiming.iter().enumerate() {
        for changed in [r - 1, r + 1] {
            let mut list = retiming.clone();
            list[station] = changed;
            stream.ask_about(5, &head(&list), &draft.sheet());
        }
    }
    for target in [0, period - 1, period + 1, u32::MAX] {
        let sheet = Draft { target, ..draft.clone() }.sheet();
        stream.ask_about(5, &head(retiming), &sheet);
    }
}

/// Any of three queues negative, then more and more of 64 from the last one on.
fn several_negative(stream: &mut Stream) {
    let sheet = star(&[(1, 1), (2, 1), (3, 1)]).sheet();
    for which in 0..8 {
        let list = [0, 1, 2].map(|queue| if which >> queue & 1 == 1 { -1 } else { 0 });
        stream.ask_about(5, &head(&[&[0][..], &list].concat()), &sheet);
    }
    let sheet = joined(2, (0..64).map(|queue| [0, 1, 1, 1, 63 - queue]).collect()).sheet();
    for r in [0, -1, -2, -33, -63, -64, -65_535] {
        stream.ask_about(5, &head(&[0, r]), &sheet);
        stream.ask_about(5, &head(&[-r, 0]), &sheet);
    }
}

/// Paths of many copies, of the largest times and over the most tokens, with all entries 0 and then
/// raised from the last station on.
fn long_paths(stream: &mut Stream) {
    let row = timed(vec![65_535; 32], chain(&[(1, 1); 31]));
    let mut drafts = vec![paths::serial([65_535; 3]), row];
    drafts.extend(paths::heavy());
    for draft in drafts {
        let mut list = vec![0; draft.stations.len()];
        let sheet = Draft { target: u32::MAX, ..draft }.sheet();
        stream.ask_about(5, &head(&list), &sheet);
        for station in (0..list.len()).rev().take(3) {
            list[station] += 1;
            stream.ask_about(5, &head(&list), &sheet);
        }
    }
}

pub fn random_body(random: &mut Random) -> Vec<u8> {
    let mut known = known::random(random);
    let list = hand_lists::random(&known, random);
    if !random.one_in(3) {
        known.draft.target = random_target(known.draft.target, random);
    }
    damage::seldom(&head(&list), known.draft, random)
}

/// Larger targets, so that more periods are told than those that a plan could have.
fn random_target(target: u32, random: &mut Random) -> u32 {
    match random.below(8) {
        0 => u32::MAX,
        _ => target.saturating_mul(1 + random.below(12) as u32).saturating_add(1),
    }
}
