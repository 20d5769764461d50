//! Random sheets that are balanced because their counts are chosen first, with delays about as
//! large as their loops need.

use crate::draft::Draft;
use crate::known::Known;
use crate::random::Random;
use crate::shapes::{common_divisor, timed};

const LARGEST_RATE: usize = 64;
const LARGEST_DELAY: usize = 4_095;

pub fn random(random: &mut Random) -> Known {
    let counts = random_counts(random);
    let queues = random_ends(&counts, random)
        .into_iter()
        .filter_map(|(source, sink)| queue(source, sink, &counts, random))
        .collect();
    let times: Vec<u16> = counts.iter().map(|_| random_time(random)).collect();
    let target = random_target(&times, random);
    let draft = Draft { target, ..timed(times, queues) };
    Known::of(draft, &counts, &vec![0; counts.len()], random)
}

/// Mostly few and small counts, now and then a sum close to 256, many stations, or counts whose
/// ratios are plain although they are large.
pub fn random_counts(random: &mut Random) -> Vec<usize> {
    match random.below(24) {
        0 | 1 => close_to_256(random),
        2 => (0..9 + random.below(24)).map(|_| 1 + random.below(8)).collect(),
        3..=5 => {
            let plain = [1, 2, 3, 4, 6, 8, 12, 16, 24, 32, 48, 96, 144];
            (0..2 + random.below(3)).map(|_| *random.pick(&plain)).collect()
        }
        6..=8 => vec![1; 1 + random.below(8)],
        _ => (0..1 + random.below(5)).map(|_| 1 + random.below(6)).collect(),
    }
}

/// Counts to 64, the last of which brings the sum close to 256 if it can.
fn close_to_256(random: &mut Random) -> Vec<usize> {
    let mut counts: Vec<usize> = (0..4 + random.below(4)).map(|_| 20 + random.below(40)).collect();
    let sum: usize = counts.iter().sum();
    let rest = (254 + random.below(5)).saturating_sub(sum);
    counts.push(rest.clamp(1, LARGEST_RATE));
    counts
}

/// Sources and sinks: a queue between each station and an earlier one, then some between any two.
pub fn random_ends(counts: &[usize], random: &mut Random) -> Vec<(usize, usize)> {
    let n = counts.len();
    let mut ends: Vec<(usize, usize)> =
        (1..n).filter_map(|station| tree_ends(station, counts, random)).collect();
    let most = if n > 8 && random.one_in(2) { 64 - ends.len() } else { n + 3 };
    ends.extend((0..random.below(most + 1)).map(|_| (random.below(n), random.below(n))));
    ends
}

/// A station whose count fits none before it stays alone.
fn tree_ends(station: usize, counts: &[usize], random: &mut Random) -> Option<(usize, usize)> {
    let first = if random.one_in(2) { station - 1 } else { random.below(station) };
    let mut others = (0..station).map(|i| (first + i) % station);
    let other = others.find(|&other| smallest_rates(station, other, counts).is_some())?;
    Some(if random.one_in(4) { (station, other) } else { (other, station) })
}

/// The smallest rates that the counts balance, if they are small enough.
fn smallest_rates(source: usize, sink: usize, counts: &[usize]) -> Option<(usize, usize)> {
    let common = common_divisor(counts[source], counts[sink]);
    let (produced, consumed) = (counts[sink] / common, counts[source] / common);
    (produced.max(consumed) <= LARGEST_RATE).then_some((produced, consumed))
}

pub fn random_rates(
    source: usize,
    sink: usize,
    counts: &[usize],
    random: &mut Random,
) -> Option<(usize, usize)> {
    let (produced, consumed) = smallest_rates(source, sink, counts)?;
    let most = LARGEST_RATE / produced.max(consumed);
    let times = if random.one_in(2) { 1 } else { 1 + random.below(most.min(5)) };
    Some((times * produced, times * consumed))
}

/// A queue that the counts balance, if its rates can be small enough.
fn queue(source: usize, sink: usize, counts: &[usize], random: &mut Random) -> Option<[u16; 5]> {
    let (produced, consumed) = random_rates(source, sink, counts, random)?;
    let delay = if source < sink {
        forward_delay(consumed, consumed * counts[sink], random)
    } else {
        backward_delay(produced, consumed, consumed * counts[sink], random)
    };
    Some([source, sink, produced, consumed, delay.min(LARGEST_DELAY)].map(|field| field as u16))
}

/// Queues to later stations close no loop by themselves and are mostly empty.
fn forward_delay(consumed: usize, round: usize, random: &mut Random) -> usize {
    match random.below(10) {
        0..=4 => 0,
        5 | 6 => random.below(2 * consumed),
        7 => around(round, random),
        8 => random.below(2 * round),
        _ => random.below(LARGEST_DELAY + 1),
    }
}

/// Queues to earlier stations and self-queues close loops: what two stations need, or a round,
/// which is always enough, and one more or fewer.
fn backward_delay(produced: usize, consumed: usize, round: usize, random: &mut Random) -> usize {
    match random.below(20) {
        0 | 1 => random.below(consumed),
        2..=8 => around(produced + consumed - common_divisor(produced, consumed), random),
        9..=12 => around(round, random),
        13..=16 => consumed + random.below(round),
        17 | 18 => round + random.below(round),
        _ => random.below(LARGEST_DELAY + 1),
    }
}

fn around(tokens: usize, random: &mut Random) -> usize {
    tokens + random.below(3) - 1
}

fn random_time(random: &mut Random) -> u16 {
    match random.below(30) {
        0 => 0,
        1 => 65_535,
        2 => random.next() as u16,
        _ => random.below(10) as u16,
    }
}

/// Mostly the largest time and up to half of the sum of times more.
fn random_target(times: &[u16], random: &mut Random) -> u32 {
    let largest = times.iter().copied().max().unwrap_or(0);
    let sum: u32 = times.iter().map(|&time| u32::from(time)).sum();
    match random.below(12) {
        0 => random.next() as u32,
        1 => random.below(12) as u32,
        _ => u32::from(largest) + random.below(1 + sum as usize / 2) as u32,
    }
}
