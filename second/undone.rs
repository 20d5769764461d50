//! Random sheets that can be retimed to their target because they are made backwards: from delays
//! that serve, by undoing a random retiming.

use crate::balanced;
use crate::draft::{Draft, DELAY};
use crate::known::Known;
use crate::legal;
use crate::random::Random;
use crate::shapes::timed;

const LARGEST_DELAY: i64 = 4_095;

/// The counts may be more than a plan may have.
pub fn random(random: &mut Random) -> Known {
    let counts = random_counts(random);
    let times: Vec<u16> = random_times(counts.len(), random);
    let size = if random.one_in(2) { 1 } else { 1 + random.below(counts.len().div_ceil(2)) };
    let mut queues: Vec<[u16; 5]> = balanced::random_ends(&counts, random)
        .into_iter()
        .filter_map(|(source, sink)| retimed(source, sink, size, &counts, random))
        .collect();
    let undoing = random_undoing(&counts, &queues, random);
    for queue in &mut queues {
        queue[DELAY] = legal::new_delay(queue, &undoing).min(LARGEST_DELAY) as u16;
    }
    let target = random_target(&times, size, random);
    let draft = Draft { target, ..timed(times, queues) };
    let retiming: Vec<i64> = undoing.iter().map(|r| -r).collect();
    Known::of(draft, &counts, &retiming, random)
}

fn random_counts(random: &mut Random) -> Vec<usize> {
    if random.one_in(8) {
        return balanced::random_counts(random);
    }
    let most = *random.pick(&[1, 2, 4, 8]);
    (0..2 + random.below(10)).map(|_| 1 + random.below(most)).collect()
}

/// A queue with its delay in the retimed sheet. Stations stand in groups of one size. Inside a
/// group queues to later stations may hold any delay; all other queues hold a round, so that no
/// path without delay leaves its group.
fn retimed(
    source: usize,
    sink: usize,
    size: usize,
    counts: &[usize],
    random: &mut Random,
) -> Option<[u16; 5]> {
    let (produced, consumed) = balanced::random_rates(source, sink, counts, random)?;
    let round = consumed * counts[sink];
    let delay = match (source < sink && source / size == sink / size, random.below(6)) {
        (true, 0..=2) => 0,
        (true, _) => random.below(round + 1),
        (false, 0) => round + random.below(round),
        (false, _) => round,
    };
    Some([source, sink, produced, consumed, delay].map(|field| field as u16))
}

/// Any numbers to 0 at first, then raised until they are legal. They stay at 0 or below, because
/// all 0 undoes nothing. Those that begin alike except for one 0 leave the tokens close together.
fn random_undoing(counts: &[usize], queues: &[[u16; 5]], random: &mut Random) -> Vec<i64> {
    let rounds = 1 + random.below(counts.len());
    let still = if random.one_in(3) { random.below(counts.len()) } else { 0 };
    let any = random.one_in(3);
    let number = |(station, count): (usize, &usize)| match station == still {
        true => 0,
        false if any => -(random.below(count * rounds + 1) as i64),
        false => -((count * rounds) as i64),
    };
    legal::raised(queues, counts.iter().enumerate().map(number).collect())
}

/// Mostly all alike or small, so that one firing more or fewer on a path matters.
fn random_times(n: usize, random: &mut Random) -> Vec<u16> {
    let most = *random.pick(&[1, 1, 2, 3, 9, 1_000]);
    let least = if random.one_in(3) { 0 } else { 1 };
    (0..n).map(|_| (least + random.below(most + 1 - least)) as u16).collect()
}

/// The largest sum of times in a group, which serves, and now and then one below it or above it.
fn random_target(times: &[u16], size: usize, random: &mut Random) -> u32 {
    let sum = |group: &[u16]| group.iter().map(|&time| u32::from(time)).sum();
    let largest: u32 = times.chunks(size).map(sum).max().unwrap_or(0);
    match random.below(8) {
        0 | 1 => largest.saturating_sub(1),
        2 => largest + 1,
        _ => largest,
    }
}
