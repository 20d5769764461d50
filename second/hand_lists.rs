//! Random hand lists for drafts whose counts are known.

use crate::known::Known;
use crate::legal;
use crate::random::Random;

const LIMIT: usize = 65_535;

pub fn random(known: &Known, random: &mut Random) -> Vec<i32> {
    let list: Vec<i32> = base(known, random).into_iter().map(|r| r as i32).collect();
    let counts: Vec<i32> = known.counts.iter().map(|&count| count as i32).collect();
    let mut list = moved(&list, &counts, random_rounds(&known.counts, random));
    if random.one_in(5) {
        let station = random.below(list.len());
        list[station] += *random.pick(&[-2, -1, 1, 1, 2]);
    }
    if random.one_in(20) {
        spoil(&mut list, random);
    }
    list
}

/// The list with so many rounds of firings added, which leave all new delays as they were.
pub fn moved(list: &[i32], counts: &[i32], rounds: i32) -> Vec<i32> {
    list.iter().zip(counts).map(|(r, count)| r + rounds * count).collect()
}

/// Mostly the known retiming, else any small numbers, raised to be legal or not.
fn base(known: &Known, random: &mut Random) -> Vec<i64> {
    match random.below(12) {
        0 => up_to_a_round(&known.counts, random),
        1..=3 => legal::raised(&known.draft.queues, up_to_a_round(&known.counts, random)),
        _ => known.retiming.clone(),
    }
}

/// Each number on or back by at most a round.
fn up_to_a_round(counts: &[usize], random: &mut Random) -> Vec<i64> {
    let number = |&count: &usize| random.below(2 * count + 1) as i64 - count as i64;
    counts.iter().map(number).collect()
}

/// Mostly few, now and then as many as the limits allow or one more.
fn random_rounds(counts: &[usize], random: &mut Random) -> i32 {
    let largest = counts.iter().copied().max().unwrap_or(1);
    let most = LIMIT / largest;
    let rounds = match random.below(12) {
        0 => most + random.below(2),
        1 => most - 1,
        2 | 3 => random.below(most + 1),
        4..=8 => random.below(4),
        _ => 0,
    };
    random.signed(rounds)
}

/// Makes the list longer or shorter, or puts an entry out of range or close to it.
fn spoil(list: &mut Vec<i32>, random: &mut Random) {
    let place = random.below(list.len());
    match random.below(6) {
        0 => list.push(random.below(3) as i32),
        1 => drop(list.remove(place)),
        2 => list[place] = random.next() as i32,
        _ => list[place] = *random.pick(&[-65_536, -65_535, 65_535, 65_536, i32::MIN, i32::MAX]),
    }
}
