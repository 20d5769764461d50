//! Drafts put together from queues alone, with times and a target of their own.

use crate::draft::Draft;

const TARGET: u32 = 10;

/// A draft of n stations with small times, neighbours' times being different.
pub fn joined(n: usize, queues: Vec<[u16; 5]>) -> Draft {
    timed((0..n).map(|i| 1 + (3 * i % 7) as u16).collect(), queues)
}

pub fn timed(times: Vec<u16>, queues: Vec<[u16; 5]>) -> Draft {
    let stations = times.into_iter().zip(20..).map(|(time, tag)| [tag, time]).collect();
    Draft::of(TARGET, stations, queues)
}

/// Queues from each station to the next, one for each pair of rates, without delay.
pub fn chain(rates: &[(u16, u16)]) -> Vec<[u16; 5]> {
    rates
        .iter()
        .zip(0..)
        .map(|(&(produced, consumed), i)| [i, i + 1, produced, consumed, 0])
        .collect()
}

/// 32 stations in a row without delay, each of which takes as long as the target.
pub fn longest_row() -> Draft {
    timed(vec![TARGET as u16; 32], chain(&[(1, 1); 31]))
}

/// The same queues with the numbers of the n stations turned round.
pub fn turned(n: usize, queues: &[[u16; 5]]) -> Vec<[u16; 5]> {
    let last = n as u16 - 1;
    queues.iter().map(|q| [last - q[0], last - q[1], q[2], q[3], q[4]]).collect()
}

pub fn chained(rates: &[(u16, u16)]) -> Draft {
    joined(rates.len() + 1, chain(rates))
}

/// Station 0 feeding all others, each by its own rates, without delay.
pub fn star(rates: &[(u16, u16)]) -> Draft {
    let queue = |(&(produced, consumed), i)| [0, i, produced, consumed, 0];
    joined(rates.len() + 1, rates.iter().zip(1..).map(queue).collect())
}

pub fn common_divisor(a: usize, b: usize) -> usize {
    if b == 0 {
        a
    } else {
        common_divisor(b, a % b)
    }
}
