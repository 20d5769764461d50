//! The copies of the stations and their dependences of delay 0 (Definition 3), written out firing
//! by firing.

use crate::sheet::{Queue, Sheet};

/// Copies are numbered from 0, station by station.
pub struct Copies {
    /// The station of each copy.
    pub stations: Vec<usize>,
    /// For each copy, the copies that it needs with delay 0, each of them once.
    pub needed: Vec<Vec<usize>>,
}

/// The copies of a sheet whose queues have these delays in place of its own.
pub fn of(sheet: &Sheet, counts: &[usize], delays: &[usize]) -> Copies {
    let stations: Vec<usize> =
        counts.iter().enumerate().flat_map(|(station, &count)| vec![station; count]).collect();
    let total = stations.len();
    let mut seen = vec![false; total * total];
    let mut needed = vec![Vec::new(); total];
    for (queue, &delay) in sheet.queues.iter().zip(delays) {
        let first_maker: usize = counts[..usize::from(queue.source)].iter().sum();
        let first_taker: usize = counts[..usize::from(queue.sink)].iter().sum();
        for (made_by, taken_by) in pairs_in_one_round(queue, delay, counts) {
            let (maker, taker) = (first_maker + made_by - 1, first_taker + taken_by - 1);
            if !seen[maker * total + taker] {
                seen[maker * total + taker] = true;
                needed[taker].push(maker);
            }
        }
    }
    Copies { stations, needed }
}

/// Each firing of the source in round 0, with each firing of the sink in round 0 that takes a token
/// of it. Every other round has the same.
fn pairs_in_one_round(queue: &Queue, delay: usize, counts: &[usize]) -> Vec<(usize, usize)> {
    let produced = usize::from(queue.produced);
    let sink_count = counts[usize::from(queue.sink)];
    let mut pairs = Vec::new();
    for firing in 1..=counts[usize::from(queue.source)] {
        let first_place = delay + (firing - 1) * produced;
        let last_place = first_place + produced - 1;
        for taken_by in taker(queue, first_place)..=taker(queue, last_place).min(sink_count) {
            pairs.push((firing, taken_by));
        }
    }
    pairs
}

/// The firing of the sink that takes from a place.
fn taker(queue: &Queue, place: usize) -> usize {
    place / usize::from(queue.consumed) + 1
}
