//! Random sheets with many loops and perhaps immense counts: each station has a height, and its
//! count is a fraction to the power of that, times what makes all of them whole. In most of them a
//! rate is then changed.

use crate::draft::{Draft, CONSUMED, PRODUCED};
use crate::edges;
use crate::random::Random;
use crate::shapes::joined;

const LARGEST_RATE: u16 = 64;
const LARGEST_DELAY: u16 = 4_095;
const MOST_QUEUES: usize = 64;
const FRACTIONS: [(u16, u16); 6] = [(2, 1), (3, 2), (8, 7), (61, 59), (64, 63), (64, 1)];

pub fn random(random: &mut Random) -> Draft {
    let n = if random.one_in(3) { 2 + random.below(31) } else { 2 + random.below(7) };
    let tree = random_tree(n, random);
    let heights = random_heights(&tree, random);
    let fraction = *random.pick(&FRACTIONS);
    let more = (0..5 * n).map(|_| (random.below(n), random.below(n))).collect();
    let most = n - 1 + random.below(MOST_QUEUES + 2 - n);
    let mut queues: Vec<[u16; 5]> = [tree, more]
        .concat()
        .into_iter()
        .filter_map(|(source, sink)| queue(source, sink, &heights, fraction, random))
        .take(most)
        .collect();
    if !random.one_in(3) {
        change_rates(&mut queues, random);
    }
    joined(n, random.shuffled(queues))
}

/// Each station but one with another that comes before it in a random order.
fn random_tree(n: usize, random: &mut Random) -> Vec<(usize, usize)> {
    let order = random.shuffled((0..n).collect::<Vec<usize>>());
    let furthest = *random.pick(&[1, 2, n]);
    let before = |place: usize| place - 1 - random.below(furthest.min(place));
    let places: Vec<usize> = (1..n).map(before).collect();
    order[1..].iter().zip(places).map(|(&station, place)| (station, order[place])).collect()
}

/// Heights that differ by at most 1 along the tree. They rise more than they fall.
fn random_heights(tree: &[(usize, usize)], random: &mut Random) -> Vec<i32> {
    let mut heights = vec![0; tree.len() + 1];
    for &(station, other) in tree {
        heights[station] = heights[other] + random.pick(&[-1, 0, 1, 1, 1]);
    }
    heights
}

/// A queue in either direction that balances these heights, if its rates can be small enough.
fn queue(
    one: usize,
    other: usize,
    heights: &[i32],
    fraction: (u16, u16),
    random: &mut Random,
) -> Option<[u16; 5]> {
    let (source, sink) = if random.one_in(2) { (one, other) } else { (other, one) };
    let rise = heights[sink] - heights[source];
    let (up, down) = if rise < 0 { (fraction.1, fraction.0) } else { fraction };
    let produced = up.checked_pow(rise.unsigned_abs())?;
    let consumed = down.checked_pow(rise.unsigned_abs())?;
    if produced.max(consumed) > LARGEST_RATE {
        return None;
    }
    let times = 1 + random.below(usize::from(LARGEST_RATE / produced.max(consumed))) as u16;
    let delay = if source < sink { 0 } else { LARGEST_DELAY };
    Some([source as u16, sink as u16, times * produced, times * consumed, delay])
}

/// Changes mostly one rate, mostly by one.
fn change_rates(queues: &mut [[u16; 5]], random: &mut Random) {
    for _ in 0..*random.pick(&[1, 1, 1, 2, 3]) {
        let queue = &mut queues[random.below(queues.len())];
        let rate = &mut queue[*random.pick(&[PRODUCED, CONSUMED])];
        let any = 1 + random.below(usize::from(LARGEST_RATE)) as u16;
        *rate = if random.one_in(3) { any } else { edges::beside(*rate) };
    }
}
