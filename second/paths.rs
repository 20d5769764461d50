//! Sheets for the period: paths without delay of many forms, and tokens that break them.

use crate::draft::Draft;
use crate::shapes::{chain, joined, timed, turned};

pub fn all() -> Vec<Draft> {
    [times(), diamonds(), dense(), long_chains(), partial(), parallel(), far(), heavy()].concat()
}

/// Times of 0 and 65,535 alone, together and along the longest paths.
fn times() -> Vec<Draft> {
    let flat = |n: usize, time| timed(vec![time; n], chain(&vec![(1, 1); n - 1]));
    let mut drafts = Vec::new();
    for time in [0, 1, 65_535] {
        drafts.extend([flat(1, time), flat(2, time), flat(32, time), serial([65_535, 0, time])]);
    }
    let k = |first, second, delay| {
        timed(vec![first, second], vec![[0, 1, 1, 2, 0], [1, 0, 2, 1, delay]])
    };
    for (first, second) in [(0, 0), (0, 65_535), (65_535, 0), (65_535, 65_535), (1, 65_535)] {
        drafts.extend([k(first, second, 2), k(first, second, 3), k(first, second, 4)]);
    }
    drafts
}

/// Counts 1, 15 and 240, with copies that wait for each other.
pub fn serial(times: [u16; 3]) -> Draft {
    let own = |station| [station, station, 64, 64, 64];
    let queues = [chain(&[(15, 1), (16, 1)]), vec![own(0), own(1), own(2)]].concat();
    timed(times.to_vec(), queues)
}

/// Two arms of which either may be the longer, with and without tokens on one of them.
fn diamonds() -> Vec<Draft> {
    let mut drafts = Vec::new();
    for (left, right) in [(5, 9), (9, 5), (7, 7)] {
        for delay in 0..=2 {
            let queues =
                vec![[0, 1, 1, 1, 0], [0, 2, 2, 1, 0], [1, 3, 2, 1, delay], [2, 3, 1, 1, 0]];
            drafts.push(timed(vec![1, left, right, 2], queues.clone()));
            drafts.push(timed(vec![2, right, left, 1], turned(4, &queues)));
        }
    }
    drafts
}

/// Eleven stations with a queue from every one to every later one, a few with a token; then 32
/// stations with 64 queues.
fn dense() -> Vec<Draft> {
    let up: Vec<[u16; 5]> =
        (0..11).flat_map(|i| (i + 1..11).map(move |j| [i, j, 1, 1, (i * j) % 3 / 2])).collect();
    let down = up.iter().map(|q| [q[1], q[0], q[2], q[3], q[4]]).collect();
    let wide = |step: u16| {
        let queue = move |i: u16| [i / 2, (i / 2 + 1 + i % 2 * step).min(31), 2, 2, 0];
        joined(32, (0..62).map(queue).chain([[31, 0, 2, 2, 2], [31, 31, 2, 2, 3]]).collect())
    };
    vec![joined(11, up), joined(11, down), wide(1), wide(7), wide(30)]
}

/// Chains of 32 stations, with a token here and there or one fewer than needed.
fn long_chains() -> Vec<Draft> {
    let plain = chain(&[(3, 3); 31]);
    let mut drafts = vec![joined(32, plain.clone()), joined(32, turned(32, &plain))];
    for (place, delay) in [(0, 3), (15, 2), (15, 3), (15, 4), (30, 3), (30, 4_095)] {
        let mut queues = plain.clone();
        queues[place][4] = delay;
        drafts.push(joined(32, turned(32, &queues)));
        drafts.push(joined(32, queues));
    }
    let swinging = |i| if i % 2 == 0 { (7, 1) } else { (1, 7) };
    let rates: Vec<(u16, u16)> = (0..31).map(swinging).collect();
    for delay in [0, 1, 6, 7] {
        let mut queues = chain(&rates);
        queues.iter_mut().skip(1).step_by(4).for_each(|queue| queue[4] = delay);
        drafts.push(joined(32, queues));
    }
    drafts
}

/// Every delay of one queue to more than a round, where the last token of a firing decides.
fn partial() -> Vec<Draft> {
    let mut drafts = Vec::new();
    for (produced, consumed) in [(2, 3), (3, 2), (4, 6), (1, 5), (5, 1)] {
        for delay in 0..=13 {
            let queues =
                vec![[0, 1, produced, consumed, delay], [0, 0, 1, 1, 1], [1, 2, 1, 1, delay / 6]];
            drafts.push(timed(vec![3, 2, 4], queues));
        }
    }
    drafts
}

/// Queues between the same stations, of which the one with the fewest tokens counts.
fn parallel() -> Vec<Draft> {
    let mut drafts = Vec::new();
    for (first, second) in [(0, 0), (0, 6), (6, 0), (5, 6), (6, 12), (12, 11), (3, 7), (7, 3)] {
        drafts.push(joined(2, vec![[0, 1, 2, 3, first], [0, 1, 4, 6, second]]));
        drafts.push(joined(2, vec![[0, 1, 2, 3, first], [0, 1, 2, 3, second], [1, 0, 3, 2, 6]]));
    }
    drafts
}

/// Delays of several rounds and the largest ones, alone and beside a path without delay.
fn far() -> Vec<Draft> {
    let mut drafts = Vec::new();
    for delay in [6, 7, 11, 12, 18, 600, 4_094, 4_095] {
        drafts.push(joined(2, vec![[0, 1, 2, 3, delay]]));
        drafts.push(joined(3, vec![[0, 1, 2, 3, 0], [1, 2, 1, 1, delay], [2, 0, 3, 2, delay]]));
    }
    for delay in [4_032, 4_095] {
        drafts.push(joined(2, vec![[0, 1, 63, 64, 0], [1, 0, 64, 63, delay]]));
        drafts.push(joined(2, vec![[0, 1, 63, 64, delay], [1, 0, 64, 63, 0]]));
    }
    drafts
}

/// About as many tokens in a round as a sheet can have, with enough in all queues or one short.
pub fn heavy() -> Vec<Draft> {
    let tokens = |delay: u16| {
        let own = (0..62).map(|i| [0, 0, 64, 64, 64 * (1 + i % 4)]);
        let mut queues: Vec<[u16; 5]> = own.chain(chain(&[(1, 62), (3, 4)])).collect();
        queues[61][4] = delay;
        joined(3, queues)
    };
    vec![tokens(63), tokens(64), tokens(4_095)]
}
