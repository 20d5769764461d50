//! Sheets asked for every target of a range, in which lie the least period that can be reached and
//! the one below it.

use crate::bench_rows;
use crate::draft::{Draft, DELAY};
use crate::shapes::{chain, joined, star, timed, turned};
use std::ops::RangeInclusive;

pub fn all() -> Vec<Draft> {
    let groups = [
        every_target(0..=6, samples()),
        every_target(2..=8, rings()),
        every_target(2..=8, rated_rings()),
        every_target(1..=3, pairs()),
        every_target(2..=8, own()),
        every_target(1..=6, parallel()),
        every_target(2..=9, one_way()),
        every_target(0..=3, plain_times()),
        every_target(1..=3, full()),
        every_target(6..=8, far()),
        large_times(),
    ];
    groups.concat()
}

fn every_target(targets: RangeInclusive<u32>, drafts: Vec<Draft>) -> Vec<Draft> {
    let asked = |draft: Draft| targets.clone().map(move |target| Draft { target, ..draft.clone() });
    drafts.into_iter().flat_map(asked).collect()
}

fn samples() -> Vec<Draft> {
    (2..=9).map(|delay| bench_rows::k(delay, 0)).collect()
}

/// All tokens of a ring on its first or its last queue, from which the search has to move them on.
fn rings() -> Vec<Draft> {
    let mut drafts = Vec::new();
    for times in [&[1, 2][..], &[1, 2, 1, 3, 1]] {
        let last = times.len() - 1;
        let ring = [chain(&vec![(1, 1); last]), vec![[last as u16, 0, 1, 1, 0]]].concat();
        for tokens in 1..=last as u16 + 2 {
            for place in [0, last] {
                let mut queues = ring.clone();
                queues[place][DELAY] = tokens;
                drafts.push(timed(times.to_vec(), queues));
            }
        }
    }
    drafts
}

/// Rings of three stations with different counts.
fn rated_rings() -> Vec<Draft> {
    let mut drafts = Vec::new();
    for delay in [8, 9, 12, 13, 24] {
        let queues = vec![[0, 1, 2, 3, 0], [1, 2, 2, 1, 0], [2, 0, 3, 4, delay]];
        drafts.push(timed(vec![1, 2, 1], queues.clone()));
        drafts.push(timed(vec![2, 1, 1], turned(3, &queues)));
    }
    drafts
}

/// A queue there and one back, with tokens for less than two rounds or just two, on one of them
/// or shared.
fn pairs() -> Vec<Draft> {
    let mut drafts = Vec::new();
    for (produced, consumed) in [(2, 3), (3, 5), (6, 4), (7, 8)] {
        let round = produced * consumed;
        for tokens in [round + round / 2, 2 * round - 1, 2 * round] {
            for there in [0, tokens / 3, tokens] {
                let first = [0, 1, produced, consumed, there];
                let second = [1, 0, consumed, produced, tokens - there];
                drafts.push(timed(vec![1, 1], vec![first, second]));
            }
        }
    }
    drafts
}

/// A station of count 4 whose copies wait for each other, alone, before, behind and on a loop.
fn own() -> Vec<Draft> {
    let mut drafts = Vec::new();
    for delay in [1, 2, 4] {
        let own = [1, 1, 1, 1, delay];
        drafts.push(timed(vec![2, 1], vec![[0, 1, 4, 1, 0], own]));
        drafts.push(timed(vec![2, 1], vec![[1, 0, 1, 4, 0], own]));
        drafts.push(timed(vec![2, 2], vec![[0, 1, 4, 1, 0], own, [1, 0, 1, 4, 7]]));
        drafts.push(timed(vec![3, 1], vec![[0, 1, 4, 1, 1], own, own, [0, 0, 3, 3, 3]]));
    }
    drafts
}

/// Queues between the same stations, which have to be served together.
fn parallel() -> Vec<Draft> {
    let mut drafts = Vec::new();
    for (first, second, back) in [(0, 3, 12), (6, 0, 6), (5, 11, 12), (1, 1, 18), (7, 2, 9)] {
        let queues =
            vec![[0, 1, 2, 3, first], [0, 1, 4, 6, second], [1, 0, 3, 2, back], [1, 0, 6, 4, 24]];
        drafts.push(timed(vec![1, 2], queues));
    }
    drafts
}

/// Loops that are fed by a source, feed a sink or feed each other. What can't be retimed in one of
/// them lets the queues around it grow or run dry.
fn one_way() -> Vec<Draft> {
    let mut drafts = Vec::new();
    for tokens in [1, 2, 3, 4] {
        let one = [[1, 2, 1, 1, 0], [2, 1, 1, 1, tokens]];
        let other = [[3, 4, 2, 1, 0], [4, 3, 1, 2, 2 + tokens]];
        let source = [0, 1, 3, 1, 0];
        let sink = [2, 5, 1, 3, 1];
        let between = [2, 3, 2, 2, 0];
        drafts.push(timed(vec![1, 2, 2], [&[source][..], &one].concat()));
        drafts.push(timed(vec![3, 2, 2], turned(3, &[&[source][..], &one].concat())));
        drafts.push(timed(
            vec![1, 2, 3, 1, 2, 1],
            [&[source][..], &one, &[between], &other, &[sink]].concat(),
        ));
        drafts.push(timed(
            vec![1, 2, 1, 1, 2, 1],
            [&other[..], &one, &[[4, 1, 1, 2, 5], [5, 3, 2, 2, 0], [5, 0, 1, 1, 0]]].concat(),
        ));
    }
    drafts
}

/// Times that are all 0 or all alike, and stations without time between those with.
fn plain_times() -> Vec<Draft> {
    let mut drafts = Vec::new();
    for times in [[0, 0, 0], [1, 1, 1], [0, 1, 0], [1, 0, 1], [2, 0, 0]] {
        for tokens in [2, 4, 6] {
            let ring = vec![[0, 1, 1, 1, 0], [1, 2, 1, 2, 0], [2, 0, 2, 1, tokens]];
            drafts.push(timed(times.to_vec(), ring));
        }
        drafts.push(timed(times.to_vec(), chain(&[(2, 1), (1, 1)])));
    }
    drafts
}

/// Loops of 255 to 257 copies.
fn full() -> Vec<Draft> {
    let mut drafts = Vec::new();
    for last in 62..=64 {
        let rates = [(64, 1), (64, 1), (64, 1), (last, 1)];
        for tokens in [1, 2] {
            let mut draft = star(&rates);
            let back = |i: usize| [i as u16 + 1, 0, 1, rates[i].0, tokens * rates[i].0];
            draft.queues.extend((0..4).map(back));
            drafts.push(timed(vec![1; 5], draft.queues));
        }
    }
    drafts
}

/// Retimings of up to 31 rounds of 64 firings, and new delays beyond 16 bits.
fn far() -> Vec<Draft> {
    let mut rates = vec![(1, 1); 31];
    (rates[0], rates[30]) = ((1, 64), (64, 1));
    let mut queues = chain(&rates);
    queues.extend([[0, 31, 64, 64, 4_095], [0, 31, 1, 1, 0], [1, 30, 64, 64, 4_095]]);
    let steps = |rates: &[(u16, u16)]| timed(vec![7; rates.len() + 1], chain(rates));
    let swinging = |i| if i % 2 == 0 { (14, 1) } else { (1, 14) };
    vec![
        timed(vec![7; 32], queues.clone()),
        timed(vec![7; 32], turned(32, &queues)),
        steps(&(0..31).map(swinging).collect::<Vec<(u16, u16)>>()),
        steps(&[vec![(1, 1); 29], vec![(15, 1), (14, 1)]].concat()),
    ]
}

/// The largest times and targets.
fn large_times() -> Vec<Draft> {
    let mut drafts = Vec::new();
    for tokens in [1, 2, 3] {
        let ring = vec![[0, 1, 1, 1, 0], [1, 2, 1, 1, 0], [2, 0, 1, 1, tokens]];
        for target in [0, 65_534, 65_535, 131_069, 131_070, 196_604, 196_605, 1 << 31, u32::MAX] {
            drafts.push(Draft { target, ..timed(vec![65_535; 3], ring.clone()) });
        }
    }
    for target in [0, u32::MAX] {
        drafts.push(Draft { target, ..joined(1, vec![]) });
        drafts.push(Draft { target, ..joined(2, vec![[0, 1, 2, 3, 1], [1, 0, 3, 2, 5]]) });
    }
    drafts
}
