//! Sheets for check 6: those that are apart, and those that are joined in ways easily missed.

use crate::draft::Draft;
use crate::shapes::{chain, joined, turned};

const ONE: (u16, u16) = (1, 1);

pub fn all() -> Vec<Draft> {
    [without_queues(), alone(), two_islands(), directions(), orders()].concat()
}

/// No queue, or queues from stations to themselves only.
fn without_queues() -> Vec<Draft> {
    let own = |i: u16| [i % 32, i % 32, 1, 1, 1];
    vec![
        joined(1, vec![]),
        joined(2, vec![]),
        joined(32, vec![]),
        joined(1, vec![own(0)]),
        joined(2, vec![own(0)]),
        joined(2, vec![own(0), own(1)]),
        joined(2, vec![own(0), own(1), [0, 1, 1, 1, 0]]),
        joined(32, (0..64).map(own).collect()),
    ]
}

/// One station of five alone, then with a self-queue, then joined; and one beside 64 other queues.
fn alone() -> Vec<Draft> {
    let mut drafts = Vec::new();
    for lone in 0..5 {
        let others: Vec<u16> = (0..5).filter(|&station| station != lone).collect();
        let mut queues: Vec<[u16; 5]> =
            others.windows(2).map(|pair| [pair[0], pair[1], 1, 1, 0]).collect();
        drafts.push(joined(5, queues.clone()));
        queues.push([lone, lone, 1, 1, 1]);
        drafts.push(joined(5, queues.clone()));
        queues.push([(lone + 1) % 5, lone, 1, 1, 1]);
        drafts.push(joined(5, queues));
    }
    let parallel: Vec<[u16; 5]> = (0..64).map(|delay| [0, 1, 1, 1, delay]).collect();
    drafts.push(joined(2, parallel.clone()));
    drafts.push(joined(3, parallel));
    drafts
}

/// Two islands in several places, each with the queue that joins them added last.
fn two_islands() -> Vec<Draft> {
    let apart: [(usize, Vec<[u16; 2]>, [u16; 2]); 6] = [
        (4, vec![[0, 1], [2, 3]], [3, 1]),
        (4, vec![[0, 2], [1, 3]], [2, 1]),
        (4, vec![[3, 0], [1, 2]], [0, 2]),
        (6, vec![[0, 1], [1, 0], [2, 3], [3, 2], [4, 5], [0, 2]], [5, 3]),
        (32, (0..31).filter(|&i| i != 15).map(|i| [i, i + 1]).collect(), [31, 0]),
        (32, (0..30).map(|i| [i, i + 2]).collect(), [0, 31]),
    ];
    let mut drafts = Vec::new();
    for (n, ends, joining) in apart {
        let queue = |ends: [u16; 2]| [ends[0], ends[1], 2, 2, 2];
        let mut queues: Vec<[u16; 5]> = ends.into_iter().map(queue).collect();
        drafts.push(joined(n, queues.clone()));
        queues.push(queue(joining));
        drafts.push(joined(n, queues));
    }
    drafts
}

/// Joined only if directions are ignored.
fn directions() -> Vec<Draft> {
    let into = |i| [i, 31, 1, 1, 0];
    let out_of = |i| [31, i, 1, 1, 0];
    let either = |i: u16| if i % 2 == 0 { [i, i + 1, 1, 1, 0] } else { [i + 1, i, 1, 1, 0] };
    vec![
        joined(2, vec![[1, 0, 1, 1, 0]]),
        joined(3, vec![[0, 1, 1, 1, 0], [2, 1, 1, 1, 0]]),
        joined(3, vec![[1, 0, 1, 1, 0], [1, 2, 1, 1, 0]]),
        joined(32, (0..31).map(into).collect()),
        joined(32, (0..31).map(out_of).collect()),
        joined(32, (0..31).map(either).collect()),
    ]
}

/// Long chains whose numbers and queues come in an order that one pass doesn't follow.
fn orders() -> Vec<Draft> {
    let forth = chain(&[ONE; 31]);
    let back = turned(32, &forth);
    let from_end = |queues: &[[u16; 5]]| queues.iter().rev().copied().collect::<Vec<[u16; 5]>>();
    let mixed = |i: u16| if i % 2 == 0 { i / 2 } else { 31 - i / 2 };
    let zigzag: Vec<[u16; 5]> = (0..31).map(|i| [mixed(i), mixed(i + 1), 1, 1, 0]).collect();
    let all = [from_end(&forth), back.clone(), from_end(&back), zigzag.clone(), from_end(&zigzag)];
    all.into_iter().map(|queues| joined(32, queues)).collect()
}
