//! Sheets whose plan is known.

use crate::bench_rows;
use crate::draft::Draft;
use crate::shapes::{chain, timed};

pub struct Planned {
    pub draft: Draft,
    pub counts: Vec<i32>,
    pub retiming: Vec<i32>,
    pub period: u32,
}

pub fn all() -> Vec<Planned> {
    let mut all = vec![
        planned(bench_rows::sample(), [2, 1], [0, 1], 3),
        planned(bench_rows::k(4, 5), [2, 1], [0, 0], 5),
    ];
    let back = vec![[0, 1, 7, 8, 0], [1, 0, 8, 7, 112]];
    all.push(planned(targeted(1, vec![1, 1], back), [8, 7], [0, 7], 1));
    let own = vec![[0, 1, 4, 1, 0], [1, 1, 1, 1, 2], [1, 0, 1, 4, 7]];
    all.push(planned(targeted(4, vec![2, 2], own), [1, 4], [0, 2], 4));
    let parallel = vec![[0, 1, 2, 3, 5], [0, 1, 4, 6, 11], [1, 0, 3, 2, 12], [1, 0, 6, 4, 24]];
    all.push(planned(targeted(2, vec![1, 2], parallel), [3, 2], [0, 1], 2));
    let ring = vec![[0, 1, 2, 3, 0], [1, 2, 2, 1, 0], [2, 0, 3, 4, 24]];
    all.push(planned(targeted(2, vec![1, 2, 1], ring), [3, 2, 4], [0, 2, 8], 2));
    let ring = [chain(&[(1, 1); 4]), vec![[4, 0, 1, 1, 3]]].concat();
    all.push(planned(targeted(3, vec![1, 2, 1, 3, 1], ring), [1; 5], [0, 1, 1, 2, 3], 3));
    let steps = chain(&[(1, 64), (1, 1), (36, 1)]);
    all.push(planned(targeted(10, vec![10; 4], steps), [64, 1, 1, 36], [0, 1, 2, 108], 10));
    all
}

fn targeted(target: u32, times: Vec<u16>, queues: Vec<[u16; 5]>) -> Draft {
    Draft { target, ..timed(times, queues) }
}

fn planned<const N: usize>(
    draft: Draft,
    counts: [i32; N],
    retiming: [i32; N],
    period: u32,
) -> Planned {
    Planned { draft, counts: counts.to_vec(), retiming: retiming.to_vec(), period }
}
