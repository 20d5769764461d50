//! The sheets of the bench table; its hand rows use the sample once more.

use crate::draft::Draft;

/// K(d,T) of the table. K(4,3) is the sample.
pub fn k(delay: u16, target: u32) -> Draft {
    Draft::of(target, vec![[1, 3], [2, 2]], vec![[0, 1, 1, 2, 0], [1, 0, 2, 1, delay]])
}

pub fn sample() -> Draft {
    k(4, 3)
}

/// One station of time 7 without a queue.
pub fn alone(target: u32) -> Draft {
    Draft::of(target, vec![[1, 7]], vec![])
}

pub fn all() -> Vec<Draft> {
    let mut rows: Vec<Draft> = [(4, 5), (4, 4), (4, 3), (4, 2), (3, 5), (3, 4), (1, 9)]
        .into_iter()
        .map(|(delay, target)| k(delay, target))
        .collect();
    rows.extend([7, 6].map(alone));
    rows.extend([1, 2].map(|consumed| Draft::of(1, vec![[1, 1]], vec![[0, 0, 1, consumed, 0]])));
    rows.extend([63, 64].map(fan));
    rows
}

/// Station 0 feeding four, the last by this many tokens and the others by 64.
fn fan(last_produced: u16) -> Draft {
    let stations = (1..=5).map(|tag| [tag, 1]).collect();
    let queues = [64, 64, 64, last_produced]
        .iter()
        .enumerate()
        .map(|(i, &produced)| [0, i as u16 + 1, produced, 1, 0])
        .collect();
    Draft::of(2, stations, queues)
}
