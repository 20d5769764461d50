//! New delays (Definition 10) of a draft's queues, and lists that leave none of them negative.

use crate::draft::{CONSUMED, DELAY, PRODUCED, SINK, SOURCE};

pub fn new_delay(queue: &[u16; 5], list: &[i64]) -> i64 {
    let r = |end: usize| list[usize::from(queue[end])];
    i64::from(queue[DELAY]) + i64::from(queue[CONSUMED]) * r(SINK)
        - i64::from(queue[PRODUCED]) * r(SOURCE)
}

/// Raises the list as little as possible until it is legal. That ends if the queues are balanced:
/// one number of rounds for all stations is legal, and enough of them are above the list.
pub fn raised(queues: &[[u16; 5]], mut list: Vec<i64>) -> Vec<i64> {
    while let Some(queue) = queues.iter().find(|queue| new_delay(queue, &list) < 0) {
        let (missing, consumed) = (-new_delay(queue, &list), i64::from(queue[CONSUMED]));
        list[usize::from(queue[SINK])] += (missing + consumed - 1) / consumed;
    }
    list
}
