//! Checks 16 and 7: the balance equations (Property 2), solved in whole numbers of any size.

use crate::big::{self, Big};
use crate::sheet::{Queue, Sheet};

const LARGEST_SUM: u16 = 256;

/// The lowest queue that can't be balanced together with all queues before it. Only where all queues
/// together can't be is each beginning of their list tried.
pub fn spoiling_queue(sheet: &Sheet) -> Option<usize> {
    let n = sheet.stations.len();
    if can_be_balanced(n, &sheet.queues) {
        return None;
    }
    (0..sheet.queues.len()).find(|&queue| !can_be_balanced(n, &sheet.queues[..=queue]))
}

/// The smallest positive numbers that balance every queue of a sheet that isn't apart and can be
/// balanced; nothing if their sum is too large.
pub fn counts(sheet: &Sheet) -> Option<Vec<usize>> {
    let numbers = along_trees(sheet.stations.len(), &sheet.queues);
    let divisor = numbers
        .iter()
        .fold(numbers[0].clone(), |divisor, number| big::common_divisor(&divisor, number));
    let counts = numbers
        .iter()
        .map(|number| number.divided(&divisor, LARGEST_SUM).map(usize::from))
        .collect::<Option<Vec<usize>>>()?;
    (counts.iter().sum::<usize>() <= usize::from(LARGEST_SUM)).then_some(counts)
}

/// The ends of a queue stand in one tree. Every solution for that tree is its numbers times one
/// fraction, so that a queue which these don't balance is balanced by none.
fn can_be_balanced(n: usize, queues: &[Queue]) -> bool {
    let numbers = along_trees(n, queues);
    queues.iter().all(|queue| balances(&numbers, queue))
}

fn balances(numbers: &[Big], queue: &Queue) -> bool {
    let (source, sink) = (usize::from(queue.source), usize::from(queue.sink));
    numbers[source].times(queue.produced) == numbers[sink].times(queue.consumed)
}

/// A positive whole number for each of n stations. They balance the queues of some trees, one over
/// each part of the stations that these queues join.
fn along_trees(n: usize, queues: &[Queue]) -> Vec<Big> {
    let mut numbers = vec![None; n];
    while let Some(station) = numbers.iter().position(Option::is_none) {
        numbers[station] = Some(Big::one());
        grow_tree(&mut numbers, queues);
    }
    numbers.into_iter().flatten().collect()
}

/// Gives a number to every station that is joined to one with a number. What is known is multiplied
/// instead of dividing; that changes no ratio in the trees that are complete.
fn grow_tree(numbers: &mut [Option<Big>], queues: &[Queue]) {
    while let Some((station, number, divisor)) =
        queues.iter().find_map(|queue| next_number(numbers, queue))
    {
        for known in numbers.iter_mut().flatten() {
            *known = known.times(divisor);
        }
        numbers[station] = Some(number);
    }
}

/// If only one end of the queue has its number: the other station, and its number as a dividend and
/// a divisor.
fn next_number(numbers: &[Option<Big>], queue: &Queue) -> Option<(usize, Big, u16)> {
    let (source, sink) = (usize::from(queue.source), usize::from(queue.sink));
    match (&numbers[source], &numbers[sink]) {
        (Some(number), None) => Some((sink, number.times(queue.produced), queue.consumed)),
        (None, Some(number)) => Some((source, number.times(queue.consumed), queue.produced)),
        _ => None,
    }
}
