//! Retimings (Definition 10).

use crate::sheet::{Queue, Sheet};

/// The limits of a number that is given by hand.
pub fn within_limits(r: i32) -> bool {
    (-65_535..=65_535).contains(&r)
}

/// The new delay of each queue, or the lowest queue whose new delay is negative.
pub fn legal_delays(sheet: &Sheet, retiming: &[i64]) -> Result<Vec<usize>, usize> {
    let new_delay = |queue: &Queue| {
        i64::from(queue.delay) + i64::from(queue.consumed) * retiming[usize::from(queue.sink)]
            - i64::from(queue.produced) * retiming[usize::from(queue.source)]
    };
    let delays = sheet.queues.iter().map(new_delay).enumerate();
    delays.map(|(queue, delay)| usize::try_from(delay).map_err(|_| queue)).collect()
}
