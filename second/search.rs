//! Check 9: the search for the plan's retiming, round by round.

use crate::copies;
use crate::finishes;
use crate::ready::Ready;
use crate::retiming;
use crate::sheet::Sheet;
use std::collections::HashSet;

pub struct Found {
    pub retiming: Vec<usize>,
    pub delays: Vec<usize>,
    pub period: u64,
    pub rounds: usize,
}

/// Nothing if no retiming serves. The late copies follow from the new delays alone, so that a
/// search which meets the same delays again never ends. Where delays can grow for ever, as behind a
/// source, it is given up after far more rounds than any search needs that ends.
pub fn search(ready: &Ready) -> Option<Found> {
    let Ready { sheet, counts } = ready;
    let most_rounds = 4 * counts.iter().sum::<usize>() + 16;
    let mut met = HashSet::new();
    let mut retiming = vec![0; counts.len()];
    for rounds in 0..=most_rounds {
        let delays = legal_delays(sheet, &retiming);
        let copies = copies::of(sheet, counts, &delays);
        let finishes = finishes::of(sheet, &copies);
        let period = finishes::period(&finishes);
        if period <= u64::from(sheet.target) {
            return Some(Found { retiming, delays, period, rounds });
        }
        if !met.insert(delays) {
            return None;
        }
        for (station, finish) in copies.stations.iter().zip(finishes) {
            retiming[*station] += usize::from(finish > u64::from(sheet.target));
        }
    }
    None
}

/// The copies that depend without delay on a late copy are late too, so that no queue is asked for
/// more than it holds.
fn legal_delays(sheet: &Sheet, retiming: &[usize]) -> Vec<usize> {
    let retiming: Vec<i64> = retiming.iter().map(|&raised| raised as i64).collect();
    retiming::legal_delays(sheet, &retiming).expect("the search stays legal")
}
