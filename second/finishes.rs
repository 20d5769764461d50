//! When the copies of one round finish if each begins as soon as the copies that it needs with
//! delay 0 have finished.

use crate::copies::Copies;
use crate::sheet::Sheet;

/// For each copy the largest sum of station times on a path without delay that ends in it. The
/// copies must have no loop of delay 0.
pub fn of(sheet: &Sheet, copies: &Copies) -> Vec<u64> {
    let mut known = vec![None; copies.stations.len()];
    (0..known.len()).map(|copy| finish(copy, sheet, copies, &mut known)).collect()
}

/// The largest finish, because a path that sums to the most ends somewhere.
pub fn period(finishes: &[u64]) -> u64 {
    finishes.iter().copied().max().unwrap_or(0)
}

fn finish(copy: usize, sheet: &Sheet, copies: &Copies, known: &mut [Option<u64>]) -> u64 {
    if let Some(finish) = known[copy] {
        return finish;
    }
    let needed = copies.needed[copy].iter();
    let start = needed.map(|&before| finish(before, sheet, copies, known)).max().unwrap_or(0);
    let finish = start + u64::from(sheet.stations[copies.stations[copy]].time);
    known[copy] = Some(finish);
    finish
}
