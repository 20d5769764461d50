//! Check 8: whether the copies have a loop of delay 0 (Property 4).

use crate::copies::Copies;

#[derive(Clone, Copy, PartialEq)]
enum Visit {
    Never,
    Begun,
    Ended,
}

pub fn stuck(copies: &Copies) -> bool {
    let mut visits = vec![Visit::Never; copies.needed.len()];
    (0..visits.len()).any(|copy| meets_loop(copy, copies, &mut visits))
}

/// Goes depth first; a copy met again before its visit ended is on a loop.
fn meets_loop(copy: usize, copies: &Copies, visits: &mut [Visit]) -> bool {
    if visits[copy] != Visit::Never {
        return visits[copy] == Visit::Begun;
    }
    visits[copy] = Visit::Begun;
    let met = copies.needed[copy].iter().any(|&before| meets_loop(before, copies, visits));
    visits[copy] = Visit::Ended;
    met
}
