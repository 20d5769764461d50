//! Kind 6: where a retiming moves one copy, by checks 1 to 8 with 16, and 12.

use crate::fields::Fields;
use crate::ready;
use crate::refusal::{self, Refusal};
use crate::retiming;

/// Nothing if the body doesn't begin with a station, a copy and a number.
pub fn answer(body: &[u8]) -> Option<String> {
    let mut fields = Fields::of(body);
    let station = usize::from(fields.u16()?);
    let copy = usize::from(fields.u16()?);
    let r = fields.i32()?;
    let moved = checked(station, copy, r, fields.rest());
    Some(refusal::told(moved.map(|(copy, shift)| format!("move copy {copy} shift {shift}\n"))))
}

fn checked(station: usize, copy: usize, r: i32, bytes: &[u8]) -> Result<(usize, i64), Refusal> {
    let counts = ready::read(bytes)?.counts;
    let count = *counts.get(station).ok_or(Refusal::Hand)?;
    if !(1..=count).contains(&copy) || !retiming::within_limits(r) {
        return Err(Refusal::Hand);
    }
    Ok(moved(copy, count, r))
}

/// Goes on or back by one firing for each unit of r. Behind the last copy of a round comes the
/// first of the next, so that nothing has to be divided.
fn moved(copy: usize, count: usize, r: i32) -> (usize, i64) {
    let (mut copy, mut shift) = (copy, 0);
    for _ in 0..r {
        (copy, shift) = if copy == count { (1, shift + 1) } else { (copy + 1, shift) };
    }
    for _ in r..0 {
        (copy, shift) = if copy == 1 { (count, shift - 1) } else { (copy - 1, shift) };
    }
    (copy, shift)
}
