//! Kind 5: the period that a hand retiming gives, by checks 1 to 8 with 16, and 12 to 14.

use crate::copies;
use crate::fields::Fields;
use crate::finishes;
use crate::ready::{self, Ready};
use crate::refusal::{self, Refusal};
use crate::retiming;

const MOST_ENTRIES: u16 = 1_000;

/// Nothing if the body doesn't begin with a whole list within its limit.
pub fn answer(body: &[u8]) -> Option<String> {
    let mut fields = Fields::of(body);
    let list = fields.list(MOST_ENTRIES, Fields::i32)?;
    let period = period(&list, fields.rest());
    Some(refusal::told(period.map(|period| format!("hand period {period}\n"))))
}

fn period(list: &[i32], bytes: &[u8]) -> Result<u64, Refusal> {
    let Ready { sheet, counts } = ready::read(bytes)?;
    if list.len() != sheet.stations.len() || !list.iter().all(|&r| retiming::within_limits(r)) {
        return Err(Refusal::Hand);
    }
    let list: Vec<i64> = list.iter().map(|&r| i64::from(r)).collect();
    let delays = retiming::legal_delays(&sheet, &list).map_err(Refusal::Negative)?;
    let finishes = finishes::of(&sheet, &copies::of(&sheet, &counts, &delays));
    let period = finishes::period(&finishes);
    if period > u64::from(sheet.target) {
        return Err(Refusal::Slow);
    }
    Ok(period)
}
