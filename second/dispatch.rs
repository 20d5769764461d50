//! Kind 8: hands out the part of the lists that is left to fire.

use crate::fields::Fields;
use crate::printed;

const MOST_ENTRIES: u16 = 1_000;

/// Nothing if the body isn't exactly the number of firings done and the two lists.
pub fn answer(body: &[u8]) -> Option<String> {
    let mut fields = Fields::of(body);
    let done = fields.u64()?;
    let start = fields.list(MOST_ENTRIES, Fields::u16)?;
    let round = fields.list(MOST_ENTRIES, Fields::u16)?;
    fields.at_end().then(|| printed::list("part", part(done, &start, &round)))
}

fn part<'a>(done: u64, start: &'a [u16], round: &'a [u16]) -> &'a [u16] {
    let start_length = start.len() as u64;
    if done < start_length {
        return &start[done as usize..];
    }
    if round.is_empty() {
        return round;
    }
    let place = (done - start_length) % round.len() as u64;
    &round[place as usize..]
}
