//! Kind 7: where one token comes from, by checks 1 to 8 with 16, and 15.

use crate::fields::Fields;
use crate::ready;
use crate::refusal::{self, Refusal};
use crate::sheet::Queue;

const MOST_FIRINGS: u32 = 1_000_000;

/// The token that a firing of the sink takes, both counted from 1.
struct Taken {
    queue: usize,
    firing: u32,
    token: u16,
}

enum Origin {
    Initial { place: u64 },
    Made { firing: u64, place: u64 },
}

/// Nothing if the body doesn't begin with a queue, a firing and a token.
pub fn answer(body: &[u8]) -> Option<String> {
    let mut fields = Fields::of(body);
    let queue = usize::from(fields.u16()?);
    let taken = Taken { queue, firing: fields.u32()?, token: fields.u16()? };
    Some(refusal::told(checked(&taken, fields.rest()).map(|origin| line(&origin))))
}

fn line(origin: &Origin) -> String {
    match origin {
        Origin::Initial { place } => format!("origin initial place {place}\n"),
        Origin::Made { firing, place } => format!("origin made firing {firing} place {place}\n"),
    }
}

fn checked(taken: &Taken, bytes: &[u8]) -> Result<Origin, Refusal> {
    let sheet = ready::read(bytes)?.sheet;
    let queue = sheet.queues.get(taken.queue).ok_or(Refusal::Token)?;
    if !(1..=MOST_FIRINGS).contains(&taken.firing) || !(1..=queue.consumed).contains(&taken.token) {
        return Err(Refusal::Token);
    }
    let place =
        u64::from(taken.firing - 1) * u64::from(queue.consumed) + u64::from(taken.token) - 1;
    Ok(origin(queue, place))
}

fn origin(queue: &Queue, place: u64) -> Origin {
    if place < u64::from(queue.delay) {
        return Origin::Initial { place };
    }
    let firing = maker(queue, place);
    Origin::Made { firing, place: place - first_place(queue, firing) + 1 }
}

/// The firing of the source that fills a place: the last one that begins at or before it. It is
/// found by halving, from the order of the places alone.
fn maker(queue: &Queue, place: u64) -> u64 {
    let (mut at_or_before, mut behind) = (1, place + 2);
    while behind - at_or_before > 1 {
        let middle = (at_or_before + behind) / 2;
        if first_place(queue, middle) <= place {
            at_or_before = middle;
        } else {
            behind = middle;
        }
    }
    at_or_before
}

/// Where a firing of the source puts its token 1.
fn first_place(queue: &Queue, firing: u64) -> u64 {
    u64::from(queue.delay) + (firing - 1) * u64::from(queue.produced)
}
