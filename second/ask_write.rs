//! Questions of kind 4: fields to write as a sheet into a lent buffer.

use crate::draft::Draft;
use crate::random::Random;
use crate::{bench_rows, damage, edges, Stream};

/// The body of a question: a draft's fields, the lent bytes, and how many records are told of,
/// which may not be how many there are.
#[derive(Clone)]
struct Request {
    draft: Draft,
    lent: u32,
    a: u16,
    b: u16,
}

impl Request {
    fn of(draft: Draft, lent: u32) -> Request {
        let a = draft.stations.len() as u16;
        let b = draft.queues.len() as u16;
        Request { draft, lent, a, b }
    }

    /// Lends a little more than the sheet takes, so that what is left over can be seen.
    fn roomy(draft: Draft) -> Request {
        let lent = draft.sheet().len() as u32 + 3;
        Request::of(draft, lent)
    }

    fn body(&self) -> Vec<u8> {
        let mut bytes = Vec::new();
        for field in [self.draft.version, self.draft.n, self.draft.m] {
            bytes.extend_from_slice(&field.to_le_bytes());
        }
        bytes.extend_from_slice(&self.draft.target.to_le_bytes());
        bytes.extend_from_slice(&self.lent.to_le_bytes());
        bytes.extend_from_slice(&self.a.to_le_bytes());
        for field in self.draft.stations.iter().flatten() {
            bytes.extend_from_slice(&field.to_le_bytes());
        }
        bytes.extend_from_slice(&self.b.to_le_bytes());
        for field in self.draft.queues.iter().flatten() {
            bytes.extend_from_slice(&field.to_le_bytes());
        }
        bytes
    }
}

pub fn systematic(stream: &mut Stream) {
    for row in bench_rows::all() {
        stream.ask(4, &Request::roomy(row).body());
    }
    stream.ask_lengths(4, &Request::roomy(bench_rows::sample()).body(), 12);
    let groups =
        [edges::header_edits(), edges::sized_edits(), edges::target_edits(), record_edits()];
    for draft in groups.into_iter().flatten() {
        stream.ask(4, &Request::roomy(draft).body());
    }
    for draft in edges::queue_edits().into_iter().chain(edges::two_bad_queues()) {
        stream.ask(4, &Request::roomy(draft).body());
    }
    for draft in [edges::longest_bad(0), edges::longest_bad(63)] {
        stream.ask(4, &Request::roomy(draft).body());
    }
    lent(stream);
    several_refusals(stream);
    told_counts(stream);
}

/// One record too few or too many for the header's n and m, and one of each exchanged.
fn record_edits() -> Vec<Draft> {
    let (few, many) = (Draft::sized(2, 4), Draft::sized(4, 6));
    let base = edges::base();
    vec![
        Draft { stations: few.stations.clone(), ..base.clone() },
        Draft { stations: many.stations.clone(), ..base.clone() },
        Draft { queues: few.queues.clone(), ..base.clone() },
        Draft { queues: many.queues.clone(), ..base.clone() },
        Draft { stations: few.stations, queues: many.queues, ..base.clone() },
        Draft { stations: Vec::new(), ..base.clone() },
        Draft { queues: Vec::new(), ..base.clone() },
        Draft { stations: Vec::new(), queues: Vec::new(), ..base },
    ]
}

fn lent(stream: &mut Stream) {
    for draft in [edges::base(), Draft::sized(1, 0), Draft::sized(32, 64)] {
        let length = draft.sheet().len() as u32;
        for lent in [0, 1, 19, 20, length - 1, length, length + 1] {
            stream.ask(4, &Request::of(draft.clone(), lent).body());
        }
    }
    for lent in [2_000, 2_001, 65_536, 1 << 31, u32::MAX] {
        stream.ask(4, &Request::of(edges::base(), lent).body());
    }
}

/// Every two of refusals 2, 3, 5 and 11 at once, of which the first is given.
fn several_refusals(stream: &mut Stream) {
    let base = edges::base();
    let bad_field = edges::edited(base.clone(), 1, 2, 0);
    let no_stations = Draft { stations: Vec::new(), ..base.clone() };
    let counts_and_field = Draft { m: 4, ..bad_field.clone() };
    let requests = [
        Request::roomy(Draft { version: 2, n: 33, ..base.clone() }),
        Request::roomy(Draft { version: 2, ..no_stations.clone() }),
        Request::roomy(Draft { version: 2, ..bad_field.clone() }),
        Request::of(Draft { version: 2, ..base.clone() }, 0),
        Request::roomy(counts_and_field),
        Request::of(no_stations, 5),
        Request::of(Draft { m: 65, ..base }, 5),
        Request::of(bad_field.clone(), 5),
        Request::of(Draft { version: 0, n: 0, ..bad_field }, 0),
    ];
    for request in requests {
        stream.ask(4, &request.body());
    }
}

/// The most records a body may tell of and one more; then counts that don't fit the records.
fn told_counts(stream: &mut Stream) {
    for (a, b) in [(100, 0), (101, 0), (1, 200), (1, 201)] {
        let draft = Draft::of(9, vec![[1, 2]; a], vec![[0, 0, 1, 1, 0]; b]);
        stream.ask(4, &Request::of(draft, 30).body());
    }
    let base = Request::roomy(edges::base());
    for a in [0, 2, 4, 100, 101, 65_535] {
        stream.ask(4, &Request { a, ..base.clone() }.body());
    }
    for b in [0, 4, 6, 200, 201, 65_535] {
        stream.ask(4, &Request { b, ..base.clone() }.body());
    }
}

pub fn random_body(random: &mut Random) -> Vec<u8> {
    let mut draft = Draft::random(random);
    damage::perhaps_draft(&mut draft, random);
    let lent = random_lent(draft.sheet().len(), random);
    let mut bytes = Request::of(draft, lent as u32).body();
    damage::perhaps_bytes(&mut bytes, random);
    bytes
}

fn random_lent(length: usize, random: &mut Random) -> usize {
    match random.below(100) {
        0 => random.below(2_010),
        1..=5 => 0,
        6..=12 => random.below(length),
        13..=20 => length - 1,
        21..=60 => length,
        _ => length + random.below(20),
    }
}
