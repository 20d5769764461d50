//! Drafts with fields at and around their limits, for reading and for writing alike.

use crate::draft::{Draft, CONSUMED, DELAY, PRODUCED, SINK, SOURCE};

/// The draft that the others are edits of. Its 5 queues have a first, a middle and a last one.
pub fn base() -> Draft {
    Draft::sized(3, 5)
}

/// The base with the version, n or m of the header changed and all else as it was.
pub fn header_edits() -> Vec<Draft> {
    let mut drafts = Vec::new();
    for version in [0, 2, 3, 4, 256, 257, 65_535] {
        drafts.push(Draft { version, ..base() });
    }
    for n in [0, 1, 2, 4, 32, 33, 256, 259, 65_535] {
        drafts.push(Draft { n, ..base() });
    }
    for m in [0, 4, 6, 64, 65, 256, 261, 65_535] {
        drafts.push(Draft { m, ..base() });
    }
    drafts
}

/// Drafts of the smallest and largest counts and one beyond them, with header and records that fit.
pub fn sized_edits() -> Vec<Draft> {
    let sizes = [
        (0, 0),
        (0, 1),
        (1, 0),
        (1, 1),
        (1, 64),
        (1, 65),
        (32, 0),
        (32, 64),
        (32, 65),
        (33, 0),
        (33, 64),
    ];
    sizes.into_iter().map(|(n, m)| Draft::sized(n, m)).collect()
}

pub fn target_edits() -> Vec<Draft> {
    [0, 1, 255, 256, 65_535, 65_536, u32::MAX].map(|target| Draft { target, ..base() }).to_vec()
}

/// One queue field at or beside a limit, in the first, a middle and the last queue.
pub fn queue_edits() -> Vec<Draft> {
    let n = base().n;
    let mut drafts = Vec::new();
    for place in [0, 2, 4] {
        for field in [SOURCE, SINK] {
            drafts.extend([n - 1, n, 256, 65_535].map(|value| edited(base(), place, field, value)));
        }
        for field in [PRODUCED, CONSUMED] {
            drafts.extend(
                [0, 1, 64, 65, 256, 65_535].map(|value| edited(base(), place, field, value)),
            );
        }
        drafts.extend([0, 4_095, 4_096, 65_535].map(|value| edited(base(), place, DELAY, value)));
    }
    drafts
}

/// Two bad queues, with each field bad in the lower and each in the higher.
pub fn two_bad_queues() -> Vec<Draft> {
    let mut drafts = Vec::new();
    for (low, high) in [(0, 4), (1, 2), (3, 4)] {
        for low_field in SOURCE..=DELAY {
            for high_field in SOURCE..=DELAY {
                let one = edited(base(), low, low_field, 5_000);
                drafts.push(edited(one, high, high_field, 5_000));
            }
        }
    }
    drafts
}

/// One bad queue of the longest sheet, by its place.
pub fn longest_bad(place: usize) -> Draft {
    edited(Draft::sized(32, 64), place, CONSUMED, 65)
}

pub fn edited(mut draft: Draft, place: usize, field: usize, value: u16) -> Draft {
    draft.queues[place][field] = value;
    draft
}

/// The rate next to this one, which is one more if that is within limits.
pub fn beside(rate: u16) -> u16 {
    if rate == 64 {
        63
    } else {
        rate + 1
    }
}
