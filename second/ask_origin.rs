//! Questions of kind 7: where one token comes from.

use crate::draft::{Draft, CONSUMED, DELAY, PRODUCED};
use crate::known;
use crate::random::Random;
use crate::shapes::joined;
use crate::{bench_rows, damage, refused, Stream};

const MOST_FIRINGS: u32 = 1_000_000;

/// What stands before the sheet.
fn head(queue: u16, firing: u32, token: u16) -> Vec<u8> {
    [&queue.to_le_bytes()[..], &firing.to_le_bytes(), &token.to_le_bytes()].concat()
}

/// The head that asks for the token at a place.
fn head_at(queue: u16, place: usize, consumed: u16) -> Vec<u8> {
    let consumed = usize::from(consumed);
    head(queue, (place / consumed + 1) as u32, (place % consumed + 1) as u16)
}

pub fn systematic(stream: &mut Stream) {
    let own = joined(1, vec![[0, 0, 1, 1, 2]]).sheet();
    stream.ask_lengths(7, &[head(0, 3, 1), own].concat(), 1);
    for row in bench_rows::all() {
        stream.ask_about(7, &head(0, 1, 1), &row.sheet());
    }
    every_token(stream);
    around_delays(stream);
    limits(stream);
    queues(stream);
    refused::ask(7, &[head(0, 1, 1), head(2, 0, 0)], stream);
}

/// All tokens of the first firings, on the sample's queues and on self-queues.
fn every_token(stream: &mut Stream) {
    let own = |delay| joined(2, vec![[0, 1, 4, 1, 0], [1, 1, 3, 3, delay]]);
    for draft in [bench_rows::sample(), own(3), own(7)] {
        for (queue, fields) in (0..).zip(&draft.queues) {
            for place in 0..12 {
                stream.ask_about(7, &head_at(queue, place, fields[CONSUMED]), &draft.sheet());
            }
        }
    }
}

/// The last initial tokens, and the tokens of the first firing and around its end.
fn around_delays(stream: &mut Stream) {
    for (produced, consumed) in [(1, 1), (2, 3), (3, 2), (64, 1), (1, 64), (64, 63), (64, 64)] {
        for delay in [0, 64, 4_095] {
            let sheet = joined(2, vec![[0, 1, produced, consumed, delay]]).sheet();
            for place in places_around(delay, produced) {
                stream.ask_about(7, &head_at(0, place, consumed), &sheet);
            }
        }
    }
}

fn places_around(delay: u16, produced: u16) -> Vec<usize> {
    let (delay, produced) = (usize::from(delay), usize::from(produced));
    let mut places = vec![0, delay.saturating_sub(1), delay, delay + 1];
    places.extend([delay + produced - 1, delay + produced]);
    places.sort();
    places.dedup();
    places
}

fn limits(stream: &mut Stream) {
    for (produced, consumed, delay) in [(1, 64, 4_095), (64, 1, 0), (3, 2, 5)] {
        let sheet = joined(2, vec![[0, 1, produced, consumed, delay]]).sheet();
        for firing in [0, 1, MOST_FIRINGS, MOST_FIRINGS + 1, u32::MAX] {
            for token in [0, 1, consumed, consumed + 1, 65_535] {
                stream.ask_about(7, &head(0, firing, token), &sheet);
            }
        }
    }
}

/// Queues at and around m.
fn queues(stream: &mut Stream) {
    let parallel = joined(2, (0..64).map(|delay| [0, 1, 1, 1, delay]).collect());
    for draft in [bench_rows::alone(7), bench_rows::sample(), parallel] {
        for queue in [draft.m.saturating_sub(1), draft.m, draft.m + 1, draft.m + 256, 65_535] {
            stream.ask_about(7, &head(queue, 64, 1), &draft.sheet());
        }
    }
}

pub fn random_body(random: &mut Random) -> Vec<u8> {
    let draft = known::random(random).draft;
    let head = random_head(&draft, random);
    damage::seldom(&head, draft, random)
}

fn random_head(draft: &Draft, random: &mut Random) -> Vec<u8> {
    let queue = random.below(draft.queues.len() + 1);
    let queue = if random.one_in(20) { queue } else { queue.saturating_sub(1) };
    let fields = draft.queues.get(queue).copied().unwrap_or([0, 0, 1, 1, 0]);
    let consumed = fields[CONSUMED];
    if random.one_in(2) {
        return head_at(queue as u16, random_place(&fields, random), consumed);
    }
    head(queue as u16, random_firing(random), random_token(consumed, random))
}

/// Among the initial tokens or those of the first firings.
fn random_place(queue: &[u16; 5], random: &mut Random) -> usize {
    let (delay, produced) = (usize::from(queue[DELAY]), usize::from(queue[PRODUCED]));
    match random.below(4) {
        0 | 1 => random.below(delay + 1),
        2 => delay + produced * random.below(5),
        _ => delay.saturating_sub(2) + random.below(4 * produced),
    }
}

fn random_firing(random: &mut Random) -> u32 {
    match random.below(30) {
        0 => random.next() as u32,
        1 => MOST_FIRINGS - 3 + random.below(7) as u32,
        2..=10 => random.below(MOST_FIRINGS as usize + 1) as u32,
        11..=18 => random.below(1_000) as u32,
        _ => 1 + random.below(12) as u32,
    }
}

fn random_token(consumed: u16, random: &mut Random) -> u16 {
    match random.below(30) {
        0 => 0,
        1 => consumed + 1,
        2 => random.next() as u16,
        3..=7 => consumed,
        _ => 1 + random.below(usize::from(consumed)) as u16,
    }
}
