//! Questions of kind 2: sheets to plan into lent buffers.

use crate::draft::Draft;
use crate::random::Random;
use crate::shapes::{longest_row, timed};
use crate::{bench_rows, damage, refused, slow, undone, Stream};

const MOST_LENT: [u32; 3] = [65_536, 256, 256];

/// A draft and how many entries its start list, its round list and its time table take.
struct Needing {
    draft: Draft,
    entries: [u32; 3],
}

/// What stands before the sheet.
fn head(lent: [u32; 3]) -> Vec<u8> {
    lent.map(u32::to_le_bytes).concat()
}

pub fn systematic(stream: &mut Stream) {
    stream.ask_lengths(2, &[head([5, 6, 7]), bench_rows::sample().sheet()].concat(), 0);
    all_around(stream);
    for Needing { draft, entries } in needing() {
        let sheet = draft.sheet();
        for lent in around(entries) {
            stream.ask_about(2, &head(lent), &sheet);
        }
    }
    limits(stream);
    refused(stream);
}

/// Each buffer of the sample one short, just enough and one more, all together.
fn all_around(stream: &mut Stream) {
    let sheet = bench_rows::sample().sheet();
    for start in 1..=3 {
        for round in 2..=4 {
            for times in 2..=4 {
                stream.ask_about(2, &head([start, round, times]), &sheet);
            }
        }
    }
}

fn needing() -> Vec<Needing> {
    vec![
        Needing { draft: bench_rows::alone(7), entries: [0, 1, 1] },
        Needing { draft: bench_rows::k(4, 5), entries: [0, 3, 3] },
        Needing { draft: bench_rows::sample(), entries: [2, 3, 3] },
        Needing { draft: longest_row(), entries: [496, 32, 32] },
        Needing { draft: long_start(), entries: [5_974, 256, 256] },
        Needing { draft: slow::most_rounds(), entries: [1, 256, 256] },
    ]
}

/// Three stations of count 64 feed a row of 29, each of which is raised by a round more than the
/// one before. The start list fires the three 29 rounds ahead of the last.
fn long_start() -> Draft {
    let mut queues: Vec<[u16; 5]> = (0..3).map(|source| [source, 3, 1, 64, 0]).collect();
    queues.extend((3..30).map(|station| [station, station + 1, 1, 1, 0]));
    queues.push([30, 31, 36, 1, 0]);
    timed(vec![10; 32], queues)
}

/// Each buffer alone with nothing, one short, one more and the most, then all of them.
fn around(entries: [u32; 3]) -> Vec<[u32; 3]> {
    let mut all = vec![entries, [0; 3], MOST_LENT];
    for place in 0..3 {
        for lent in [0, entries[place].saturating_sub(1), entries[place] + 1, MOST_LENT[place]] {
            let mut changed = entries;
            changed[place] = lent;
            all.push(changed);
        }
    }
    all.sort();
    all.dedup();
    all
}

/// More than may be lent, in one buffer.
fn limits(stream: &mut Stream) {
    let sheet = bench_rows::sample().sheet();
    for place in 0..3 {
        for lent in [MOST_LENT[place] + 1, 1 << 31, u32::MAX] {
            let mut changed = MOST_LENT;
            changed[place] = lent;
            stream.ask_about(2, &head(changed), &sheet);
        }
    }
}

/// Sheets of every earlier refusal, which comes before missing room and leaves the buffers alone.
fn refused(stream: &mut Stream) {
    let heads = [head([0; 3]), head([100; 3])];
    refused::ask(2, &heads, stream);
    for draft in [bench_rows::k(3, 4), bench_rows::k(4, 2)] {
        for head in &heads {
            stream.ask_about(2, head, &draft.sheet());
        }
    }
}

pub fn random_body(random: &mut Random) -> Vec<u8> {
    let known = undone::random(random);
    let firings = known.counts.iter().sum();
    let lent = [random_start(random), random_lent(firings, random), random_lent(firings, random)];
    damage::seldom(&head(lent.map(|entries| entries as u32)), known.draft, random)
}

/// Small start lists are the most frequent ones.
fn random_start(random: &mut Random) -> usize {
    match random.below(8) {
        0 => 0,
        1..=3 => random.below(12),
        4 | 5 => random.below(100),
        6 => random.below(5_000),
        _ => 65_536,
    }
}

fn random_lent(needed: usize, random: &mut Random) -> usize {
    match random.below(16) {
        0 => needed - 1,
        1 => random.below(258),
        2..=7 => needed,
        _ => needed + random.below(9),
    }
}
