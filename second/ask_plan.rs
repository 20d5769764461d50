//! Questions of kind 1: sheets to plan.

use crate::draft::{Draft, CONSUMED, DELAY};
use crate::random::Random;
use crate::shapes::{chain, chained, joined};
use crate::{
    ask_read, balanced, bench_rows, damage, edges, exact, heights, islands, loops, paths, rates,
    slow, tight, unbalanced, undone, Stream,
};

pub fn systematic(stream: &mut Stream) {
    let mut sheets: Vec<Vec<u8>> = bench_rows::all().iter().map(Draft::sheet).collect();
    sheets.extend(lengths());
    let groups = [
        edges::header_edits(),
        edges::sized_edits(),
        ask_read::layout_edits(),
        field_edits(),
        several_refusals(),
        islands::all(),
        rates::all(),
        exact::all(),
        unbalanced::all(),
        loops::all(),
        paths::all(),
        tight::all(),
        slow::all(),
    ];
    sheets.extend(groups.iter().flatten().map(Draft::sheet));
    for sheet in &sheets {
        stream.ask(1, sheet);
    }
}

/// The sample and its beginnings, then more bytes behind it, and around the longest sheet.
fn lengths() -> Vec<Vec<u8>> {
    let mut bytes = bench_rows::sample().sheet();
    bytes.resize(60, 0);
    let mut longest = Draft::sized(32, 64).sheet();
    longest.resize(2_000, 0);
    let around_sample = (0..=60).map(|length| bytes[..length].to_vec());
    let around_longest = [787, 788, 789, 790, 2_000].map(|length| longest[..length].to_vec());
    around_sample.chain(around_longest).collect()
}

/// One queue field at or beside a limit, in each queue of a sheet that is ready without the edit.
fn field_edits() -> Vec<Draft> {
    let base = joined(2, vec![[0, 1, 64, 64, 0], [1, 0, 64, 64, 4_095], [1, 1, 1, 1, 1]]);
    let mut drafts = vec![base.clone()];
    for place in 0..3 {
        for field in 0..DELAY {
            drafts.extend([0, 1, 2, 64, 65].map(|v| edges::edited(base.clone(), place, field, v)));
        }
        drafts.extend([0, 64, 4_096].map(|v| edges::edited(base.clone(), place, DELAY, v)));
    }
    drafts
}

/// Sheets with every two of refusals 4 to 8 and 16 at once, of which the first is given. Only 16
/// and 7 can't meet, because 7 is for balanced sheets.
fn several_refusals() -> Vec<Draft> {
    let rising = chain(&[(64, 1), (64, 1)]);
    let apart = joined(3, vec![[0, 1, 1, 1, 0]]);
    let unbalanced = joined(2, vec![[0, 1, 1, 1, 0], [0, 1, 1, 2, 0]]);
    let too_large = joined(3, rising.clone());
    let stuck = joined(2, vec![[0, 1, 1, 1, 0], [1, 0, 1, 1, 0]]);
    let apart_and_unbalanced = joined(3, vec![[0, 1, 1, 1, 0], [0, 1, 1, 2, 0]]);
    let apart_and_too_large = joined(4, rising.clone());
    let apart_and_stuck = joined(3, vec![[0, 1, 1, 1, 0], [1, 0, 1, 1, 0]]);
    let unbalanced_and_stuck = joined(2, vec![[0, 1, 1, 1, 0], [1, 0, 1, 2, 0]]);
    let too_large_and_stuck = joined(3, [rising, vec![[2, 2, 1, 1, 0]]].concat());
    let apart_unbalanced_and_stuck = joined(3, vec![[0, 1, 1, 1, 0], [1, 0, 1, 2, 0]]);
    let mut drafts = Vec::new();
    for draft in [apart, unbalanced, too_large, stuck] {
        drafts.push(edges::edited(draft.clone(), 0, CONSUMED, 65));
        drafts.push(Draft { station_offset: 24, ..draft.clone() });
        drafts.push(draft);
    }
    drafts.extend([apart_and_unbalanced, apart_and_too_large, apart_and_stuck]);
    drafts.extend([unbalanced_and_stuck, too_large_and_stuck, apart_unbalanced_and_stuck]);
    drafts
}

pub fn random_body(random: &mut Random) -> Vec<u8> {
    let draft = match random.below(27) {
        0 | 1 => return ask_read::random_body(random),
        2 | 3 => random_chain(random),
        4..=13 => balanced::random(random).draft,
        14 => slow::random(random),
        15..=17 => heights::random(random),
        _ => undone::random(random).draft,
    };
    damage::seldom(&[], draft, random)
}

/// A chain of any rates, whose counts are soon immense.
fn random_chain(random: &mut Random) -> Draft {
    let length = if random.one_in(5) { 1 + random.below(31) } else { 1 + random.below(5) };
    let most = *random.pick(&[2, 3, 4, 64]);
    let mut rate = || 1 + random.below(most) as u16;
    chained(&(0..length).map(|_| (rate(), rate())).collect::<Vec<(u16, u16)>>())
}
