//! Sheets, mostly of two stations, for each of the refusals 1 to 8 and 16, which come before what
//! else a question may be refused for.

use crate::draft::{Draft, CONSUMED, DELAY, PRODUCED, SINK, SOURCE};
use crate::edges::edited;
use crate::shapes::{chain, joined};
use crate::{bench_rows, Stream};

/// Asks about each of them with each of these heads.
pub fn ask(kind: u8, heads: &[Vec<u8>], stream: &mut Stream) {
    for sheet in sheets() {
        for head in heads {
            stream.ask_about(kind, head, &sheet);
        }
    }
}

fn sheets() -> Vec<Vec<u8>> {
    let sample = bench_rows::sample().sheet();
    let mut sheets: Vec<Vec<u8>> = [0, 19, 47].map(|length| sample[..length].to_vec()).to_vec();
    sheets.push([&sample[..], &[0]].concat());
    let groups = [headers(), fields(), shapes()];
    sheets.extend(groups.iter().flatten().map(Draft::sheet));
    sheets
}

/// For 2 to 4.
fn headers() -> Vec<Draft> {
    let sample = bench_rows::sample();
    vec![
        Draft { version: 0, ..sample.clone() },
        Draft { version: 2, ..sample.clone() },
        Draft { n: 0, ..sample.clone() },
        Draft { n: 33, ..sample.clone() },
        Draft { m: 65, ..sample.clone() },
        Draft { zero: 1, ..sample.clone() },
        Draft { station_offset: 24, ..sample.clone() },
        Draft { queue_offset: 20, ..sample },
    ]
}

/// For 5: each field bad in queue 1, then both queues bad.
fn fields() -> Vec<Draft> {
    let bad = [(SOURCE, 2), (SINK, 2), (PRODUCED, 0), (CONSUMED, 65), (DELAY, 4_096)];
    let mut drafts =
        bad.map(|(field, value)| edited(bench_rows::sample(), 1, field, value)).to_vec();
    drafts.push(edited(drafts[0].clone(), 0, CONSUMED, 0));
    drafts
}

/// For 6, 16, 7 and 8.
fn shapes() -> Vec<Draft> {
    let mut parallel = vec![[0, 1, 1, 1, 0]; 64];
    parallel[63] = [1, 0, 63, 64, 0];
    let immense = chain(&[(64, 63); 31]);
    vec![
        joined(2, vec![]),
        joined(2, vec![[0, 0, 1, 1, 1], [1, 1, 1, 1, 1]]),
        joined(2, vec![[0, 0, 1, 2, 5], [0, 1, 1, 1, 0]]),
        joined(2, vec![[0, 1, 1, 1, 0], [0, 1, 1, 2, 0]]),
        joined(2, vec![[0, 1, 1, 1, 0], [1, 1, 1, 2, 5]]),
        joined(2, parallel),
        joined(32, [immense.clone(), vec![[31, 30, 62, 64, 0]]].concat()),
        joined(32, immense),
        bench_rows::k(1, 9),
        joined(2, vec![[0, 1, 1, 1, 0], [1, 1, 1, 1, 0]]),
    ]
}
