//! Questions of kind 3: sheets to read.

use crate::draft::Draft;
use crate::random::Random;
use crate::{bench_rows, damage, edges, Stream};

pub fn systematic(stream: &mut Stream) {
    for row in bench_rows::all() {
        stream.ask(3, &row.sheet());
    }
    lengths(stream);
    let groups =
        [edges::header_edits(), edges::sized_edits(), edges::target_edits(), layout_edits()];
    for draft in groups.iter().flatten() {
        stream.ask(3, &draft.sheet());
    }
    for draft in edges::queue_edits().iter().chain(&edges::two_bad_queues()) {
        stream.ask(3, &draft.sheet());
    }
    for draft in several_refusals() {
        stream.ask(3, &draft.sheet());
    }
    longest(stream);
}

/// Around the sample and its beginnings; the base one byte short and one byte long.
fn lengths(stream: &mut Stream) {
    stream.ask_lengths(3, &bench_rows::sample().sheet(), 12);
    let mut sheet = edges::base().sheet();
    sheet.push(1);
    stream.ask(3, &sheet);
    sheet.truncate(sheet.len() - 2);
    stream.ask(3, &sheet);
    stream.ask(3, &[2; 19]);
    stream.ask(3, &[2; 20]);
}

/// The zero field, and each byte of both offsets one up and one down.
pub fn layout_edits() -> Vec<Draft> {
    let base = edges::base();
    let mut drafts: Vec<Draft> = [1, 256].map(|zero| Draft { zero, ..base.clone() }).to_vec();
    for byte in 0..4 {
        let step = 1 << (8 * byte);
        for station_offset in
            [base.station_offset.wrapping_add(step), base.station_offset.wrapping_sub(step)]
        {
            drafts.push(Draft { station_offset, ..base.clone() });
        }
        for queue_offset in
            [base.queue_offset.wrapping_add(step), base.queue_offset.wrapping_sub(step)]
        {
            drafts.push(Draft { queue_offset, ..base.clone() });
        }
    }
    drafts.push(Draft {
        station_offset: base.queue_offset,
        queue_offset: base.station_offset,
        ..base
    });
    drafts
}

/// Sheets with every two of refusals 2 to 5 at once, of which the first is given.
fn several_refusals() -> Vec<Draft> {
    let bad_version = |draft: Draft| Draft { version: 2, ..draft };
    let bad_zero = |draft: Draft| Draft { zero: 1, ..draft };
    let bad_layout = |draft: Draft| Draft { queue_offset: 20, ..draft };
    let bad_field = edges::edited(edges::base(), 1, 2, 0);
    vec![
        bad_version(bad_zero(edges::base())),
        bad_version(bad_layout(edges::base())),
        bad_version(bad_field.clone()),
        bad_zero(bad_layout(edges::base())),
        bad_zero(bad_field.clone()),
        bad_layout(bad_field.clone()),
        bad_version(bad_zero(bad_layout(bad_field))),
    ]
}

fn longest(stream: &mut Stream) {
    for place in [0, 63] {
        stream.ask(3, &edges::longest_bad(place).sheet());
    }
    let mut bytes = Draft::sized(32, 64).sheet();
    stream.ask(3, &bytes[..787]);
    bytes.push(0);
    stream.ask(3, &bytes);
}

pub fn random_valid_body(random: &mut Random) -> Vec<u8> {
    Draft::random(random).sheet()
}

pub fn random_body(random: &mut Random) -> Vec<u8> {
    let mut draft = Draft::random(random);
    damage::perhaps_draft(&mut draft, random);
    let mut bytes = draft.sheet();
    damage::perhaps_bytes(&mut bytes, random);
    bytes
}
