//! Random damage, to the fields of a draft or to the bytes made of it. About half of what goes
//! through both is left whole.

use crate::draft::{Draft, CONSUMED, PRODUCED};
use crate::random::Random;

const BOUNDARIES: [u16; 16] =
    [0, 1, 2, 3, 31, 32, 33, 63, 64, 65, 255, 256, 4_095, 4_096, 32_768, 65_535];

/// A body of these bytes and the draft's sheet, mostly without damage.
pub fn seldom(head: &[u8], mut draft: Draft, random: &mut Random) -> Vec<u8> {
    if random.one_in(12) {
        spoil(&mut draft, random);
    }
    if random.one_in(8) {
        perhaps_draft(&mut draft, random);
    }
    let mut bytes = [head, &draft.sheet()].concat();
    if random.one_in(8) {
        perhaps_bytes(&mut bytes, random);
    }
    bytes
}

/// Takes a queue away, or changes one of its rates.
fn spoil(draft: &mut Draft, random: &mut Random) {
    if draft.queues.is_empty() {
        return;
    }
    let place = random.below(draft.queues.len());
    if random.one_in(3) {
        draft.queues.remove(place);
        draft.m -= 1;
    } else {
        let rate = *random.pick(&[PRODUCED, CONSUMED]);
        draft.queues[place][rate] = 1 + random.below(64) as u16;
    }
}

pub fn perhaps_draft(draft: &mut Draft, random: &mut Random) {
    while random.one_in(3) {
        damage_draft(draft, random);
    }
}

pub fn perhaps_bytes(bytes: &mut Vec<u8>, random: &mut Random) {
    if random.one_in(4) {
        damage_bytes(bytes, random);
    }
}

fn damage_draft(draft: &mut Draft, random: &mut Random) {
    match random.below(16) {
        0 => draft.version = number(random),
        1 => draft.n = number(random),
        2 => draft.m = number(random),
        3 => draft.zero = number(random),
        4 => draft.station_offset = u32::from(number(random)),
        5 => draft.queue_offset = u32::from(number(random)),
        6 => draft.stations.push([number(random), number(random)]),
        7 => draft.queues.push([1; 5]),
        8 => drop(draft.stations.pop()),
        9 => drop(draft.queues.pop()),
        _ => damage_queue(draft, random),
    }
}

fn damage_queue(draft: &mut Draft, random: &mut Random) {
    if draft.queues.is_empty() {
        return;
    }
    let place = random.below(draft.queues.len());
    draft.queues[place][random.below(5)] = number(random);
}

fn damage_bytes(bytes: &mut Vec<u8>, random: &mut Random) {
    let place = random.below(bytes.len());
    match random.below(6) {
        0 | 1 => bytes[place] ^= 1 << random.below(8),
        2 => bytes[place] = random.next() as u8,
        3 => bytes.truncate(place),
        4 => drop(bytes.pop()),
        _ => bytes.extend((0..1 + random.below(12)).map(|_| random.next() as u8)),
    }
}

fn number(random: &mut Random) -> u16 {
    if random.one_in(4) {
        random.next() as u16
    } else {
        *random.pick(&BOUNDARIES)
    }
}
