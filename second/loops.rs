//! Sheets for check 8: loops with exactly enough tokens, with one too few and with one too many.

use crate::bench_rows;
use crate::draft::Draft;
use crate::shapes::{chain, common_divisor, joined};

pub fn all() -> Vec<Draft> {
    [samples(), pairs(), shared_out(), rings(), own(), several_own(), long_rings(), knots()]
        .concat()
}

/// K(d,T) with every delay to more than two rounds, then large ones.
fn samples() -> Vec<Draft> {
    (0..=7).chain([100, 4_094, 4_095]).map(|delay| bench_rows::k(delay, 4)).collect()
}

/// A queue there and one back with the same rates turned round.
fn pair(produced: u16, consumed: u16, there: u16, back: u16) -> Draft {
    joined(2, vec![[0, 1, produced, consumed, there], [1, 0, consumed, produced, back]])
}

/// What a pair needs on its second queue if the first is empty.
fn enough(produced: u16, consumed: u16) -> u16 {
    let common = common_divisor(usize::from(produced), usize::from(consumed));
    produced + consumed - common as u16
}

/// All tokens on one queue of a pair.
fn pairs() -> Vec<Draft> {
    let rates =
        [(1, 1), (2, 3), (6, 4), (4, 4), (5, 7), (64, 63), (64, 64), (64, 1), (1, 64), (60, 45)];
    let mut drafts = Vec::new();
    for (produced, consumed) in rates {
        let enough = enough(produced, consumed);
        for tokens in [0, enough - 1, enough, enough + 1, 2 * enough] {
            drafts.push(pair(produced, consumed, 0, tokens));
            drafts.push(pair(produced, consumed, tokens, 0));
        }
    }
    drafts
}

/// The tokens of a pair shared out between its queues, in every way. Rates with a common divisor
/// leave some of them without use.
fn shared_out() -> Vec<Draft> {
    let mut drafts = Vec::new();
    for (produced, consumed) in [(2, 3), (6, 4), (3, 3)] {
        let enough = enough(produced, consumed);
        for tokens in enough - 1..=enough + 2 {
            drafts
                .extend((0..=tokens).map(|there| pair(produced, consumed, there, tokens - there)));
        }
    }
    drafts
}

/// Three stations in a ring with every delay of one queue to more than a round.
fn rings() -> Vec<Draft> {
    let rings = [
        [[0, 1, 2, 3, 0], [1, 2, 2, 1, 0], [2, 0, 3, 4, 0]],
        [[0, 1, 2, 3, 1], [1, 2, 2, 1, 1], [2, 0, 3, 4, 0]],
        [[2, 1, 5, 2, 0], [1, 0, 2, 1, 3], [0, 2, 1, 5, 0]],
        [[0, 1, 3, 3, 2], [1, 2, 2, 2, 1], [2, 0, 4, 4, 0]],
    ];
    let mut drafts = Vec::new();
    for ring in rings {
        for delay in 0..=13 {
            let mut queues = ring.to_vec();
            queues[2][4] = delay;
            drafts.push(joined(3, queues));
        }
    }
    drafts
}

/// A self-queue on a station of count 1, 5 or 63.
fn own() -> Vec<Draft> {
    let mut drafts = Vec::new();
    for rate in [1, 2, 3, 64] {
        for delay in [0, rate - 1, rate, rate + 1, 2 * rate - 1, 2 * rate, 5 * rate, 63 * rate] {
            let own = |station| [station, station, rate, rate, delay];
            drafts.push(joined(1, vec![own(0)]));
            drafts.push(joined(2, vec![[0, 1, 5, 1, 0], own(1)]));
            drafts.push(joined(2, vec![[0, 1, 1, 63, 0], own(0)]));
        }
    }
    drafts
}

/// Three self-queues on one station, of which one is short or none is.
fn several_own() -> Vec<Draft> {
    let own = |rate: u16, short| [1, 1, rate, rate, if rate == short { rate - 1 } else { rate }];
    let queues = |short| vec![[0, 1, 4, 1, 0], own(2, short), own(4, short), own(6, short)];
    [0, 2, 4, 6].into_iter().map(|short| joined(2, queues(short))).collect()
}

/// Rings of 32 stations, whose tokens stand together or apart.
fn long_rings() -> Vec<Draft> {
    let mut drafts = Vec::new();
    for rate in [1, 3] {
        for (place, delay) in [(0, rate - 1), (0, rate), (31, rate - 1), (31, rate), (17, 2 * rate)]
        {
            let mut queues = chain(&[(rate, rate); 31]);
            queues.push([31, 0, rate, rate, 0]);
            queues[place][4] = delay;
            drafts.push(joined(32, queues.clone()));
            queues[5][4] = 2;
            drafts.push(joined(32, queues));
        }
    }
    drafts
}

/// Loops that share a station or lie behind each other, with one of them short or none.
fn knots() -> Vec<Draft> {
    let mut drafts = Vec::new();
    for (first, second) in [(4, 4), (3, 4), (4, 3), (4, 7), (8, 4)] {
        let one = [[0, 1, 2, 3, 0], [1, 0, 3, 2, first]];
        let shared = [[1, 2, 3, 2, 0], [2, 1, 2, 3, second]];
        let behind = [[2, 3, 3, 2, second], [3, 2, 2, 3, 0]];
        let across = [[0, 2, 2, 2, second], [2, 0, 2, 2, 0]];
        drafts.push(joined(3, [one, shared].concat()));
        drafts.push(joined(4, [&one[..], &behind, &[[1, 2, 1, 1, 0]]].concat()));
        drafts.push(joined(4, [&behind[..], &one, &[[3, 0, 1, 1, 0]]].concat()));
        drafts.push(joined(3, [one, shared, across].concat()));
    }
    drafts
}
