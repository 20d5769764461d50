//! Sheets for checks 16 and 7 whose loops balance exactly, mostly by immense counts, and the same
//! with one rate a little off.

use crate::draft::{Draft, CONSUMED, PRODUCED, SINK};
use crate::edges::{beside, edited};
use crate::shapes::{chain, joined, turned};

type Rates = (u16, u16);

pub fn all() -> Vec<Draft> {
    let balanced = [rings(), doubled(), shortcuts(), squares(), vec![ladder()]].concat();
    let missing = balanced.iter().flat_map(missing).collect();
    let drafts = [balanced, missing, vec![equal_in_64_bits(), one_bit_off()]].concat();
    drafts.iter().flat_map(in_orders).collect()
}

/// The draft with a rate of its first, its middle or its last queue off by one.
fn missing(draft: &Draft) -> [Draft; 3] {
    let last = draft.queues.len() - 1;
    [(0, PRODUCED), (last / 2, CONSUMED), (last, PRODUCED)].map(|(place, field)| {
        edited(draft.clone(), place, field, beside(draft.queues[place][field]))
    })
}

/// The draft, then with its queues from the last on and its stations turned round, then with every
/// other queue put behind the others, so that parts join late.
fn in_orders(draft: &Draft) -> [Draft; 3] {
    let from_end: Vec<[u16; 5]> = draft.queues.iter().rev().copied().collect();
    let every_other = |first| draft.queues.iter().skip(first).step_by(2);
    let halves = every_other(0).chain(every_other(1)).copied().collect();
    [draft.queues.clone(), turned(draft.stations.len(), &from_end), halves]
        .map(|queues| Draft { queues, ..draft.clone() })
}

/// A chain and a queue back from its last station to the first, which has the last of the rates.
fn ring(rates: &[Rates]) -> Draft {
    let mut queues = chain(rates);
    queues[rates.len() - 1][SINK] = 0;
    joined(rates.len(), queues)
}

/// Rings of 32 stations, whose rates rise and fall again at once or after a while.
fn rings() -> Vec<Draft> {
    vec![
        ring(&[(64, 63), (63, 64)].repeat(16)),
        ring(&[[(64, 63); 16], [(63, 64); 16]].concat()),
        ring(&[[(64, 1); 16], [(1, 64); 16]].concat()),
    ]
}

/// Chains of 32 stations with a queue back from each station to the one before, and a self-queue of
/// the largest rates on the last, which meets the largest products that there are.
fn doubled() -> Vec<Draft> {
    let doubled = |rates: Rates| {
        let there = chain(&[rates; 31]);
        let back = there.iter().map(|q| [q[1], q[0], q[3], q[2], 4_095]).collect();
        joined(32, [vec![[31, 31, 64, 64, 64]], there, back].concat())
    };
    [(64, 63), (64, 1)].map(doubled).to_vec()
}

/// Chains of 32 stations with queues past some stations, such as 64 and 49 for 8 and 7 twice.
fn shortcuts() -> Vec<Draft> {
    let cut = |((produced, consumed), steps): (Rates, u16)| {
        let power = |rate: u16| rate.pow(u32::from(steps));
        let past = |i| [i, i + steps, power(produced), power(consumed), 0];
        let past_all = (0..32 - steps).map(past).collect();
        joined(32, [chain(&[(produced, consumed); 31]), past_all].concat())
    };
    [((8, 7), 2), ((4, 3), 3), ((2, 1), 6)].map(cut).to_vec()
}

/// Two ways from station 0 to station 3 with equal products.
fn squares() -> Vec<Draft> {
    let square = |[first, second, other, last]: [u16; 4]| {
        let one_way = [[0, 1, first, 1, 0], [1, 3, second, 1, 0]];
        let other_way = [[0, 2, other, 1, 0], [2, 3, last, 1, 0]];
        joined(4, [one_way, other_way].concat())
    };
    [[64, 63, 63, 64], [2, 32, 64, 1], [8, 8, 64, 1]].map(square).to_vec()
}

/// Two chains of 16 stations, each station of one joined to its like of the other.
fn ladder() -> Draft {
    let one: Vec<[u16; 5]> = chain(&[(61, 59); 15]);
    let other = one.iter().map(|q| [q[0] + 16, q[1] + 16, q[2], q[3], q[4]]).collect();
    let rungs = (0..16).map(|i| [i + 16, i, 4 * i + 1, 4 * i + 1, 0]).collect();
    joined(32, [one, other, rungs].concat())
}

/// A ring of rates of 64 of which one is 32, so that its products are 2^192 and 2^191.
fn one_bit_off() -> Draft {
    ring(&[vec![(64, 64); 31], vec![(64, 32)]].concat())
}

/// A ring of odd rates that isn't balanced, although both products are the same in 64 bits.
fn equal_in_64_bits() -> Draft {
    let produced = [
        61, 59, 59, 59, 53, 47, 47, 31, 31, 31, 31, 31, 31, 31, 31, 19, 19, 17, 17, 17, 17, 17, 17,
        25, 25, 25, 5,
    ];
    let consumed = [
        43, 43, 41, 41, 37, 29, 29, 29, 29, 23, 23, 23, 23, 23, 23, 23, 39, 39, 39, 39, 33, 33, 33,
        11, 49, 7, 1,
    ];
    ring(&produced.into_iter().zip(consumed).collect::<Vec<Rates>>())
}
