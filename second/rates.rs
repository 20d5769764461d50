//! Sheets for checks 16 and 7: unbalanced ones, and balanced ones with small, large and immense
//! counts.

use crate::draft::Draft;
use crate::shapes::{chain, chained, joined, star, turned};

type Rates = (u16, u16);

pub fn all() -> Vec<Draft> {
    let groups = [
        parallel(),
        own(),
        rings(),
        chains(),
        there_and_back(),
        returning(),
        swinging(),
        around_256(),
        stars(),
    ];
    groups.concat()
}

/// Two queues between the same stations, which agree on the ratio or don't.
fn parallel() -> Vec<Draft> {
    let pairs: [(Rates, Rates); 8] = [
        ((1, 1), (1, 2)),
        ((1, 1), (64, 64)),
        ((2, 3), (4, 6)),
        ((2, 3), (4, 7)),
        ((2, 3), (3, 2)),
        ((64, 63), (64, 63)),
        ((64, 63), (63, 62)),
        ((21, 64), (1, 3)),
    ];
    let mut drafts = Vec::new();
    for ((produced, consumed), other) in pairs {
        let first = [0, 1, produced, consumed, 0];
        drafts.push(joined(2, vec![first, [0, 1, other.0, other.1, 500]]));
        drafts.push(joined(2, vec![first, [1, 0, other.1, other.0, 500]]));
    }
    let many: Vec<[u16; 5]> = (1..=32).map(|k| [0, 1, k, 2 * k, 0]).collect();
    let spoilt = |place: usize| {
        let mut queues = many.clone();
        queues[place][2] = 33;
        joined(2, queues)
    };
    drafts.extend([joined(2, many.clone()), spoilt(0), spoilt(16), spoilt(31)]);
    drafts
}

/// A self-queue whose rates differ, at each end of a chain that is balanced without it.
fn own() -> Vec<Draft> {
    let mut drafts = Vec::new();
    for (produced, consumed) in [(1, 2), (2, 1), (63, 64), (64, 1), (64, 64)] {
        drafts.push(joined(1, vec![[0, 0, produced, consumed, 200]]));
        for station in [0, 2] {
            let mut queues = chain(&[(2, 3), (5, 4)]);
            queues.push([station, station, produced, consumed, 200]);
            drafts.push(joined(3, queues));
        }
    }
    drafts
}

/// Rings of three, balanced and not, with enough tokens.
fn rings() -> Vec<Draft> {
    let rings: [[Rates; 3]; 7] = [
        [(2, 3), (3, 4), (4, 2)],
        [(2, 3), (3, 4), (4, 3)],
        [(2, 3), (2, 1), (3, 4)],
        [(2, 3), (2, 1), (4, 3)],
        [(64, 63), (62, 64), (63, 62)],
        [(64, 63), (62, 61), (61, 60)],
        [(1, 64), (64, 1), (1, 2)],
    ];
    let ring = |rates: [Rates; 3]| {
        let queue = |(i, (produced, consumed))| [i, (i + 1) % 3, produced, consumed, 4_000];
        joined(3, (0..).zip(rates).map(queue).collect())
    };
    rings.into_iter().map(ring).collect()
}

/// Chains of one pair of rates. The largest counts have 56 digits.
fn chains() -> Vec<Draft> {
    let mut drafts = Vec::new();
    for rates in [(64, 1), (64, 63), (61, 59), (3, 2), (2, 1)] {
        for n in [2, 3, 4, 5, 6, 8, 9, 11, 12, 22, 32] {
            let queues = chain(&vec![rates; n - 1]);
            drafts.push(joined(n, turned(n, &queues)));
            drafts.push(joined(n, queues));
        }
    }
    drafts
}

/// Chains that rise and fall again, at once or after a while.
fn there_and_back() -> Vec<Draft> {
    let mut drafts = Vec::new();
    for (up, steps) in [((64, 1), 1..=2), ((2, 1), 5..=7), ((64, 63), 1..=2), ((4, 1), 3..=4)] {
        let down = (up.1, up.0);
        for step in steps {
            drafts.push(chained(&[vec![up; step], vec![down; step]].concat()));
            drafts.push(chained(&[vec![down; step], vec![up; step]].concat()));
        }
        for length in [3, 4, 6, 7, 8, 31] {
            let step = |i| if i % 2 == 0 { up } else { down };
            drafts.push(chained(&(0..length).map(step).collect::<Vec<Rates>>()));
        }
    }
    drafts
}

/// Long chains with a queue back from the last station to the first. In 32 or 64 bits some of the
/// products are 0, or those of unbalanced chains are equal.
fn returning() -> Vec<Draft> {
    let risen = |steps| vec![(64, 1); steps];
    let fallen = |steps| vec![(1, 64); steps];
    let near = [vec![(64, 63); 15], vec![(63, 64); 15]].concat();
    let mut nearly = near.clone();
    nearly[29] = (63, 63);
    let chains = [
        vec![(64, 63); 31],
        near,
        nearly,
        risen(11),
        fallen(11),
        [risen(15), fallen(15)].concat(),
        [risen(15), fallen(14)].concat(),
        [risen(16), fallen(5)].concat(),
        [risen(6), fallen(6)].concat(),
    ];
    let mut drafts = Vec::new();
    for rates in chains {
        for (produced, consumed) in [(1, 1), (1, 64)] {
            let mut queues = chain(&rates);
            queues.push([rates.len() as u16, 0, produced, consumed, 4_095]);
            drafts.push(joined(rates.len() + 1, queues));
        }
    }
    drafts
}

/// Chains of 32 stations with small counts although the products of their rates are immense, open
/// and with a queue back that balances or doesn't.
fn swinging() -> Vec<Draft> {
    let mut drafts = Vec::new();
    for (produced, consumed) in [(64, 64), (64, 32), (60, 40)] {
        let step = |i| if i % 2 == 0 { (produced, consumed) } else { (consumed, produced) };
        let queues = chain(&(0..31).map(step).collect::<Vec<Rates>>());
        drafts.push(joined(32, queues.clone()));
        for (produced, consumed) in [(1, 1), (1, 2), (2, 1), (2, 3), (3, 2), (64, 63)] {
            let back = [31, 0, produced, consumed, 4_095];
            drafts.push(joined(32, [queues.clone(), vec![back]].concat()));
        }
    }
    drafts
}

/// Sums of counts from 254 to 258, in trees of several forms.
fn around_256() -> Vec<Draft> {
    let mut drafts = Vec::new();
    for last in 61..=64 {
        drafts.push(star(&[(64, 1), (64, 1), (64, 1), (last, 1)]));
        drafts.push(star(&[(last, 1), (64, 1), (64, 1), (64, 1)]));
    }
    for (first, second) in [(15, 16), (5, 50), (51, 4), (17, 14), (4, 63), (64, 3), (11, 22)] {
        let queues = chain(&[(first, 1), (second, 1)]);
        drafts.push(joined(3, turned(3, &queues)));
        drafts.push(joined(3, queues));
    }
    for last in 1..=4 {
        drafts.push(chained(&[(64, 63), (63, 64), (64, 63), (last, 64)]));
    }
    for last in 13..=17 {
        let mut rates = vec![(8, 1); 30];
        rates.push((last, 1));
        drafts.push(star(&rates));
    }
    drafts.push(chained(&[(1, 62), (3, 4)]));
    drafts.push(joined(4, [chain(&[(1, 62), (3, 4)]), vec![[3, 2, 3, 1, 0]]].concat()));
    drafts
}

/// Station 0 needs a multiple of many primes.
fn stars() -> Vec<Draft> {
    let primes = [2, 3, 5, 7, 11, 13, 17, 19, 23, 29, 31, 37, 41, 43, 47, 53, 59, 61];
    let fed =
        |count: usize| primes[..count].iter().map(|&prime| (1, prime)).collect::<Vec<Rates>>();
    let squares = [(1, 64), (1, 49), (1, 27), (1, 25)];
    let mut drafts: Vec<Draft> = [2, 3, 4, 9, 10, 16, 18].map(|count| star(&fed(count))).to_vec();
    drafts.push(star(&squares));
    drafts
}
