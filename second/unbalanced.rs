//! Sheets for the place of 16: spoiling queues at every place, several of them, parts that join in
//! any order, and other refusals beside it.

use crate::draft::{Draft, CONSUMED};
use crate::edges::edited;
use crate::shapes::{chain, joined, star};

pub fn all() -> Vec<Draft> {
    [own(), several_own(), small_orders(), late_joins(), apart(), around_256(), refused_later()]
        .concat()
}

/// 32 stations and 64 queues, those of these places being self-queues whose rates differ.
fn with_own(places: &[usize]) -> Draft {
    let mut queues = chain(&[(1, 1); 31]);
    queues.extend((0..33 - places.len() as u16).map(|i| [i % 32, i % 32, 3, 3, 3]));
    for &place in places {
        let station = (7 * place % 32) as u16;
        let (produced, consumed) = [(1, 2), (2, 1), (63, 64), (64, 63)][place % 4];
        queues.insert(place, [station, station, produced, consumed, 100]);
    }
    joined(32, queues)
}

fn own() -> Vec<Draft> {
    (0..64).map(|place| with_own(&[place])).collect()
}

fn several_own() -> Vec<Draft> {
    let places: [&[usize]; 7] =
        [&[], &[0, 63], &[1, 2], &[31, 32], &[62, 63], &[40, 50, 60], &[9, 18, 27, 36, 45, 54]];
    places.map(with_own).to_vec()
}

/// All orders of a list.
fn orders<T: Clone>(list: &[T]) -> Vec<Vec<T>> {
    if list.is_empty() {
        return vec![Vec::new()];
    }
    let mut all = Vec::new();
    for place in 0..list.len() {
        let mut rest = list.to_vec();
        let first = vec![rest.remove(place)];
        all.extend(orders(&rest).into_iter().map(|order| [first.clone(), order].concat()));
    }
    all
}

/// A triangle that can't be balanced and a queue beside it; two pairs of queues, neither of which
/// can be balanced.
fn small_orders() -> Vec<Draft> {
    let triangle = [[0, 1, 2, 1, 0], [2, 1, 1, 3, 0], [2, 0, 1, 5, 9], [3, 2, 1, 1, 0]];
    let pairs = [[0, 1, 1, 2, 0], [1, 0, 3, 1, 0], [3, 1, 2, 3, 0], [3, 1, 3, 2, 0]];
    let behind_joining = |pairs: Vec<[u16; 5]>| [vec![[2, 1, 1, 1, 0]], pairs].concat();
    let mut lists = orders(&triangle);
    lists.extend(orders(&pairs).into_iter().map(behind_joining));
    lists.into_iter().map(|queues| joined(4, queues)).collect()
}

/// Two balanced rings of counts 6 4 3 and 2 10 5 and two queues between them, which agree or don't,
/// in every order.
fn late_joins() -> Vec<Draft> {
    let one = vec![[4, 2, 4, 3, 9], [2, 0, 3, 2, 9], [0, 4, 2, 4, 9]];
    let other = vec![[1, 3, 5, 1, 9], [3, 5, 1, 2, 9], [5, 1, 2, 5, 9]];
    let joining = vec![[4, 3, 10, 3, 0]];
    let mut drafts = Vec::new();
    for last in [[0, 5, 5, 6, 0], [0, 5, 6, 5, 0]] {
        let pieces = [one.clone(), other.clone(), joining.clone(), vec![last]];
        drafts.extend(orders(&pieces).iter().map(|order| joined(6, order.concat())));
    }
    drafts
}

/// Stations that aren't joined, with queues that can't be balanced in one part or in each.
fn apart() -> Vec<Draft> {
    let own = |station| [station, station, 1, 2, 0];
    let ring = |first| [[first, first + 1, 2, 3, 0], [first + 1, first, 2, 3, 0]];
    vec![
        joined(2, vec![own(0)]),
        joined(2, vec![own(1)]),
        joined(4, [ring(0), ring(2)].concat()),
        joined(3, ring(1).to_vec()),
        joined(32, (0..64).map(|i| own(i % 32)).collect()),
        joined(32, [chain(&[(64, 1); 30]), vec![own(30)]].concat()),
    ]
}

/// 255 to 257 copies, with queues back to station 0 of which one or none is off.
fn around_256() -> Vec<Draft> {
    let mut drafts = Vec::new();
    for last in 62..=64 {
        let rates = [(64, 1), (64, 1), (64, 1), (last, 1)];
        let mut queues = star(&rates).queues;
        queues.extend((1..).zip(rates).map(|(i, (rate, _))| [i, 0, 1, rate, rate]));
        let whole = joined(5, queues);
        drafts.extend([4, 5, 7].map(|place| edited(whole.clone(), place, CONSUMED, 61)));
        drafts.push(whole);
    }
    drafts
}

/// Sheets that would also be stuck, too slow for any retiming or too large.
fn refused_later() -> Vec<Draft> {
    let mut drafts = Vec::new();
    for (target, delay) in [(0, 0), (0, 4_095), (10, 0), (10, 4_095)] {
        let queues = vec![[0, 1, 1, 2, delay], [1, 0, 2, 1, delay], [1, 1, 2, 1, delay]];
        drafts.push(Draft { target, ..joined(2, queues) });
    }
    for place in [0, 15, 31] {
        let mut queues = chain(&[(64, 1); 31]);
        queues.insert(place, [3, 3, 64, 63, 0]);
        drafts.push(joined(32, queues));
    }
    drafts
}
