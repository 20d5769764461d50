//! Sheets that are as bad as possible for the search. In most of them every time and the target are
//! 1, so that each queue must come to hold what its sink takes in a round. Their loops hold just
//! that much, and each round of the search raises a single copy.

use crate::draft::{Draft, DELAY};
use crate::random::Random;
use crate::shapes::{chain, common_divisor, timed, turned};

pub fn all() -> Vec<Draft> {
    let worst = vec![worst_accepted(), worst_refused(165), worst_refused(164)];
    [rings(), pairs(), relays(), worst].concat()
}

/// Parts in a row, of which each is set off when the search raises the one before for the last
/// time.
struct Relay {
    counts: Vec<u16>,
    queues: Vec<[u16; 5]>,
    /// The station raised last, and how far.
    last: (u16, u16),
}

impl Relay {
    /// Two stations of neighbouring counts, which the search raises in turn. The queue back to
    /// station 0 is one firing short.
    fn begun(count: u16) -> Relay {
        let round = count * (count + 1);
        let there = [0, 1, count + 1, count, round + count];
        let back = [1, 0, count, count + 1, round - count];
        Relay { counts: vec![count, count + 1], queues: vec![there, back], last: (1, count) }
    }

    /// Two stations of neighbouring counts, at rest until the larger is raised.
    fn pair(&mut self, count: u16) {
        let (larger, smaller) = (self.set_off(count + 1), self.station(count));
        let round = count * (count + 1);
        self.queues.push([larger, smaller, count, count + 1, round]);
        self.queues.push([smaller, larger, count + 1, count, round]);
        self.last = (larger, count + 1);
    }

    fn single(&mut self) {
        self.last = (self.set_off(1), 1);
    }

    fn station(&mut self, count: u16) -> u16 {
        self.counts.push(count);
        self.counts.len() as u16 - 1
    }

    /// A new station with a queue to it from the one raised last. The queue has one token too few
    /// as soon as that one is raised for the last time.
    fn set_off(&mut self, count: u16) -> u16 {
        let (source, raised) = self.last;
        let source_count = self.counts[usize::from(source)];
        let common = common_divisor(usize::from(source_count), usize::from(count)) as u16;
        let (produced, consumed) = (count / common, source_count / common);
        let station = self.station(count);
        let delay = consumed * count + produced * raised - 1;
        self.queues.push([source, station, produced, consumed, delay]);
        station
    }

    fn draft(self) -> Draft {
        Draft { target: 1, ..timed(vec![1; self.counts.len()], self.queues) }
    }
}

/// A relay of pairs and then stations of count 1. The search takes as many rounds as there are
/// copies, less one.
fn relay(pairs: &[u16], singles: usize) -> Relay {
    let mut relay = Relay::begun(pairs[0]);
    for &count in &pairs[1..] {
        relay.pair(count);
    }
    for _ in 0..singles {
        relay.single();
    }
    relay
}

/// Rings of 32 stations of count 1 or 8, with all tokens on one queue and about as many as the
/// target needs.
fn rings() -> Vec<Draft> {
    let mut drafts = Vec::new();
    for (count, rounds, target) in
        [(1, 31, 1), (1, 32, 1), (1, 15, 2), (1, 16, 2), (1, 11, 3), (8, 31, 1), (8, 32, 1)]
    {
        let mut queues = chain(&[vec![(count, 1)], vec![(1, 1); 30]].concat());
        for missing in [0, 1] {
            queues.truncate(31);
            queues.push([31, 0, 1, count, count * rounds - missing]);
            drafts.push(Draft { target, ..timed(vec![1; 32], queues.clone()) });
        }
    }
    drafts
}

/// One pair, with just enough tokens, one too few and one more.
fn pairs() -> Vec<Draft> {
    let mut drafts = Vec::new();
    for count in [1, 2, 3, 8, 31, 62, 63] {
        let tight = relay(&[count], 0).draft();
        drafts.extend([with_tokens(&tight, 1, -1), with_tokens(&tight, 1, 1), tight]);
    }
    drafts
}

/// The last three have 256 copies and take 255 rounds, the most that any search takes.
fn relays() -> Vec<Draft> {
    let mut drafts = Vec::new();
    for draft in [
        relay(&[3, 3], 0).draft(),
        relay(&[3, 7, 1], 3).draft(),
        relay(&[31, 15, 7, 3, 1], 2).draft(),
        relay(&[59, 54], 28).draft(),
        relay(&[63, 7, 7, 7, 3, 3, 3, 3, 3, 3, 3, 3, 3, 3, 3, 3], 0).draft(),
        most_rounds(),
    ] {
        let queues = turned(draft.stations.len(), &draft.queues);
        drafts.push(Draft { queues, ..draft.clone() });
        drafts.extend([with_tokens(&draft, 3, -1), with_tokens(&draft, 3, 1), draft]);
    }
    drafts
}

pub fn most_rounds() -> Draft {
    relay(&[63, 63], 2).draft()
}

fn with_tokens(draft: &Draft, queue: usize, more: i16) -> Draft {
    let mut draft = draft.clone();
    draft.queues[queue][DELAY] = draft.queues[queue][DELAY].wrapping_add_signed(more);
    draft
}

/// 32 stations, 64 queues, 256 copies and 255 rounds. Self-queues with a round's tokens do nothing
/// but add work.
fn worst_accepted() -> Draft {
    let mut relay = relay(&[59, 54], 28);
    relay.queues.resize(64, [1, 1, 64, 64, 3_840]);
    relay.draft()
}

/// 32 stations, 64 queues and 256 copies, 165 of them of station 0, which takes from nearly every
/// queue. Its copies wait for each other, so that no period below 165 can be reached; for 164 the
/// search raises station 0 by one copy in every round.
fn worst_refused(target: u32) -> Draft {
    let mut queues = vec![[31, 30, 3, 1, 0]];
    queues.extend((1..=30).map(|station| [station, 0, 55, 1, 0]));
    queues.resize(64, [0, 0, 64, 64, 64]);
    Draft { target, ..timed(vec![1; 32], queues) }
}

pub fn random(random: &mut Random) -> Draft {
    let most = *random.pick(&[4, 12, 62]);
    let pairs: Vec<u16> = (0..1 + random.below(3)).map(|_| 1 + random.below(most) as u16).collect();
    let draft = relay(&pairs, random.below(6)).draft();
    let queue = random.below(draft.queues.len());
    with_tokens(&draft, queue, *random.pick(&[-1, 0, 0, 1]))
}
