//! Random drafts with what is known of them from their making.

use crate::draft::{Draft, SINK, SOURCE};
use crate::random::Random;
use crate::shapes::common_divisor;
use crate::{balanced, undone};

pub struct Known {
    pub draft: Draft,
    /// The smallest ones, if the draft isn't apart.
    pub counts: Vec<usize>,
    /// Legal, and mostly good enough for the target.
    pub retiming: Vec<i64>,
}

impl Known {
    /// Takes counts that may have a common divisor. Gives the stations other numbers and the queues
    /// another order.
    pub fn of(mut draft: Draft, counts: &[usize], retiming: &[i64], random: &mut Random) -> Known {
        let common = counts.iter().copied().fold(0, common_divisor);
        let counts: Vec<usize> = counts.iter().map(|count| count / common).collect();
        let order: Vec<usize> = random.shuffled((0..counts.len()).collect());
        draft.stations = reordered(&draft.stations, &order);
        for end in draft.queues.iter_mut().flat_map(|queue| &mut queue[SOURCE..=SINK]) {
            let number = order.iter().position(|&before| before == usize::from(*end));
            *end = number.unwrap_or(0) as u16;
        }
        draft.queues = random.shuffled(draft.queues);
        let counts = reordered(&counts, &order);
        Known { draft, counts, retiming: reordered(retiming, &order) }
    }
}

/// Mostly drafts whose retiming isn't all 0.
pub fn random(random: &mut Random) -> Known {
    if random.one_in(4) {
        balanced::random(random)
    } else {
        undone::random(random)
    }
}

/// The list with the entries of these places, one after the other.
fn reordered<T: Copy>(list: &[T], order: &[usize]) -> Vec<T> {
    order.iter().map(|&place| list[place]).collect()
}
