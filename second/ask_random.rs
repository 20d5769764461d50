//! Random questions, and how often each kind is asked.

use crate::random::Random;
use crate::{
    ask_dispatch, ask_hand, ask_lent, ask_move, ask_origin, ask_plan, ask_read, ask_write, Stream,
};

/// How many of `ANY` parts aren't sheets to plan.
const OTHERS: usize = 15;
const ANY: usize = 20;

/// A question of any kind.
pub fn any(random: &mut Random, stream: &mut Stream) {
    match random.below(ANY) {
        part if part < OTHERS => other_of(part, random, stream),
        _ => sheet(random, stream),
    }
}

/// A sheet to plan.
pub fn sheet(random: &mut Random, stream: &mut Stream) {
    stream.ask(1, &ask_plan::random_body(random));
}

/// A question of the kinds 2 to 8, each as often among them as in `any`.
pub fn other(random: &mut Random, stream: &mut Stream) {
    other_of(random.below(OTHERS), random, stream);
}

fn other_of(part: usize, random: &mut Random, stream: &mut Stream) {
    match part {
        0 | 1 => stream.ask(2, &ask_lent::random_body(random)),
        2 => stream.ask(3, &ask_read::random_body(random)),
        3 => stream.ask(4, &ask_write::random_body(random)),
        4 => stream.ask(8, &ask_dispatch::random_body(random)),
        5..=9 => stream.ask(5, &ask_hand::random_body(random)),
        10 | 11 => stream.ask(6, &ask_move::random_body(random)),
        _ => stream.ask(7, &ask_origin::random_body(random)),
    }
}
