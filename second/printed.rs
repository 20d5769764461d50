//! The printed plan, and lists as it prints them.

use crate::planning::Plan;
use std::fmt::Display;

pub fn lines(plan: &Plan) -> String {
    let (ready, found) = (&plan.ready, &plan.found);
    let mut text =
        format!("accepted period {} rounds {} back {}\n", found.period, found.rounds, plan.back);
    for (number, station) in ready.sheet.stations.iter().enumerate() {
        text.push_str(&format!(
            "station {number} tag {} count {} retime {} start {}\n",
            station.tag, ready.counts[number], found.retiming[number], plan.start_firings[number]
        ));
    }
    for (number, (delay, room)) in found.delays.iter().zip(&plan.rooms).enumerate() {
        text.push_str(&format!("queue {number} delay {delay} room {room}\n"));
    }
    text.push_str(&list("start", &plan.start));
    text.push_str(&list("round", &plan.round));
    text.push_str(&list("times", &plan.times));
    text
}

/// An empty list is its word alone.
pub fn list<T: Display>(word: &str, entries: &[T]) -> String {
    let mut line = String::from(word);
    for entry in entries {
        line.push_str(&format!(" {entry}"));
    }
    line.push('\n');
    line
}
