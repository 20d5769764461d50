//! Works out what a plan holds, by checks 1 to 9 with 16, and 11.

use crate::buffers::Buffers;
use crate::copies;
use crate::finishes;
use crate::firing;
use crate::ready::{self, Ready};
use crate::refusal::Refusal;
use crate::rooms;
use crate::search::{self, Found};

/// By request P10. A list that stalled all the same would end the program, and with it the
/// comparison.
const NEVER_STALLS: &str = "the lists of a legal retiming can be completed";

pub struct Plan {
    pub ready: Ready,
    pub found: Found,
    pub back: usize,
    /// How often the start list fires each station.
    pub start_firings: Vec<usize>,
    pub rooms: Vec<usize>,
    pub start: Vec<usize>,
    pub round: Vec<usize>,
    pub times: Vec<u64>,
}

/// A refusal leaves the buffers alone.
pub fn plan(bytes: &[u8], buffers: &mut Buffers) -> Result<Plan, Refusal> {
    let ready = ready::read(bytes)?;
    let found = search::search(&ready).ok_or(Refusal::NoRetiming)?;
    let Ready { sheet, counts } = &ready;
    let back = back(counts, &found.retiming);
    let start_firings: Vec<usize> =
        counts.iter().zip(&found.retiming).map(|(count, raised)| back * count - raised).collect();
    let start = firing::list(sheet, &sheet.delays(), &start_firings).expect(NEVER_STALLS);
    let round = firing::list(sheet, &found.delays, counts).expect(NEVER_STALLS);
    let times = time_table(&ready, &found);
    if !buffers.hold(&start, &round, &times) {
        return Err(Refusal::Room);
    }
    buffers.write(&start, &round, &times);
    let rooms = rooms::of(sheet, &start, &round);
    Ok(Plan { ready, found, back, start_firings, rooms, start, round, times })
}

/// The least number of rounds in which every station fires at least as often as it was raised.
fn back(counts: &[usize], retiming: &[usize]) -> usize {
    let enough = |rounds: &usize| {
        let mut stations = counts.iter().zip(retiming);
        stations.all(|(count, raised)| rounds * count >= *raised)
    };
    (0..).find(enough).unwrap_or(0)
}

/// The start of each copy of the retimed sheet.
fn time_table(ready: &Ready, found: &Found) -> Vec<u64> {
    let copies = copies::of(&ready.sheet, &ready.counts, &found.delays);
    let finishes = finishes::of(&ready.sheet, &copies);
    let stations = copies.stations.iter().map(|&station| &ready.sheet.stations[station]);
    stations.zip(finishes).map(|(station, finish)| finish - u64::from(station.time)).collect()
}
