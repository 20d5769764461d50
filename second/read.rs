//! Kind 3: reads a sheet and tells what it holds.

use crate::refusal;
use crate::sheet::{self, Sheet};

/// Any body is a sheet or refused, so that none is malformed.
pub fn answer(body: &[u8]) -> String {
    refusal::told(sheet::read(body).map(|sheet| lines(&sheet)))
}

fn lines(sheet: &Sheet) -> String {
    let mut text = format!(
        "sheet version {} stations {} queues {} target {}\n",
        sheet.version,
        sheet.stations.len(),
        sheet.queues.len(),
        sheet.target
    );
    for (number, station) in sheet.stations.iter().enumerate() {
        text.push_str(&format!("station {number} tag {} time {}\n", station.tag, station.time));
    }
    for (number, queue) in sheet.queues.iter().enumerate() {
        text.push_str(&format!(
            "queue {number} source {} sink {} produced {} consumed {} delay {}\n",
            queue.source, queue.sink, queue.produced, queue.consumed, queue.delay
        ));
    }
    text
}
