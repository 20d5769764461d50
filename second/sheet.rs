//! The sheet, its limits, and reading it from bytes with checks 1 to 5.

use crate::fields::{u16_at, u32_at};
use crate::refusal::Refusal;

pub const HEADER_BYTES: usize = 20;
pub const STATION_BYTES: usize = 4;
pub const QUEUE_BYTES: usize = 10;

pub struct Station {
    pub tag: u16,
    pub time: u16,
}

pub struct Queue {
    pub source: u16,
    pub sink: u16,
    pub produced: u16,
    pub consumed: u16,
    pub delay: u16,
}

pub struct Sheet {
    pub version: u16,
    pub target: u32,
    pub stations: Vec<Station>,
    pub queues: Vec<Queue>,
}

impl Sheet {
    pub fn delays(&self) -> Vec<usize> {
        self.queues.iter().map(|queue| usize::from(queue.delay)).collect()
    }
}

pub fn version_known(version: u16) -> bool {
    version == 1
}

pub fn counts_within_limits(n: usize, m: usize) -> bool {
    (1..=32).contains(&n) && m <= 64
}

/// The lowest queue with a field outside limits or a station not below n.
pub fn lowest_bad_queue(queues: &[Queue], n: usize) -> Option<usize> {
    queues.iter().position(|queue| !queue_within_limits(queue, n))
}

fn queue_within_limits(queue: &Queue, n: usize) -> bool {
    usize::from(queue.source) < n
        && usize::from(queue.sink) < n
        && (1..=64).contains(&queue.produced)
        && (1..=64).contains(&queue.consumed)
        && queue.delay <= 4_095
}

/// Where the queue part starts.
pub fn queue_part(n: usize) -> usize {
    HEADER_BYTES + STATION_BYTES * n
}

pub fn sheet_length(n: usize, m: usize) -> usize {
    queue_part(n) + QUEUE_BYTES * m
}

pub fn read(bytes: &[u8]) -> Result<Sheet, Refusal> {
    if bytes.len() < HEADER_BYTES {
        return Err(Refusal::Short);
    }
    let version = u16_at(bytes, 0);
    if !version_known(version) {
        return Err(Refusal::Version);
    }
    let n = usize::from(u16_at(bytes, 2));
    let m = usize::from(u16_at(bytes, 4));
    let zero = u16_at(bytes, 6);
    if !counts_within_limits(n, m) || zero != 0 {
        return Err(Refusal::Counts);
    }
    let offsets = (u32_at(bytes, 8) as usize, u32_at(bytes, 12) as usize);
    if offsets != (HEADER_BYTES, queue_part(n)) || bytes.len() != sheet_length(n, m) {
        return Err(Refusal::Layout);
    }
    let queues: Vec<Queue> =
        (0..m).map(|i| queue_at(bytes, queue_part(n) + QUEUE_BYTES * i)).collect();
    if let Some(place) = lowest_bad_queue(&queues, n) {
        return Err(Refusal::Field(place));
    }
    let stations = (0..n).map(|i| station_at(bytes, HEADER_BYTES + STATION_BYTES * i)).collect();
    Ok(Sheet { version, target: u32_at(bytes, 16), stations, queues })
}

fn station_at(bytes: &[u8], place: usize) -> Station {
    Station { tag: u16_at(bytes, place), time: u16_at(bytes, place + 2) }
}

fn queue_at(bytes: &[u8], place: usize) -> Queue {
    Queue {
        source: u16_at(bytes, place),
        sink: u16_at(bytes, place + 2),
        produced: u16_at(bytes, place + 4),
        consumed: u16_at(bytes, place + 6),
        delay: u16_at(bytes, place + 8),
    }
}
