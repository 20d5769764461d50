//! A sheet in the making, whose every field can be set to anything.

use crate::random::Random;

/// Places of a queue record's fields.
pub const SOURCE: usize = 0;
pub const SINK: usize = 1;
pub const PRODUCED: usize = 2;
pub const CONSUMED: usize = 3;
pub const DELAY: usize = 4;

#[derive(Clone)]
pub struct Draft {
    pub version: u16,
    pub n: u16,
    pub m: u16,
    pub zero: u16,
    pub station_offset: u32,
    pub queue_offset: u32,
    pub target: u32,
    pub stations: Vec<[u16; 2]>,
    pub queues: Vec<[u16; 5]>,
}

impl Draft {
    /// A draft whose header fits its records.
    pub fn of(target: u32, stations: Vec<[u16; 2]>, queues: Vec<[u16; 5]>) -> Draft {
        Draft {
            version: 1,
            n: stations.len() as u16,
            m: queues.len() as u16,
            zero: 0,
            station_offset: 20,
            queue_offset: 20 + 4 * stations.len() as u32,
            target,
            stations,
            queues,
        }
    }

    /// A valid draft of n stations and m queues, no two records of which are alike.
    pub fn sized(n: usize, m: usize) -> Draft {
        let stations = (0..n).map(|i| [1_000 + 7 * i as u16, 65_535 - 300 * i as u16]).collect();
        let queue = |i: usize| {
            let (source, sink) = if n == 0 { (0, 0) } else { (i % n, (5 * i + 1) % n) };
            [source, sink, 1 + i % 64, 64 - i % 63, 61 * i].map(|field| field as u16)
        };
        Draft::of(0x8765_4321, stations, (0..m).map(queue).collect())
    }

    /// A valid draft, mostly small, now and then the largest.
    pub fn random(random: &mut Random) -> Draft {
        let (n, m) = match random.below(120) {
            0 => (32, 64),
            1 => (1 + random.below(32), random.below(65)),
            _ => (1 + random.below(6), random.below(9)),
        };
        let stations = (0..n).map(|_| [random.next() as u16, random.next() as u16]).collect();
        let queues = (0..m).map(|_| random_queue(random, n)).collect();
        let target = if random.one_in(2) { random.below(100) as u32 } else { random.next() as u32 };
        Draft::of(target, stations, queues)
    }

    pub fn sheet(&self) -> Vec<u8> {
        let mut bytes = Vec::new();
        for field in [self.version, self.n, self.m, self.zero] {
            bytes.extend_from_slice(&field.to_le_bytes());
        }
        for field in [self.station_offset, self.queue_offset, self.target] {
            bytes.extend_from_slice(&field.to_le_bytes());
        }
        for field in self.stations.iter().flatten().chain(self.queues.iter().flatten()) {
            bytes.extend_from_slice(&field.to_le_bytes());
        }
        bytes
    }
}

fn random_queue(random: &mut Random, n: usize) -> [u16; 5] {
    let fields = [
        random.below(n),
        random.below(n),
        1 + random.below(64),
        1 + random.below(64),
        random.below(4_096),
    ];
    fields.map(|field| field as u16)
}
