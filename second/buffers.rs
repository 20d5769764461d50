//! The three lent buffers of a plan.

pub const MOST_START: usize = 65_536;
pub const MOST_ROUND: usize = 256;
pub const MOST_TIMES: usize = 256;

/// For the start list, the round list and the time table.
pub struct Buffers {
    start: Vec<u16>,
    round: Vec<u16>,
    times: Vec<u32>,
}

impl Buffers {
    /// Buffers of these lengths, in which every bit is set.
    pub fn lent(start: usize, round: usize, times: usize) -> Buffers {
        Buffers {
            start: vec![u16::MAX; start],
            round: vec![u16::MAX; round],
            times: vec![u32::MAX; times],
        }
    }

    pub fn hold(&self, start: &[usize], round: &[usize], times: &[u64]) -> bool {
        start.len() <= self.start.len()
            && round.len() <= self.round.len()
            && times.len() <= self.times.len()
    }

    /// Writes to the front of the buffers, which must hold it all.
    pub fn write(&mut self, start: &[usize], round: &[usize], times: &[u64]) {
        for (entry, &station) in self.start.iter_mut().zip(start) {
            *entry = station as u16;
        }
        for (entry, &station) in self.round.iter_mut().zip(round) {
            *entry = station as u16;
        }
        for (entry, &time) in self.times.iter_mut().zip(times) {
            *entry = time as u32;
        }
    }

    /// How many entries at the end of each buffer are still as they were lent.
    pub fn kept(&self) -> [usize; 3] {
        [
            self.start.iter().rev().take_while(|&&entry| entry == u16::MAX).count(),
            self.round.iter().rev().take_while(|&&entry| entry == u16::MAX).count(),
            self.times.iter().rev().take_while(|&&entry| entry == u32::MAX).count(),
        ]
    }
}
