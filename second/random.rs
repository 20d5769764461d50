//! Random numbers that follow from the seed alone, by splitmix64.

pub struct Random {
    state: u64,
}

impl Random {
    pub fn from_seed(seed: u64) -> Random {
        Random { state: seed }
    }

    pub fn next(&mut self) -> u64 {
        self.state = self.state.wrapping_add(0x9E37_79B9_7F4A_7C15);
        let mut mixed = self.state;
        mixed = (mixed ^ (mixed >> 30)).wrapping_mul(0xBF58_476D_1CE4_E5B9);
        mixed = (mixed ^ (mixed >> 27)).wrapping_mul(0x94D0_49BB_1331_11EB);
        mixed ^ (mixed >> 31)
    }

    pub fn below(&mut self, bound: usize) -> usize {
        (self.next() % bound as u64) as usize
    }

    pub fn one_in(&mut self, bound: usize) -> bool {
        self.below(bound) == 0
    }

    /// A number of this size, mostly below 0.
    pub fn signed(&mut self, size: usize) -> i32 {
        let number = size as i32;
        if self.one_in(3) {
            number
        } else {
            -number
        }
    }

    /// The list in any order.
    pub fn shuffled<T>(&mut self, mut list: Vec<T>) -> Vec<T> {
        for place in 1..list.len() {
            list.swap(place, self.below(place + 1));
        }
        list
    }

    pub fn pick<'a, T>(&mut self, from: &'a [T]) -> &'a T {
        &from[self.below(from.len())]
    }
}
