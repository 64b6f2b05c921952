//! Numbers from a 64-bit seed (splitmix64), so that every run can be made again.

use second::script::LARGEST_HANDLE;

pub struct Random {
    state: u64,
}

impl Random {
    pub fn new(seed: u64) -> Random {
        Random { state: seed }
    }

    pub fn next(&mut self) -> u64 {
        self.state = self.state.wrapping_add(0x9E37_79B9_7F4A_7C15);
        let mut z = self.state;
        z = (z ^ (z >> 30)).wrapping_mul(0xBF58_476D_1CE4_E5B9);
        z = (z ^ (z >> 27)).wrapping_mul(0x94D0_49BB_1331_11EB);
        z ^ (z >> 31)
    }

    /// A number from 0 to `count` - 1.
    pub fn below(&mut self, count: usize) -> usize {
        (self.next() % count as u64) as usize
    }

    /// A number from `low` to `high`, both included.
    pub fn between(&mut self, low: u32, high: u32) -> u32 {
        low + (self.next() % (u64::from(high - low) + 1)) as u32
    }

    /// Any 32-bit number.
    pub fn word(&mut self) -> u32 {
        self.next() as u32
    }

    /// A handle that the edition takes: of 64 bits, of 32, with its lower half 0, below 4, or at an
    /// end of either width (paper 02, S-6). Which, other bits say than those that it has.
    pub fn handle(&mut self) -> u64 {
        const ENDS: [u64; 5] = [0, 4294967295, 4294967296, u64::MAX - 1, u64::MAX];
        let any = self.next();
        let handle = match any.wrapping_mul(0xD6E8_FEB8_6659_FD93) >> 61 {
            0..=2 => any,
            3 | 4 => any >> 32,
            5 => any >> 32 << 32,
            6 => any >> 62,
            _ => ENDS[any as usize % ENDS.len()],
        };
        if handle > LARGEST_HANDLE { handle % LARGEST_HANDLE } else { handle }
    }

    pub fn pick<T: Clone>(&mut self, list: &[T]) -> T {
        list[self.below(list.len())].clone()
    }

    pub fn one_in(&mut self, count: usize) -> bool {
        self.below(count) == 0
    }
}
