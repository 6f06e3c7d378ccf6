//! Random numbers that are the same for the same seed on every machine (splitmix64).

pub struct Random(u64);

const STEP: u64 = 0x9E37_79B9_7F4A_7C15;

impl Random {
    /// The numbers of one case. Each case has its own, so that threads may take the cases in any order.
    pub fn of(seed: u64, case: u64) -> Random {
        let mut seeds = Random(seed);
        Random(seeds.next().wrapping_add(mixed(case.wrapping_mul(STEP))))
    }

    pub fn next(&mut self) -> u64 {
        self.0 = self.0.wrapping_add(STEP);
        mixed(self.0)
    }

    pub fn word(&mut self) -> u32 {
        (self.next() >> 32) as u32
    }

    /// A number from 0 to `count` - 1.
    pub fn below(&mut self, count: usize) -> usize {
        ((u128::from(self.next()) * count as u128) >> 64) as usize
    }

    /// A number from `low` to `high`, both included.
    pub fn between(&mut self, low: usize, high: usize) -> usize {
        low + self.below(high - low + 1)
    }

    /// True once in `times`.
    pub fn once_in(&mut self, times: usize) -> bool {
        self.below(times) == 0
    }

    pub fn pick<T: Copy>(&mut self, from: &[T]) -> T {
        from[self.below(from.len())]
    }

    /// One of those that fulfil a condition.
    pub fn pick_some<T: Copy>(&mut self, from: &[T], fulfils: impl Fn(&T) -> bool) -> Option<T> {
        let many = from.iter().filter(|one| fulfils(one)).count();
        let index = self.below(many.max(1));
        from.iter().copied().filter(fulfils).nth(index)
    }

    /// Appends so many random bytes.
    pub fn append(&mut self, count: usize, to: &mut Vec<u8>) {
        for _ in 0..count / 8 {
            to.extend_from_slice(&self.next().to_le_bytes());
        }
        let rest = self.next().to_le_bytes();
        to.extend_from_slice(&rest[..count % 8]);
    }
}

fn mixed(number: u64) -> u64 {
    let number = (number ^ (number >> 30)).wrapping_mul(0xBF58_476D_1CE4_E5B9);
    let number = (number ^ (number >> 27)).wrapping_mul(0x94D0_49BB_1331_11EB);
    number ^ (number >> 31)
}
