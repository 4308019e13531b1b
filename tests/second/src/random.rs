//! The one source of chance of the tests and of bench (splitmix64), so that a
//! seed gives the same files, questions and nights everywhere.

pub struct Random {
    state: u64,
}

const STEP: u64 = 0x9e37_79b9_7f4a_7c15;

impl Random {
    /// Each file (or channel) of a seed has its own sequence. The index is mixed
    /// before it is joined: a mere sum would give neighbours the same sequence,
    /// shifted.
    pub fn new(seed: u64, index: u64) -> Random {
        Random {
            state: mix(seed.wrapping_add(STEP)) ^ mix(index),
        }
    }

    /// Any 64 bits.
    pub fn word(&mut self) -> u64 {
        self.state = self.state.wrapping_add(STEP);
        mix(self.state)
    }

    /// A number under `end`, which is not 0.
    pub fn below(&mut self, end: usize) -> usize {
        (self.word() % end as u64) as usize
    }

    /// A number from `low` to `high`, both included.
    pub fn between(&mut self, low: i32, high: i32) -> i32 {
        let values = i64::from(high) - i64::from(low) + 1;
        (i64::from(low) + (self.word() % values as u64) as i64) as i32
    }

    pub fn chance(&mut self, percent: usize) -> bool {
        self.below(100) < percent
    }

    pub fn pick<T: Copy>(&mut self, list: &[T]) -> T {
        list[self.below(list.len())]
    }

    /// One of the list, each as often as its weight says.
    pub fn pick_weighted<T: Copy>(&mut self, list: &[(usize, T)]) -> T {
        let total = list.iter().map(|(weight, _)| weight).sum();
        let mut left = self.below(total);
        for (weight, one) in list {
            if left < *weight {
                return *one;
            }
            left -= weight;
        }
        unreachable!("the weights add up to their total")
    }

    pub fn bytes(&mut self, count: usize) -> Vec<u8> {
        (0..count).map(|_| self.word() as u8).collect()
    }

    /// Any 32 bits; the edges and the patterns of NaNs are frequent.
    pub fn bits(&mut self) -> i32 {
        const EDGES: [u32; 16] = [
            0,
            1,
            0xffff_ffff,
            0x7fff_ffff,
            0x8000_0000,
            0x8000_0001,
            0x7f80_0000,
            0xff80_0000,
            0x7f80_0001,
            0xffbf_ffff,
            0x7fc0_0000,
            0xffc0_0001,
            0x3f80_0000,
            0x0080_0000,
            0x0000_8000,
            0x0000_7fff,
        ];
        if self.chance(40) {
            self.pick(&EDGES) as i32
        } else {
            self.word() as i32
        }
    }
}

fn mix(value: u64) -> u64 {
    let value = (value ^ (value >> 30)).wrapping_mul(0xbf58_476d_1ce4_e5b9);
    let value = (value ^ (value >> 27)).wrapping_mul(0x94d0_49bb_1331_11eb);
    value ^ (value >> 31)
}

#[cfg(test)]
mod tests {
    use super::*;

    #[test]
    fn published_values_of_splitmix64() {
        let mut random = Random { state: 0 };
        assert_eq!(random.word(), 0xe220_a839_7b1d_cdaf);
        assert_eq!(random.word(), 0x6e78_9e6a_a1b9_65f4);
    }

    #[test]
    fn ranges_are_kept() {
        let mut random = Random::new(1, 2);
        for _ in 0..1000 {
            assert!((-3..=4).contains(&random.between(-3, 4)));
            random.between(i32::MIN, i32::MAX);
        }
    }
}
