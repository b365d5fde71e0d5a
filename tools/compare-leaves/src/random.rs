//! Random numbers that a seed determines: xoshiro256++, its state filled by splitmix64.

pub struct Random {
    state: [u64; 4],
}

impl Random {
    pub fn new(seed: u64) -> Random {
        let mut s = seed;
        let mut state = [0; 4];
        for word in &mut state {
            s = s.wrapping_add(0x9e37_79b9_7f4a_7c15);
            let mut z = s;
            z = (z ^ (z >> 30)).wrapping_mul(0xbf58_476d_1ce4_e5b9);
            z = (z ^ (z >> 27)).wrapping_mul(0x94d0_49bb_1331_11eb);
            *word = z ^ (z >> 31);
        }
        Random { state }
    }

    pub fn u64(&mut self) -> u64 {
        let s = &mut self.state;
        let result = s[0].wrapping_add(s[3]).rotate_left(23).wrapping_add(s[0]);
        let t = s[1] << 17;
        s[2] ^= s[0];
        s[3] ^= s[1];
        s[1] ^= s[2];
        s[0] ^= s[3];
        s[2] ^= t;
        s[3] = s[3].rotate_left(45);
        result
    }

    pub fn u32(&mut self) -> u32 {
        (self.u64() >> 32) as u32
    }

    /// A number from `low` to `high`, both included. (The slight preference for some of them does not matter here.)
    pub fn within(&mut self, low: i64, high: i64) -> i64 {
        let span = (high - low) as u64 + 1;
        low + ((u128::from(self.u64()) * u128::from(span)) >> 64) as i64
    }

    pub fn coin(&mut self) -> bool {
        self.u64() >> 63 == 1
    }

    /// A number of at least one bit and at most `bits`, every length equally often.
    pub fn of_length_up_to(&mut self, bits: u32) -> u64 {
        let length = self.within(1, i64::from(bits)) as u32;
        let top = 1 << (length - 1);
        top | (self.u64() & (top - 1))
    }

    pub fn pick<T: Copy>(&mut self, list: &[T]) -> T {
        list[self.within(0, list.len() as i64 - 1) as usize]
    }
}
