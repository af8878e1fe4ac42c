//! A small deterministic random generator (xorshift64* over a mixed seed).

pub struct Rng(u64);

impl Rng {
    pub fn new(seed: u64) -> Rng {
        // One step of splitmix, so that near seeds give far streams; xorshift must not start at 0.
        let mut z = seed.wrapping_add(0x9E37_79B9_7F4A_7C15);
        z = (z ^ (z >> 30)).wrapping_mul(0xBF58_476D_1CE4_E5B9);
        z = (z ^ (z >> 27)).wrapping_mul(0x94D0_49BB_1331_11EB);
        Rng((z ^ (z >> 31)) | 1)
    }

    pub fn next(&mut self) -> u64 {
        self.0 ^= self.0 >> 12;
        self.0 ^= self.0 << 25;
        self.0 ^= self.0 >> 27;
        self.0.wrapping_mul(0x2545_F491_4F6C_DD1D)
    }

    pub fn word(&mut self) -> u32 {
        (self.next() >> 32) as u32
    }

    /// 0 to n-1; 0 for n 0.
    pub fn below(&mut self, n: u64) -> u64 {
        if n == 0 {
            0
        } else {
            (u128::from(self.next()) * u128::from(n) >> 64) as u64
        }
    }

    pub fn between(&mut self, low: u64, high: u64) -> u64 {
        low + self.below(high - low + 1)
    }

    /// True in one of n cases.
    pub fn one_in(&mut self, n: u64) -> bool {
        self.below(n) == 0
    }

    pub fn pick<T: Copy>(&mut self, list: &[T]) -> T {
        list[self.below(list.len() as u64) as usize]
    }

    pub fn bytes(&mut self, n: usize) -> Vec<u8> {
        let mut all = Vec::with_capacity(n + 8);
        while all.len() < n {
            all.extend_from_slice(&self.next().to_le_bytes());
        }
        all.truncate(n);
        all
    }

    pub fn words(&mut self, n: usize) -> Vec<u32> {
        let mut all = Vec::with_capacity(n + 2);
        while all.len() < n {
            let two = self.next();
            all.push(two as u32);
            all.push((two >> 32) as u32);
        }
        all.truncate(n);
        all
    }
}
