/// SplitMix64: the same numbers for the same seed on every machine.
pub struct Random(u64);

/// Both sides of every limit of RULES.md, and of the machine's numbers.
const EDGES: [u64; 29] = [
    0,
    1,
    2,
    3,
    4,
    7,
    8,
    9,
    15,
    16,
    17,
    20,
    21,
    30,
    31,
    32,
    33,
    34,
    127,
    128,
    129,
    (1 << 62) - 1,
    1 << 62,
    (1 << 62) + 1,
    (1 << 63) - 1,
    1 << 63,
    (1 << 63) + 1,
    u64::MAX - 1,
    u64::MAX,
];

impl Random {
    pub fn new(seed: u64) -> Random {
        Random(seed)
    }

    pub fn word(&mut self) -> u64 {
        self.0 = self.0.wrapping_add(0x9e37_79b9_7f4a_7c15);
        let mut z = self.0;
        z = (z ^ (z >> 30)).wrapping_mul(0xbf58_476d_1ce4_e5b9);
        z = (z ^ (z >> 27)).wrapping_mul(0x94d0_49bb_1331_11eb);
        z ^ (z >> 31)
    }

    /// Below n, which isn't 0. That low numbers come a little more often doesn't matter here.
    pub fn below(&mut self, n: usize) -> usize {
        (self.word() % n as u64) as usize
    }

    pub fn one_in(&mut self, n: usize) -> bool {
        self.below(n) == 0
    }

    pub fn flag(&mut self) -> bool {
        self.one_in(2)
    }

    pub fn pick<T: Copy>(&mut self, from: &[T]) -> T {
        from[self.below(from.len())]
    }

    pub fn byte(&mut self) -> u8 {
        self.word() as u8
    }

    pub fn bytes<const N: usize>(&mut self) -> [u8; N] {
        std::array::from_fn(|_| self.byte())
    }

    /// A number at a limit, a small one, or any.
    pub fn number(&mut self) -> u64 {
        match self.below(8) {
            0..4 => self.pick(&EDGES),
            4..7 => self.below(40) as u64,
            _ => self.word(),
        }
    }

    /// Any number but 0.
    pub fn some(&mut self) -> u64 {
        self.number().max(1)
    }
}
