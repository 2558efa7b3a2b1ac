//! A fixed sequence of numbers to draw inputs from.

#[derive(Clone)]
pub struct Draw(u64);

impl Draw {
    pub fn new(seed: u64) -> Draw {
        let mut draw = Draw(seed.wrapping_mul(0x9e37_79b9_7f4a_7c15) | 1);
        for _ in 0..8 {
            draw.next();
        }
        draw
    }

    pub fn next(&mut self) -> u64 {
        self.0 ^= self.0 << 13;
        self.0 ^= self.0 >> 7;
        self.0 ^= self.0 << 17;
        self.0
    }

    /// One of 0 to n - 1.
    pub fn below(&mut self, n: usize) -> usize {
        ((self.next() >> 11) % n as u64) as usize
    }

    /// True once in n.
    pub fn once_in(&mut self, n: usize) -> bool {
        self.below(n) == 0
    }

    pub fn from<T: Copy>(&mut self, some: &[T]) -> T {
        some[self.below(some.len())]
    }

    /// From a to b, both included.
    pub fn within(&mut self, a: i64, b: i64) -> i64 {
        a + self.below((b - a + 1) as usize) as i64
    }

    /// A coordinate near a side: mostly on it or beside it, now and then at the limits or past them.
    pub fn coordinate(&mut self, side: usize) -> i32 {
        match self.below(24) {
            0 => self.from(&[-65_537, -65_536, 65_536, 65_537]),
            1 => self.from(&[i32::MIN, i32::MAX, -70_000, 70_000]),
            2 => self.within(-65_536, 65_536) as i32,
            _ => self.within(-3, side as i64 + 2) as i32,
        }
    }

    /// A length of a buffer that needs n places: mostly just that many, else one less, one more, none, or many.
    pub fn room(&mut self, n: usize) -> usize {
        match self.below(12) {
            0 => n.saturating_sub(1),
            1 => n + 1,
            2 => 0,
            3 => n + 7,
            _ => n,
        }
    }

    pub fn rgb(&mut self) -> [u8; 3] {
        let [r, g, b, ..] = self.next().to_le_bytes();
        [r, g, b]
    }

    /// A double of any kind, the ones that are no numbers too.
    pub fn double(&mut self) -> f64 {
        match self.below(10) {
            0 => f64::NAN,
            1 => self.from(&[f64::INFINITY, f64::NEG_INFINITY]),
            2 => f64::from_bits(self.next()),
            _ => self.number(),
        }
    }

    /// A finite double: of the size of a LAB number, or so great that a distance is infinite, or -0.
    pub fn number(&mut self) -> f64 {
        match self.below(12) {
            0 => self.from(&[1e200, -1e200, f64::MAX, f64::MIN, 1e-310, -0.0, 0.0]),
            1 | 2 => self.within(-3, 3) as f64,
            _ => self.within(-12_800, 12_800) as f64 / 128.0,
        }
    }
}
