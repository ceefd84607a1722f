//! A small seeded generator of numbers (splitmix64).

pub struct Rng(u64);

impl Rng {
    pub fn new(seed: u64) -> Self {
        Rng(seed)
    }

    /// A generator of its own for each case, so that one case can be made
    /// again from the seed and its number alone.
    pub fn for_case(seed: u64, number: u64) -> Self {
        let mut rng = Rng(seed ^ number.wrapping_mul(0xD6E8_FEB8_6659_FD93));
        rng.draw();
        rng
    }

    pub fn draw(&mut self) -> u64 {
        self.0 = self.0.wrapping_add(0x9E37_79B9_7F4A_7C15);
        let mut z = self.0;
        z = (z ^ (z >> 30)).wrapping_mul(0xBF58_476D_1CE4_E5B9);
        z = (z ^ (z >> 27)).wrapping_mul(0x94D0_49BB_1331_11EB);
        z ^ (z >> 31)
    }

    /// A number below `limit`, which is at least 1.
    pub fn below(&mut self, limit: usize) -> usize {
        ((u128::from(self.draw()) * limit as u128) >> 64) as usize
    }

    pub fn byte(&mut self) -> u8 {
        self.draw() as u8
    }

    /// True `times` out of a thousand.
    pub fn per_mille(&mut self, times: usize) -> bool {
        self.below(1000) < times
    }

    pub fn pick<T: Copy>(&mut self, choices: &[T]) -> T {
        choices[self.below(choices.len())]
    }

    /// A carried number: few values, so that equal ones meet, among them the
    /// ends and some whose bytes all differ.
    pub fn number(&mut self) -> u32 {
        match self.below(8) {
            0 => 0,
            1 => u32::MAX,
            2 => 0x0102_0304,
            3 => self.draw() as u32,
            _ => self.below(4) as u32 + 5,
        }
    }

    /// An index that is mostly below `count`, else at it or far over it.
    pub fn index(&mut self, count: u8) -> u8 {
        if count > 0 && !self.per_mille(60) {
            return self.below(usize::from(count)) as u8;
        }
        let over = count.saturating_add(1);
        self.pick(&[count, count, over, 16, 255])
    }
}
