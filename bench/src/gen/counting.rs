//! A light model of the counting machine: t(4) count refs present.

use super::model::{get, set, Model, Move};
use super::rng::Rng;

const COUNT: usize = 4;
const REFS: usize = 5;
const PRESENT: usize = 6;

pub struct Counting {
    raw: [u8; 7],
}

impl Counting {
    pub fn new() -> Self {
        Counting { raw: [0; 7] }
    }
}

impl Default for Counting {
    fn default() -> Self {
        Counting::new()
    }
}

impl Model for Counting {
    fn parameters(&self, _file: &mut Vec<u8>) {}

    fn propose(&self, rng: &mut Rng, _patient: bool) -> Move {
        if self.raw[PRESENT] == 0 {
            return Move::new(1).number(rng.number());
        }
        match (rng.below(8), self.raw[COUNT]) {
            (0..=2, 0) => Move::new(2),
            (0..=3, 1..) | (_, 255) => Move::new(4).number(get(&self.raw, 0)),
            _ => Move::new(3),
        }
    }

    fn wild(&self, rng: &mut Rng) -> Move {
        match rng.below(5) {
            0 => Move::new(1).number(rng.number()),
            1 => Move::new(2),
            2 => Move::new(3),
            3 => Move::new(4).number(get(&self.raw, 0)),
            _ => Move::new(4).number(rng.number()),
        }
    }

    fn take(&mut self, step: &Move) -> bool {
        let present = self.raw[PRESENT] != 0;
        let (count, t) = (self.raw[COUNT], get(&self.raw, 0));
        match step.tag() {
            1 if !present => {
                self.raw[PRESENT] = 1;
                set(&mut self.raw, 0, step.number_at(0));
            }
            2 if present && count == 0 => self.raw = [0; 7],
            3 if present && count < 255 => {
                self.raw[COUNT] += 1;
                self.raw[REFS] += 1;
            }
            4 if present && count > 0 && t == step.number_at(0) => {
                self.raw[COUNT] -= 1;
                self.raw[REFS] -= 1;
            }
            _ => return false,
        }
        true
    }

    fn jump(&mut self, rng: &mut Rng) {
        let count = rng.pick(&[0, 1, 127, 128, 253, 254, 255]);
        set(&mut self.raw, 0, rng.number());
        self.raw[COUNT..].copy_from_slice(&[count, count, 1]);
    }

    fn raw(&self) -> &[u8] {
        &self.raw
    }
}
