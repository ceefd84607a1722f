//! Single steps on states that walks reach, on damaged and on random ones.

use super::model::{fresh, Model, Move};
use super::rng::Rng;

/// Arguments of the single step.
#[derive(Default)]
pub struct Case {
    /// The kind it was made for.
    pub made_for: u8,
    /// The kind handed over.
    pub kind: u8,
    pub state: Vec<u8>,
    pub step: Vec<u8>,
    pub log: usize,
}

impl Case {
    pub fn make(&mut self, seed: u64, number: u64) {
        let rng = &mut Rng::for_case(!seed, number);
        self.made_for = 1 + (number % 4) as u8;
        self.kind = self.made_for;
        let mut model = fresh(self.kind, rng);
        wander(model.as_mut(), rng);
        let step = if rng.below(3) == 0 {
            model.wild(rng)
        } else {
            model.propose(rng, false)
        };
        self.state.clear();
        self.state.extend(model.raw());
        self.step.clear();
        self.step.push(self.kind);
        self.step.extend(step.bytes());
        self.log = rng.pick(&[10, 10, 10, 11, 30]);
        self.spoil(rng, &step);
    }

    /// Leaves a third of the cases as they are.
    fn spoil(&mut self, rng: &mut Rng, step: &Move) {
        match rng.below(24) {
            0..=9 => {
                let fields = rng.pick(&[1, 1, 1, 2]);
                (0..fields).for_each(|_| self.one_field(rng));
            }
            10 => self.state.iter_mut().for_each(|byte| *byte = rng.byte()),
            11 => self
                .state
                .iter_mut()
                .for_each(|byte| *byte = rng.below(3) as u8),
            12 => self.step_bytes(rng, step),
            13 => self.log = rng.pick(&[9, 9, 0, 1]),
            14 => self.outer(rng),
            15 if self.made_for == 2 => self.wrapped_cell(rng),
            _ => {}
        }
    }

    /// Changes one byte by little, or to a value that means something. A flag
    /// may become 2 or 255, which is still true.
    fn one_field(&mut self, rng: &mut Rng) {
        let at = self.where_it_matters(rng);
        let byte = self.state[at];
        self.state[at] = match rng.below(8) {
            0 => byte.wrapping_add(1),
            1 => byte.wrapping_sub(1),
            2 => u8::from(byte == 0),
            3 => rng.pick(&[0, 255]),
            4 => rng.pick(&[2, 16, 17, 8, 9]),
            5 => rng.byte(),
            _ => rng.below(8) as u8,
        };
    }

    /// A lock cell whose count is right only if sums wrap around.
    fn wrapped_cell(&mut self, rng: &mut Rng) {
        let width = usize::from(self.state[4]);
        let at = 10 + 3 * rng.below(width);
        let pending = 1 + rng.below(255) as u8;
        let guards = 255 - rng.below(usize::from(pending)) as u8;
        self.state[at..at + 3].copy_from_slice(&[pending.wrapping_add(guards), pending, guards]);
    }

    /// The long flat state mostly in its last bytes, its first clients and its
    /// first elements, where walks leave something to be damaged.
    fn where_it_matters(&self, rng: &mut Rng) -> usize {
        if self.made_for != 1 {
            return rng.below(self.state.len());
        }
        match rng.below(4) {
            0 => 336 + rng.below(4),
            1 => 16 * rng.below(4) + rng.pick(&[3, 7, 11, 12, 13, 14, 15]),
            2 => 256 + 5 * rng.below(4) + rng.pick(&[3, 4]),
            _ => rng.below(self.state.len()),
        }
    }

    fn step_bytes(&mut self, rng: &mut Rng, step: &Move) {
        match rng.below(8) {
            0 => self.step.clear(),
            1 => self.step.push(rng.byte()),
            2 => self.step.truncate(rng.below(self.step.len())),
            3 => self.step[1] = rng.pick(&[0, step.bytes()[0] + 1, 255, 1, 2]),
            4 => self.step[2] = rng.pick(&[0, 4, 5, 8, 9, 255, 1]),
            5 => self.step[0] = rng.pick(&[0, 1, 2, 3, 4, 5, 255]),
            6 => self.step.extend(step.bytes()),
            _ => {
                let at = rng.below(self.step.len());
                self.step[at] = rng.byte();
            }
        }
    }

    /// The kind handed over, or the length of the state.
    fn outer(&mut self, rng: &mut Rng) {
        match rng.below(5) {
            0 => self.kind = rng.pick(&[0, 5, 255]),
            1 => self.kind = rng.pick(&[1, 2, 3, 4]),
            2 => self.state.push(0),
            3 => self.state.truncate(self.state.len() - 1),
            _ => self.state.clear(),
        }
    }
}

/// A walk, at times from a state far away.
fn wander(model: &mut dyn Model, rng: &mut Rng) {
    let most = rng.pick(&[3, 12, 40, 80]);
    let steps = rng.below(most);
    run(model, rng, steps);
    if rng.below(3) == 0 {
        model.jump(rng);
        let more = rng.below(4);
        run(model, rng, more);
    }
}

fn run(model: &mut dyn Model, rng: &mut Rng, steps: usize) {
    for _ in 0..steps {
        let step = model.propose(rng, false);
        model.take(&step);
    }
}
