//! A light model of the flag: threads pending value places[8].

use super::model::{Model, Move};
use super::rng::Rng;

const PENDING: usize = 1;
const VALUE: usize = 2;
const PLACES: usize = 3;

pub struct Flag {
    raw: [u8; 11],
}

impl Flag {
    pub fn new(threads: u8, value: u8) -> Self {
        let mut raw = [0; 11];
        raw[0] = threads;
        raw[VALUE] = value;
        Flag { raw }
    }

    fn place(&self, thread: u8) -> u8 {
        self.raw[PLACES + usize::from(thread)]
    }

    /// Where a move from `place` leads.
    fn next(&mut self, place: u8) -> u8 {
        match (place, self.raw[PENDING], self.raw[VALUE]) {
            (1, 1, _) => {
                self.raw[PENDING] = 2;
                0
            }
            (2, _, 1) | (3, _, 0) => {
                self.raw[VALUE] ^= 1;
                0
            }
            (4, 0, _) => {
                self.raw[PENDING] = 1;
                5
            }
            (4, _, _) => 1,
            (5, 1, _) => {
                self.raw[PENDING] = 0;
                1
            }
            (6, _, _) => {
                self.raw[PENDING] = 0;
                0
            }
            _ => place + 1,
        }
    }
}

impl Model for Flag {
    fn parameters(&self, file: &mut Vec<u8>) {
        file.extend([self.raw[0], self.raw[VALUE]]);
    }

    fn propose(&self, rng: &mut Rng, _patient: bool) -> Move {
        let thread = rng.below(usize::from(self.raw[0])) as u8;
        if self.place(thread) != 0 {
            return Move::new(2).byte(thread);
        }
        Move::new(rng.pick(&[1, 1, 1, 3])).byte(thread)
    }

    fn wild(&self, rng: &mut Rng) -> Move {
        Move::new(1 + rng.below(3) as u8).byte(rng.index(self.raw[0]))
    }

    fn take(&mut self, step: &Move) -> bool {
        let thread = step.index();
        if thread >= self.raw[0] {
            return false;
        }
        let place = self.place(thread);
        let next = match (step.tag(), place) {
            (1, 0) => 1,
            (3, 0) => 0,
            (2, 1..) => self.next(place),
            _ => return false,
        };
        self.raw[PLACES + usize::from(thread)] = next;
        true
    }

    fn jump(&mut self, rng: &mut Rng) {
        let threads = usize::from(self.raw[0]);
        for place in &mut self.raw[PLACES..PLACES + threads] {
            *place = rng.below(5) as u8;
        }
        let pending = rng.below(3) as u8;
        self.raw[PENDING] = pending;
        self.raw[VALUE] = rng.below(2) as u8;
        if pending > 0 {
            let offering = if pending == 2 { rng.pick(&[5, 6]) } else { 5 };
            self.raw[PLACES + rng.below(threads)] = offering;
        }
    }

    fn raw(&self) -> &[u8] {
        &self.raw
    }
}
