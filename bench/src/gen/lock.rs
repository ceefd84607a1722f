//! A light model of the lock: t(4) width cursor locked stored pending guard,
//! then 16 cells of count pending guards.

use super::model::{get, set, Model, Move};
use super::rng::Rng;

const WIDTH: usize = 4;
const CURSOR: usize = 5;
const LOCKED: usize = 6;
const STORED: usize = 7;
const PENDING: usize = 8;
const GUARD: usize = 9;
const CELLS: usize = 10;

pub struct Lock {
    raw: [u8; 58],
}

impl Lock {
    pub fn new(width: u8, t: u32) -> Self {
        let mut raw = [0; 58];
        set(&mut raw, 0, t);
        raw[WIDTH] = width;
        raw[STORED] = 1;
        Lock { raw }
    }

    fn cell(&self, r: u8) -> [u8; 3] {
        let at = CELLS + 3 * usize::from(r);
        [self.raw[at], self.raw[at + 1], self.raw[at + 2]]
    }

    fn set_cell(&mut self, r: u8, count: u8, pending: u8, guards: u8) {
        let at = CELLS + 3 * usize::from(r);
        self.raw[at..at + 3].copy_from_slice(&[count, pending, guards]);
    }

    fn on(&self, flag: usize) -> bool {
        self.raw[flag] != 0
    }

    fn pending_readers(&self) -> bool {
        (0..self.raw[WIDTH]).any(|r| self.cell(r)[1] > 0)
    }

    /// What the writer can do next, if there is one.
    fn writer_move(&self, rng: &mut Rng) -> Option<Move> {
        if self.on(GUARD) {
            return Some(Move::new(4).number(rng.number()));
        }
        if !self.on(PENDING) {
            return None;
        }
        let cursor = self.raw[CURSOR];
        if cursor == self.raw[WIDTH] {
            return Some(Move::new(3));
        }
        let [count, _, guards] = self.cell(cursor);
        match (count, guards) {
            (0, _) => Some(Move::new(2)),
            (_, 0) => None,
            _ => Some(Move::new(7).byte(cursor).number(get(&self.raw, 0))),
        }
    }

    fn reader_move(&self, rng: &mut Rng, patient: bool) -> Move {
        let r = rng.below(usize::from(self.raw[WIDTH])) as u8;
        let [count, pending, guards] = self.cell(r);
        // A reader that a writer still has to pass would stop it for good.
        let in_the_way = self.on(PENDING) && r >= self.raw[CURSOR];
        if pending > 0 && !self.on(LOCKED) && rng.below(3) > 0 {
            return Move::new(6).byte(r);
        }
        if guards > 0 && rng.below(3) > 0 || patient && (in_the_way || count == 255) {
            return Move::new(7).byte(r).number(get(&self.raw, 0));
        }
        Move::new(5).byte(r)
    }

    fn take_shared(&mut self, step: &Move) -> bool {
        let r = step.index();
        if r >= self.raw[WIDTH] {
            return false;
        }
        let [count, pending, guards] = self.cell(r);
        match step.tag() {
            5 if count < 255 => self.set_cell(r, count + 1, pending + 1, guards),
            6 if !self.on(LOCKED) && pending > 0 => {
                self.set_cell(r, count, pending - 1, guards + 1);
            }
            7 if guards > 0 && get(&self.raw, 0) == step.number_at(1) => {
                self.set_cell(r, count - 1, pending, guards - 1);
            }
            _ => return false,
        }
        true
    }
}

impl Model for Lock {
    fn parameters(&self, file: &mut Vec<u8>) {
        file.push(self.raw[WIDTH]);
        file.extend(&self.raw[..4]);
    }

    fn propose(&self, rng: &mut Rng, patient: bool) -> Move {
        if rng.below(3) > 0 {
            if let Some(step) = self.writer_move(rng) {
                return step;
            }
        }
        if !self.on(LOCKED) && rng.below(6) == 0 && !(patient && self.pending_readers()) {
            return Move::new(1);
        }
        self.reader_move(rng, patient)
    }

    fn wild(&self, rng: &mut Rng) -> Move {
        // While a writer is about, as a rule a step that has to do with it.
        let tag = match (self.on(PENDING), rng.below(3)) {
            (true, 0) if self.raw[CURSOR] == self.raw[WIDTH] => 2,
            (true, 0) => rng.pick(&[2, 2, 3]),
            (true, 1) => rng.pick(&[1, 6, 7]),
            _ => 1 + rng.below(7) as u8,
        };
        let t = if rng.below(2) == 0 {
            get(&self.raw, 0)
        } else {
            rng.number()
        };
        match tag {
            1..=3 => Move::new(tag),
            4 => Move::new(4).number(t),
            5 | 6 => Move::new(tag).byte(rng.index(self.raw[WIDTH])),
            _ => Move::new(7).byte(rng.index(self.raw[WIDTH])).number(t),
        }
    }

    fn take(&mut self, step: &Move) -> bool {
        let (cursor, width) = (self.raw[CURSOR], self.raw[WIDTH]);
        match step.tag() {
            1 if !self.on(LOCKED) => {
                self.raw[LOCKED] = 1;
                self.raw[PENDING] = 1;
            }
            2 if self.on(PENDING) && cursor < width && self.cell(cursor)[0] == 0 => {
                self.raw[CURSOR] += 1;
            }
            3 if self.on(PENDING) && cursor == width => {
                set(&mut self.raw, 0, 0);
                self.raw[CURSOR..CELLS].copy_from_slice(&[0, 1, 0, 0, 1]);
            }
            4 if self.on(GUARD) => {
                set(&mut self.raw, 0, step.number_at(0));
                self.raw[CURSOR..CELLS].copy_from_slice(&[0, 0, 1, 0, 0]);
            }
            5..=7 => return self.take_shared(step),
            _ => return false,
        }
        true
    }

    fn jump(&mut self, rng: &mut Rng) {
        let width = self.raw[WIDTH];
        let t = rng.number();
        // Free, a writer on its way, or a writer that holds the record.
        let way = rng.below(3);
        let cursor = if way == 1 {
            rng.below(usize::from(width) + 1) as u8
        } else {
            0
        };
        let flags = [[0, 1, 0, 0], [1, 1, 1, 0], [1, 0, 0, 1]][way];
        set(&mut self.raw, 0, if way == 2 { 0 } else { t });
        self.raw[CURSOR] = cursor;
        self.raw[LOCKED..CELLS].copy_from_slice(&flags);
        for r in 0..width {
            let count = rng.pick(&[0, 0, 1, 2, 254, 255, 255]);
            let free = way == 0 || way == 1 && r >= cursor;
            let guards = if free {
                rng.below(usize::from(count) + 1) as u8
            } else {
                0
            };
            self.set_cell(r, count, count - guards, guards);
        }
    }

    fn raw(&self) -> &[u8] {
        &self.raw
    }
}
