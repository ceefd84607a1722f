//! A light model of the flat combiner: 16 clients of rid(4) req(4) resp(4)
//! waiting asked told slot, 16 elements of rid(4) present, then count len idx
//! responding.

use super::model::{get, set, Model, Move};
use super::rng::Rng;

const WAITING: usize = 12;
const ASKED: usize = 13;
const TOLD: usize = 14;
const SLOT: usize = 15;
const ELEMENTS: usize = 256;
const COUNT: usize = 336;
const LEN: usize = 337;
const IDX: usize = 338;
const RESPONDING: usize = 339;

pub struct Flat {
    raw: [u8; 340],
}

impl Flat {
    pub fn new(clients: u8) -> Self {
        let mut raw = [0; 340];
        raw[COUNT] = clients;
        Flat { raw }
    }

    fn client(&self, i: u8) -> &[u8] {
        &self.raw[16 * usize::from(i)..][..16]
    }

    fn client_mut(&mut self, i: u8) -> &mut [u8] {
        &mut self.raw[16 * usize::from(i)..][..16]
    }

    fn element(&self, i: u8) -> Option<u32> {
        let at = ELEMENTS + 5 * usize::from(i);
        (self.raw[at + 4] != 0).then(|| get(&self.raw, at))
    }

    fn gather(&mut self, rid: Option<u32>) {
        let at = ELEMENTS + 5 * usize::from(self.raw[LEN]);
        set(&mut self.raw, at, rid.unwrap_or(0));
        self.raw[at + 4] = u8::from(rid.is_some());
        self.raw[LEN] += 1;
    }

    fn combiner_move(&self, rng: &mut Rng) -> Move {
        let (count, len, idx) = (self.raw[COUNT], self.raw[LEN], self.raw[IDX]);
        if self.raw[RESPONDING] != 0 {
            if idx == count {
                return Move::new(8);
            }
            return match self.element(idx) {
                Some(rid) => Move::new(6).number(rid).number(rng.number()),
                None => Move::new(7),
            };
        }
        if len == count {
            Move::new(5)
        } else if self.client(len)[SLOT] != 0 && rng.below(8) > 0 {
            Move::new(3)
        } else {
            Move::new(4)
        }
    }

    fn take_client(&mut self, step: &Move) -> bool {
        let j = step.index();
        if j >= self.raw[COUNT] {
            return false;
        }
        let client = self.client_mut(j);
        if step.tag() == 1 && client[WAITING] == 0 {
            set(client, 0, step.number_at(1));
            set(client, 4, step.number_at(5));
            client[WAITING..].copy_from_slice(&[1, 1, 0, 1]);
            return true;
        }
        if step.tag() == 2 && client[WAITING] != 0 && client[SLOT] == 0 {
            client.fill(0);
            return true;
        }
        false
    }

    fn take_collecting(&mut self, step: &Move) -> bool {
        let len = self.raw[LEN];
        let full = len == self.raw[COUNT];
        match step.tag() {
            3 if !full && self.client(len)[SLOT] != 0 => {
                let client = self.client_mut(len);
                set(client, 4, 0);
                client[ASKED] = 0;
                let rid = get(client, 0);
                self.gather(Some(rid));
            }
            4 if !full => self.gather(None),
            5 if full => self.raw[RESPONDING] = 1,
            _ => return false,
        }
        true
    }

    fn take_responding(&mut self, step: &Move) -> bool {
        let idx = self.raw[IDX];
        if idx == self.raw[COUNT] {
            if step.tag() == 8 {
                self.raw[ELEMENTS..COUNT].fill(0);
                self.raw[LEN..].fill(0);
            }
            return step.tag() == 8;
        }
        match (step.tag(), self.element(idx)) {
            (6, Some(rid)) if rid == step.number_at(0) => {
                let client = self.client_mut(idx);
                set(client, 8, step.number_at(4));
                client[TOLD] = 1;
                client[SLOT] = 0;
            }
            (7, None) => {}
            _ => return false,
        }
        self.raw[IDX] += 1;
        true
    }
}

impl Model for Flat {
    fn parameters(&self, file: &mut Vec<u8>) {
        file.push(self.raw[COUNT]);
    }

    fn propose(&self, rng: &mut Rng, _patient: bool) -> Move {
        let count = self.raw[COUNT];
        if count == 0 || rng.below(2) == 0 {
            return self.combiner_move(rng);
        }
        let j = rng.below(usize::from(count)) as u8;
        match (self.client(j)[WAITING], self.client(j)[SLOT]) {
            (0, _) => Move::new(1)
                .byte(j)
                .number(rng.number())
                .number(rng.number()),
            (_, 0) => Move::new(2).byte(j),
            _ => self.combiner_move(rng),
        }
    }

    fn wild(&self, rng: &mut Rng) -> Move {
        // Every other time a step of the combiner's own mode.
        let tag = match (rng.below(2), self.raw[RESPONDING]) {
            (0, 0) => 3 + rng.below(3) as u8,
            (0, _) => 6 + rng.below(3) as u8,
            _ => 1 + rng.below(8) as u8,
        };
        match tag {
            1 => {
                let j = rng.index(self.raw[COUNT]);
                Move::new(1)
                    .byte(j)
                    .number(rng.number())
                    .number(rng.number())
            }
            2 => Move::new(2).byte(rng.index(self.raw[COUNT])),
            6 => Move::new(6).number(rng.number()).number(rng.number()),
            _ => Move::new(tag),
        }
    }

    fn take(&mut self, step: &Move) -> bool {
        if step.tag() <= 2 {
            return self.take_client(step);
        }
        if self.raw[RESPONDING] == 0 {
            self.take_collecting(step)
        } else {
            self.take_responding(step)
        }
    }

    fn jump(&mut self, rng: &mut Rng) {
        // Answered elements are free: any id, or none.
        if self.raw[RESPONDING] == 0 {
            return;
        }
        for i in 0..usize::from(self.raw[IDX]) {
            let at = ELEMENTS + 5 * i;
            let present = rng.below(2) as u8;
            set(
                &mut self.raw,
                at,
                if present == 1 { rng.number() } else { 0 },
            );
            self.raw[at + 4] = present;
        }
    }

    fn raw(&self) -> &[u8] {
        &self.raw
    }
}
