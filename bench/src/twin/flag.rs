//! The flag with helping, after `helping.rs`: the loop of `flip` as moves.

use super::bytes::{Out, Raw};
use super::code::Code;
use super::Machine;

const MAX_THREADS: usize = 8;
const IDLE: u8 = 0;
/// The thread offers its flip to whoever comes to cancel it.
const OFFERING: u8 = 5;
const LAST_PLACE: u8 = 6;

pub struct Flag {
    value: bool,
    pending: u8,
    /// Where each thread stands in its flip.
    places: Vec<u8>,
}

pub enum Step {
    Begin { thread: u8 },
    Move { thread: u8 },
    Read { thread: u8 },
}

impl Flag {
    fn place(&self, thread: u8) -> Result<u8, Code> {
        self.places
            .get(usize::from(thread))
            .copied()
            .ok_or(Code::Outside)
    }

    fn begin(&mut self, thread: u8) -> Result<(), Code> {
        if self.place(thread)? != IDLE {
            return Err(Code::Phase);
        }
        self.places[usize::from(thread)] = 1;
        Ok(())
    }

    fn read(&self, thread: u8, log: &mut Out) -> Result<(), Code> {
        if self.place(thread)? != IDLE {
            return Err(Code::Phase);
        }
        log.put([3, 2, thread, u8::from(self.value)]);
        Ok(())
    }

    fn step_on(&mut self, thread: u8, log: &mut Out) -> Result<(), Code> {
        let next = match self.place(thread)? {
            IDLE => return Err(Code::Phase),
            1 => self.cancel_two(thread, log),
            2 => self.flip_from(true, thread, log),
            3 => self.flip_from(false, thread, log),
            4 => self.exchange(0, 1, OFFERING, 1),
            OFFERING => self.exchange(1, 0, 1, LAST_PLACE),
            _ => {
                self.pending = 0;
                IDLE
            }
        };
        self.places[usize::from(thread)] = next;
        Ok(())
    }

    /// Place 1: takes up an offer; both flips happen at once and cancel out.
    fn cancel_two(&mut self, thread: u8, log: &mut Out) -> u8 {
        if self.pending != 1 {
            return 2;
        }
        self.pending = 2;
        // Pending 1 means that one thread stands at 5.
        if let Some(offering) = self.places.iter().position(|&place| place == OFFERING) {
            log.put([2, 1, offering as u8]);
        }
        log.put([2, 1, thread]);
        IDLE
    }

    /// Places 2 and 3: a plain flip, if the value is the one looked for.
    fn flip_from(&mut self, from: bool, thread: u8, log: &mut Out) -> u8 {
        if self.value == from {
            self.value = !from;
            log.put([2, 1, thread]);
            IDLE
        } else if from {
            3
        } else {
            4
        }
    }

    /// Places 4 and 5: pending goes from one number to another, if it is there.
    fn exchange(&mut self, from: u8, to: u8, done: u8, failed: u8) -> u8 {
        if self.pending == from {
            self.pending = to;
            done
        } else {
            failed
        }
    }

    /// How the shared number and the threads at 5 and 6 agree.
    fn sound(&self) -> bool {
        let at = |wanted: u8| self.places.iter().filter(|&&place| place == wanted).count();
        let (offering, leaving) = (at(OFFERING), at(LAST_PLACE));
        let agree = match self.pending {
            0 => offering == 0 && leaving == 0,
            1 => offering == 1 && leaving == 0,
            2 => offering + leaving == 1,
            _ => false,
        };
        agree && self.places.iter().all(|&place| place <= LAST_PLACE)
    }
}

impl Machine for Flag {
    type Step = Step;
    const KIND: u8 = 4;
    const PARAMETERS: usize = 2;
    const LENGTHS: &'static [u8] = &[2, 2, 2];
    const RAW: usize = 11;

    fn fresh(parameters: &[u8]) -> Option<Self> {
        let &[threads, value] = parameters else {
            return None;
        };
        let threads = usize::from(threads);
        if !(1..=MAX_THREADS).contains(&threads) || value > 1 {
            return None;
        }
        Some(Flag {
            value: value == 1,
            pending: 0,
            places: vec![IDLE; threads],
        })
    }

    #[inline(always)]
    fn read(step: &[u8]) -> Option<Step> {
        Some(match *step {
            [1, thread] => Step::Begin { thread },
            [2, thread] => Step::Move { thread },
            [3, thread] => Step::Read { thread },
            _ => return None,
        })
    }

    #[inline(always)]
    fn apply(&mut self, step: Step, log: &mut Out) -> Result<(), Code> {
        match step {
            Step::Begin { thread } => self.begin(thread),
            Step::Move { thread } => self.step_on(thread, log),
            Step::Read { thread } => Flag::read(self, thread, log),
        }
    }

    fn image(&self, out: &mut Out) {
        out.flag(self.value);
        out.byte(self.pending);
        out.slice(&self.places);
    }

    fn load(raw: &[u8]) -> Option<Self> {
        let mut raw = Raw(raw);
        let threads = usize::from(raw.byte());
        let pending = raw.byte();
        let value = raw.flag();
        if !(1..=MAX_THREADS).contains(&threads) {
            return None;
        }
        let (used, unused) = raw.0.split_at(threads);
        if unused.iter().any(|&place| place != 0) {
            return None;
        }
        let flag = Flag {
            value,
            pending,
            places: used.to_vec(),
        };
        flag.sound().then_some(flag)
    }

    fn store(&self, out: &mut Out) {
        out.put([self.places.len() as u8, self.pending]);
        out.flag(self.value);
        out.slice(&self.places);
        // Places beyond the threads are zero in every sound state already.
    }
}
