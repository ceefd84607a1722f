//! The counting machine, after `counting.rs`.

use super::bytes::{Out, Raw};
use super::code::Code;
use super::Machine;

/// The main counter and, beside it, the refs given out. All refs carry the
/// stored value, so their number is enough.
#[derive(Clone, Copy)]
struct Counter {
    t: u32,
    count: u8,
    refs: u8,
}

/// No counter means writeable: nothing stored, no refs.
pub struct Counting {
    counter: Option<Counter>,
}

pub enum Step {
    WriteableToReadable { t: u32 },
    ReadableToWriteable,
    NewRef,
    DeleteRef { t: u32 },
}

impl Counting {
    fn counter(&mut self) -> Result<&mut Counter, Code> {
        self.counter.as_mut().ok_or(Code::Phase)
    }

    fn writeable_to_readable(&mut self, t: u32) -> Result<(), Code> {
        if self.counter.is_some() {
            return Err(Code::Phase);
        }
        self.counter = Some(Counter {
            t,
            count: 0,
            refs: 0,
        });
        Ok(())
    }

    fn readable_to_writeable(&mut self, log: &mut Out) -> Result<(), Code> {
        let counter = self.counter()?;
        if counter.count != 0 {
            return Err(Code::Busy);
        }
        let t = counter.t;
        self.counter = None;
        log.put([5, 1]);
        log.number(t);
        Ok(())
    }

    fn new_ref(&mut self, log: &mut Out) -> Result<(), Code> {
        let counter = self.counter()?;
        counter.count = counter.count.checked_add(1).ok_or(Code::Full)?;
        counter.refs += 1;
        log.put([5, 2]);
        log.number(counter.t);
        Ok(())
    }

    fn delete_ref(&mut self, t: u32) -> Result<(), Code> {
        let counter = self.counter()?;
        if counter.refs == 0 || counter.t != t {
            return Err(Code::Missing);
        }
        counter.refs -= 1;
        counter.count -= 1;
        Ok(())
    }
}

impl Machine for Counting {
    type Step = Step;
    const KIND: u8 = 3;
    const PARAMETERS: usize = 0;
    const LENGTHS: &'static [u8] = &[5, 1, 1, 5];
    const RAW: usize = 7;

    fn fresh(_parameters: &[u8]) -> Option<Self> {
        Some(Counting { counter: None })
    }

    #[inline(always)]
    fn read(step: &[u8]) -> Option<Step> {
        Some(match *step {
            [1, a, b, c, d] => Step::WriteableToReadable {
                t: u32::from_be_bytes([a, b, c, d]),
            },
            [2] => Step::ReadableToWriteable,
            [3] => Step::NewRef,
            [4, a, b, c, d] => Step::DeleteRef {
                t: u32::from_be_bytes([a, b, c, d]),
            },
            _ => return None,
        })
    }

    #[inline(always)]
    fn apply(&mut self, step: Step, log: &mut Out) -> Result<(), Code> {
        match step {
            Step::WriteableToReadable { t } => self.writeable_to_readable(t),
            Step::ReadableToWriteable => self.readable_to_writeable(log),
            Step::NewRef => self.new_ref(log),
            Step::DeleteRef { t } => self.delete_ref(t),
        }
    }

    fn image(&self, out: &mut Out) {
        out.option(self.counter.map(|counter| counter.t));
        out.byte(self.counter.map_or(0, |counter| counter.count));
        out.byte(self.counter.map_or(0, |counter| counter.refs));
    }

    fn load(raw: &[u8]) -> Option<Self> {
        let mut raw = Raw(raw);
        let counter = Counter {
            t: raw.number(),
            count: raw.byte(),
            refs: raw.byte(),
        };
        let present = raw.flag();
        let sound = if present {
            counter.count == counter.refs
        } else {
            counter.t == 0 && counter.count == 0 && counter.refs == 0
        };
        sound.then_some(Counting {
            counter: present.then_some(counter),
        })
    }

    fn store(&self, out: &mut Out) {
        let counter = self.counter.unwrap_or(Counter {
            t: 0,
            count: 0,
            refs: 0,
        });
        out.number(counter.t);
        out.put([counter.count, counter.refs]);
        out.flag(self.counter.is_some());
    }
}
