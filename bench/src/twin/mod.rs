//! The replayer in plain Rust, written from the scope and the four sources.
//!
//! This file holds the order of the codes; the bytes are in `schedule`, the
//! transitions in one file a machine.

mod bytes;
mod code;
mod counting;
mod flag;
mod flat;
mod flat_bytes;
mod lock;
mod schedule;
pub mod single;

pub use crate::answer::{Answer, Single};

use bytes::Out;
use code::Code;
use schedule::Steps;

/// Log bytes that must be there for each step of the file.
const LOG_PER_STEP: usize = 10;
/// Bytes that must be there for the image, whatever the machine.
const IMAGE_BYTES: usize = 512;

/// What the replayer and the single step ask of a machine. `read` and `apply`
/// are inlined everywhere: the loop over the steps is where the time goes.
trait Machine: Sized {
    type Step;
    const KIND: u8;
    /// Bytes of its parameters in the file.
    const PARAMETERS: usize;
    /// Step lengths by tag, tags counting from 1.
    const LENGTHS: &'static [u8];
    /// Bytes of its raw state at the single step.
    const RAW: usize;

    /// None when a parameter is outside its limits.
    fn fresh(parameters: &[u8]) -> Option<Self>;
    /// Reads a step without its length byte.
    fn read(step: &[u8]) -> Option<Self::Step>;
    /// Runs a step; a refused one changes and logs nothing.
    fn apply(&mut self, step: Self::Step, log: &mut Out) -> Result<(), Code>;
    fn image(&self, out: &mut Out);
    /// Reads a raw state of the right length; None when it isn't sound.
    fn load(raw: &[u8]) -> Option<Self>;
    fn store(&self, out: &mut Out);
}

/// Replays a schedule file, writing its log and the image of the last state.
pub fn replay(file: &[u8], log: &mut [u8], image: &mut [u8]) -> Answer {
    let (kind, rest) = match schedule::open(file) {
        Ok(parts) => parts,
        Err(code) => return refused(code, 0),
    };
    match kind {
        flat::Flat::KIND => run::<flat::Flat>(rest, log, image),
        lock::Lock::KIND => run::<lock::Lock>(rest, log, image),
        counting::Counting::KIND => run::<counting::Counting>(rest, log, image),
        flag::Flag::KIND => run::<flag::Flag>(rest, log, image),
        _ => refused(Code::Kind, 0),
    }
}

/// Everything from code 5 on, for one kind of machine.
fn run<M: Machine>(rest: &[u8], log: &mut [u8], image: &mut [u8]) -> Answer {
    let Some((parameters, steps)) = rest.split_at_checked(M::PARAMETERS) else {
        return refused(Code::Parameter, 0);
    };
    let Some(mut machine) = M::fresh(parameters) else {
        return refused(Code::Parameter, 0);
    };
    let count = match schedule::count(steps, M::LENGTHS) {
        Ok(count) => count,
        Err((code, place)) => return refused(code, place),
    };
    if log.len() < LOG_PER_STEP * count || image.len() < IMAGE_BYTES {
        return refused(Code::Buffer, 0);
    }
    let mut log = Out::new(log);
    let mut code = Code::Accepted;
    let mut place = 0;
    for bytes in Steps::new(steps) {
        let outcome = match M::read(bytes) {
            Some(step) => machine.apply(step, &mut log),
            // The first pass has let only whole steps through.
            None => Err(Code::Step),
        };
        if let Err(reason) = outcome {
            code = reason;
            break;
        }
        place += 1;
    }
    let mut image = Out::new(image);
    machine.image(&mut image);
    Answer {
        code: code as u8,
        place,
        logged: log.len(),
        imaged: image.len(),
    }
}

/// A refusal before anything is written.
fn refused(code: Code, place: usize) -> Answer {
    Answer {
        code: code as u8,
        place,
        logged: 0,
        imaged: 0,
    }
}
