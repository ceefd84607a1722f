//! One step on a state that the caller has made up.

use super::bytes::Out;
use super::code::Code;
use super::counting::Counting;
use super::flag::Flag;
use super::flat::Flat;
use super::lock::Lock;
use super::{Machine, Single, LOG_PER_STEP};

/// Runs `step` (its kind, then the step as in a file) on a raw state, which is
/// written back only when the step is accepted.
pub fn single(kind: u8, state: &mut [u8], step: &[u8], log: &mut [u8]) -> Single {
    let outcome = match kind {
        Flat::KIND => run::<Flat>(state, step, log),
        Lock::KIND => run::<Lock>(state, step, log),
        Counting::KIND => run::<Counting>(state, step, log),
        Flag::KIND => run::<Flag>(state, step, log),
        _ => Err(Code::Step),
    };
    match outcome {
        Ok(logged) => Single {
            code: Code::Accepted as u8,
            logged,
        },
        Err(code) => Single {
            code: code as u8,
            logged: 0,
        },
    }
}

/// Gives the bytes logged, or the first code in rising order after 6.
fn run<M: Machine>(state: &mut [u8], step: &[u8], log: &mut [u8]) -> Result<usize, Code> {
    if state.len() != M::RAW {
        return Err(Code::Step);
    }
    let step = read::<M>(step).ok_or(Code::Step)?;
    if log.len() < LOG_PER_STEP {
        return Err(Code::Buffer);
    }
    let mut machine = M::load(state).ok_or(Code::Unsound)?;
    let mut log = Out::new(log);
    machine.apply(step, &mut log)?;
    machine.store(&mut Out::new(state));
    Ok(log.len())
}

/// Reads exactly one whole step of this machine.
fn read<M: Machine>(bytes: &[u8]) -> Option<M::Step> {
    let [kind, length, step @ ..] = bytes else {
        return None;
    };
    if *kind != M::KIND || usize::from(*length) != step.len() {
        return None;
    }
    // Reading lets only steps through that have their tag's length.
    M::read(step)
}
