//! Runs both engines on the same input and looks for a difference.

use crate::answer::{Answer, Single};
use crate::{native, twin};
use std::fmt;
use std::hint::black_box;

/// What was found to differ, with all that is needed to look at it.
pub struct Difference {
    pub what: &'static str,
    pub input: String,
    pub twin: String,
    pub native: String,
}

impl fmt::Display for Difference {
    fn fmt(&self, out: &mut fmt::Formatter) -> fmt::Result {
        writeln!(out, "difference: {}", self.what)?;
        writeln!(out, "  input  {}", self.input)?;
        writeln!(out, "  twin   {}", self.twin)?;
        write!(out, "  native {}", self.native)
    }
}

pub fn hex(bytes: &[u8]) -> String {
    bytes.iter().map(|byte| format!("{byte:02X}")).collect()
}

/// What one engine is lent and may write to.
#[derive(Default)]
struct Lent {
    input: Vec<u8>,
    log: Vec<u8>,
    /// The image of a replay, the state of a single step.
    state: Vec<u8>,
}

impl Lent {
    fn refill(&mut self, input: &[u8], log: &[u8], state: &[u8]) {
        for (buffer, bytes) in [
            (&mut self.input, input),
            (&mut self.log, log),
            (&mut self.state, state),
        ] {
            buffer.clear();
            buffer.extend_from_slice(bytes);
        }
    }

    fn show(&self, answer: &dyn fmt::Debug, logged: usize, imaged: usize) -> String {
        let front = |bytes: &[u8], len: usize| hex(&bytes[..len.min(bytes.len())]);
        let log = front(&self.log, logged);
        let state = front(&self.state, imaged);
        format!("{answer:?} log {log} state {state}")
    }
}

/// Both engines' buffers and the bytes they are filled with beforehand.
pub struct Pair {
    pattern: Vec<u8>,
    turn: usize,
    ours: Lent,
    theirs: Lent,
}

/// More than the largest buffer of any case.
const PATTERN: usize = 50_000;
const SHIFTS: usize = 251;

impl Default for Pair {
    fn default() -> Self {
        Pair::new()
    }
}

impl Pair {
    pub fn new() -> Self {
        let mut rng = crate::gen::rng::Rng::new(7);
        let pattern = (0..PATTERN + SHIFTS).map(|_| rng.byte()).collect();
        Pair {
            pattern,
            turn: 0,
            ours: Lent::default(),
            theirs: Lent::default(),
        }
    }

    /// Compares a replay; the other engine's answer is handed back.
    pub fn replay(&mut self, file: &[u8], log: usize, image: usize) -> Result<Answer, Difference> {
        self.turn = (self.turn + 1) % SHIFTS;
        let (log, image) = (&self.pattern[self.turn..][..log], &self.pattern[..image]);
        let (ours, theirs) = (&mut self.ours, &mut self.theirs);
        ours.refill(file, log, image);
        theirs.refill(file, log, image);
        let first = twin::replay(black_box(&ours.input), &mut ours.log, &mut ours.state);
        let second = native::replay(black_box(&theirs.input), &mut theirs.log, &mut theirs.state);
        let found = if first != second {
            Some("the answer")
        } else {
            differing(ours, theirs, file).or_else(|| {
                let (logged, imaged) = (first.logged, first.imaged);
                overwritten(ours, (logged, log), (imaged, image))
            })
        };
        match found {
            None => Ok(second),
            Some(what) => Err(Difference {
                what,
                input: format!("{} (log {}, state {})", hex(file), log.len(), image.len()),
                twin: ours.show(&first, first.logged, first.imaged),
                native: theirs.show(&second, second.logged, second.imaged),
            }),
        }
    }

    /// Compares a single step in the same way.
    pub fn single(
        &mut self,
        kind: u8,
        state: &[u8],
        step: &[u8],
        log: usize,
    ) -> Result<Single, Difference> {
        self.turn = (self.turn + 1) % SHIFTS;
        let log = &self.pattern[self.turn..][..log];
        let (ours, theirs) = (&mut self.ours, &mut self.theirs);
        ours.refill(step, log, state);
        theirs.refill(step, log, state);
        let first =
            twin::single::single(kind, &mut ours.state, black_box(&ours.input), &mut ours.log);
        let second = native::single(
            kind,
            &mut theirs.state,
            black_box(&theirs.input),
            &mut theirs.log,
        );
        let kept = if first.code == 0 { state.len() } else { 0 };
        let found = if first != second {
            Some("the answer")
        } else {
            differing(ours, theirs, step)
                .or_else(|| overwritten(ours, (first.logged, log), (kept, state)))
        };
        match found {
            None => Ok(second),
            Some(what) => Err(Difference {
                what,
                input: format!("kind {kind} state {} step {}", hex(state), hex(step)),
                twin: ours.show(&first, first.logged, state.len()),
                native: theirs.show(&second, second.logged, state.len()),
            }),
        }
    }
}

/// Whole buffers, the bytes beyond too, and the input left alone.
fn differing(ours: &Lent, theirs: &Lent, input: &[u8]) -> Option<&'static str> {
    if ours.log != theirs.log {
        Some("the log buffer")
    } else if ours.state != theirs.state {
        Some("the state buffer")
    } else if ours.input != input || theirs.input != input {
        Some("the input was written to")
    } else {
        None
    }
}

/// Bytes beyond what was written must keep their values, in both engines; as
/// the buffers are equal, a look at one is enough.
fn overwritten(
    ours: &Lent,
    (logged, log): (usize, &[u8]),
    (written, state): (usize, &[u8]),
) -> Option<&'static str> {
    if ours.log.get(logged..) != log.get(logged..) {
        Some("log bytes beyond the length told")
    } else if ours.state.get(written..) != state.get(written..) {
        Some("state bytes beyond the length told")
    } else {
        None
    }
}
