//! The schedule file: front bytes, body, and where its steps begin and end.

use super::code::Code;

const VERSION: u8 = 1;
const MAX_BODY: usize = 49_152;
const MAX_STEPS: usize = 4_096;

/// Tests the front bytes; gives the kind and what follows it.
pub fn open(file: &[u8]) -> Result<(u8, &[u8]), Code> {
    let [version, high, low, kind, rest @ ..] = file else {
        return Err(Code::Length);
    };
    let said = usize::from(u16::from_be_bytes([*high, *low]));
    let body = 1 + rest.len();
    if said != body {
        return Err(Code::Length);
    }
    if *version != VERSION {
        return Err(Code::Version);
    }
    if body > MAX_BODY {
        return Err(Code::Body);
    }
    Ok((*kind, rest))
}

/// The first pass: how many steps there are, or the first that isn't whole.
pub fn count(steps: &[u8], lengths: &[u8]) -> Result<usize, (Code, usize)> {
    let mut rest = steps;
    let mut count = 0;
    while !rest.is_empty() {
        if count == MAX_STEPS {
            return Err((Code::Surplus, count));
        }
        rest = after_step(rest, lengths).ok_or((Code::Step, count))?;
        count += 1;
    }
    Ok(count)
}

/// What follows the first step, if that step is whole and its tag known.
fn after_step<'a>(bytes: &'a [u8], lengths: &[u8]) -> Option<&'a [u8]> {
    let (&length, rest) = bytes.split_first()?;
    let (step, rest) = rest.split_at_checked(usize::from(length))?;
    let &tag = step.first()?;
    let &due = lengths.get(usize::from(tag).checked_sub(1)?)?;
    (length == due).then_some(rest)
}

/// The second pass: each step without its length byte.
pub struct Steps<'a>(&'a [u8]);

impl<'a> Steps<'a> {
    pub fn new(steps: &'a [u8]) -> Self {
        Steps(steps)
    }
}

impl<'a> Iterator for Steps<'a> {
    type Item = &'a [u8];

    fn next(&mut self) -> Option<&'a [u8]> {
        let (&length, rest) = self.0.split_first()?;
        let (step, rest) = rest.split_at_checked(usize::from(length))?;
        self.0 = rest;
        Some(step)
    }
}
