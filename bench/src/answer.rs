//! What an engine tells, the same types for both engines.

/// The answer to a whole schedule.
#[derive(Clone, Copy, Debug, PartialEq, Eq)]
pub struct Answer {
    pub code: u8,
    pub place: usize,
    /// Bytes of the log buffer that hold entries.
    pub logged: usize,
    /// Bytes of the state buffer that hold the image.
    pub imaged: usize,
}

/// The answer to one step on a given state.
#[derive(Clone, Copy, Debug, PartialEq, Eq)]
pub struct Single {
    pub code: u8,
    pub logged: usize,
}
