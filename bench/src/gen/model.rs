//! What a walk needs of a machine. The models keep the raw layout of the
//! single step and share no code with the twin.

use super::rng::Rng;

/// One step as it stands in a file: length byte, tag, numbers.
#[derive(Clone, Copy)]
pub struct Move {
    bytes: [u8; 11],
}

impl Move {
    pub fn new(tag: u8) -> Self {
        let mut bytes = [0; 11];
        bytes[0] = 1;
        bytes[1] = tag;
        Move { bytes }
    }

    pub fn byte(mut self, byte: u8) -> Self {
        self.bytes[0] += 1;
        self.bytes[usize::from(self.bytes[0])] = byte;
        self
    }

    pub fn number(self, number: u32) -> Self {
        number
            .to_be_bytes()
            .iter()
            .fold(self, |step, &byte| step.byte(byte))
    }

    pub fn bytes(&self) -> &[u8] {
        &self.bytes[..=usize::from(self.bytes[0])]
    }

    pub fn tag(&self) -> u8 {
        self.bytes[1]
    }

    /// The client, cell or thread of a step that begins with one.
    pub fn index(&self) -> u8 {
        self.bytes[2]
    }

    /// The number that begins `at` bytes after the tag.
    pub fn number_at(&self, at: usize) -> u32 {
        get(&self.bytes, 2 + at)
    }
}

pub fn get(raw: &[u8], at: usize) -> u32 {
    u32::from_be_bytes([raw[at], raw[at + 1], raw[at + 2], raw[at + 3]])
}

pub fn set(raw: &mut [u8], at: usize, number: u32) {
    raw[at..at + 4].copy_from_slice(&number.to_be_bytes());
}

pub trait Model {
    /// Appends the parameters of the fresh machine.
    fn parameters(&self, file: &mut Vec<u8>);
    /// A step that is enabled as a rule. `patient` leaves out those after
    /// which a long walk could come to a halt.
    fn propose(&self, rng: &mut Rng, patient: bool) -> Move;
    /// A whole step of any tag, enabled or not.
    fn wild(&self, rng: &mut Rng) -> Move;
    /// Runs the step and says true if it is enabled, else changes nothing.
    fn take(&mut self, step: &Move) -> bool;
    /// Goes to a sound state far away, counters near their limit.
    fn jump(&mut self, rng: &mut Rng);
    fn raw(&self) -> &[u8];
}

/// A fresh machine of a kind, small as a rule, often at its limits.
pub fn fresh(kind: u8, rng: &mut Rng) -> Box<dyn Model> {
    match kind {
        1 => {
            let clients = rng.pick(&[0, 1, 1, 2, 2, 3, 4, 5, 8, 15, 16]);
            Box::new(super::flat::Flat::new(clients))
        }
        2 => {
            let width = rng.pick(&[1, 1, 1, 2, 2, 3, 4, 8, 15, 16]);
            Box::new(super::lock::Lock::new(width, rng.number()))
        }
        3 => Box::new(super::counting::Counting::new()),
        _ => {
            let threads = rng.pick(&[1, 2, 2, 3, 4, 7, 8]);
            Box::new(super::flag::Flag::new(threads, rng.below(2) as u8))
        }
    }
}
