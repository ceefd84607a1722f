//! The codes, by the scope's numbers.

#[derive(Clone, Copy, Debug, PartialEq, Eq)]
#[repr(u8)]
pub enum Code {
    Accepted = 0,
    /// Under 4 bytes, or the body isn't as long as the file says.
    Length = 1,
    Version = 2,
    /// The body is over its limit.
    Body = 3,
    Kind = 4,
    Parameter = 5,
    /// A step that isn't whole, or a tag that isn't known.
    Step = 6,
    /// Bytes after the last step allowed.
    Surplus = 7,
    Buffer = 8,
    Unsound = 10,
    /// A client, cell or thread that the machine doesn't have.
    Outside = 11,
    Phase = 12,
    Cursor = 13,
    Slot = 14,
    Element = 15,
    /// A count that should be zero.
    Busy = 16,
    /// Without that very pending entry, guard or ref.
    Missing = 17,
    /// A count that can't rise.
    Full = 18,
}
