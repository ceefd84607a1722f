//! Writing into a lent buffer and reading a raw state, front to back.

/// A lent buffer with the length written so far.
pub struct Out<'a> {
    buffer: &'a mut [u8],
    len: usize,
}

impl<'a> Out<'a> {
    pub fn new(buffer: &'a mut [u8]) -> Self {
        Out { buffer, len: 0 }
    }

    pub fn len(&self) -> usize {
        self.len
    }

    pub fn slice(&mut self, bytes: &[u8]) {
        let end = self.len + bytes.len();
        self.buffer[self.len..end].copy_from_slice(bytes);
        self.len = end;
    }

    /// The same for a length known beforehand, which costs a store or two.
    #[inline]
    pub fn put<const N: usize>(&mut self, bytes: [u8; N]) {
        let end = self.len + N;
        self.buffer[self.len..end].copy_from_slice(&bytes);
        self.len = end;
    }

    pub fn byte(&mut self, byte: u8) {
        self.put([byte]);
    }

    pub fn flag(&mut self, flag: bool) {
        self.byte(u8::from(flag));
    }

    #[inline]
    pub fn number(&mut self, number: u32) {
        self.put(number.to_be_bytes());
    }

    /// Whether it is there, then the number, or zeros.
    pub fn option(&mut self, number: Option<u32>) {
        self.flag(number.is_some());
        self.number(number.unwrap_or(0));
    }
}

/// A raw state, of which the front is taken off piece by piece. The caller
/// has tested its length.
pub struct Raw<'a>(pub &'a [u8]);

impl Raw<'_> {
    fn take<const N: usize>(&mut self) -> [u8; N] {
        let (piece, rest) = self.0.split_first_chunk().expect("the length was tested");
        self.0 = rest;
        *piece
    }

    pub fn byte(&mut self) -> u8 {
        let [byte] = self.take();
        byte
    }

    pub fn flag(&mut self) -> bool {
        self.byte() != 0
    }

    pub fn number(&mut self) -> u32 {
        u32::from_be_bytes(self.take())
    }
}
