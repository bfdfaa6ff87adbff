//! "All numbers are big-endian."

/// Bytes that are read from the front, one field after the other. Nothing is read past the end.
pub struct Source<'a> {
    rest: &'a [u8],
}

impl<'a> Source<'a> {
    pub fn new(bytes: &'a [u8]) -> Source<'a> {
        Source { rest: bytes }
    }

    /// The source that starts so many bytes further on.
    pub fn starting_at(bytes: &'a [u8], place: usize) -> Option<Source<'a>> {
        bytes.get(place..).map(Source::new)
    }

    pub fn rest(&self) -> &'a [u8] {
        self.rest
    }

    fn take<const WIDTH: usize>(&mut self) -> Option<[u8; WIDTH]> {
        let field = self.rest.get(..WIDTH)?.try_into().ok()?;
        self.rest = &self.rest[WIDTH..];
        Some(field)
    }

    pub fn one(&mut self) -> Option<u8> {
        self.take().map(u8::from_be_bytes)
    }

    pub fn four(&mut self) -> Option<u32> {
        self.take().map(u32::from_be_bytes)
    }

    pub fn eight(&mut self) -> Option<u64> {
        self.take().map(u64::from_be_bytes)
    }
}

/// Puts bytes over the start of a buffer; what lies behind them stays.
pub fn put(buffer: &mut [u8], bytes: &[u8]) {
    for (place, byte) in buffer.iter_mut().zip(bytes) {
        *place = *byte;
    }
}
