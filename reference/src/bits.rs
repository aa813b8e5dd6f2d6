//! Fields of a plan: unsigned, the most significant bit first, one after the
//! other.

/// Reads fields from the front of a byte string.
pub(crate) struct BitReader<'a> {
    bytes: &'a [u8],
    /// The bit that is read next.
    position: usize,
}

impl<'a> BitReader<'a> {
    pub(crate) fn new(bytes: &'a [u8]) -> Self {
        BitReader { bytes, position: 0 }
    }

    /// The next field, of at most 32 bits, or `None` where the bytes end
    /// inside it.
    pub(crate) fn take(&mut self, width: usize) -> Option<u32> {
        let end = self.position + width;
        if end > 8 * self.bytes.len() {
            return None;
        }
        let mut value = 0;
        while self.position < end {
            let left = 8 - self.position % 8;
            let taken = left.min(end - self.position);
            let byte = u32::from(self.bytes[self.position / 8]);
            let chunk = (byte >> (left - taken)) & ((1 << taken) - 1);
            value = (value << taken) | chunk;
            self.position += taken;
        }
        Some(value)
    }

    /// The next field as a count, a number of a node or of a channel.
    pub(crate) fn number(&mut self, width: usize) -> Option<usize> {
        self.take(width).map(|value| value as usize)
    }

    /// A set of events in 31 bits, the first for event 1 and the last for
    /// event 31. In the result event e has weight 2^e.
    pub(crate) fn events(&mut self) -> Option<u32> {
        self.take(31).map(u32::reverse_bits)
    }

    /// Skips the filling bits of the byte begun. Says whether all are zero.
    pub(crate) fn skip_filling(&mut self) -> bool {
        let width = (8 - self.position % 8) % 8;
        self.take(width) == Some(0)
    }

    /// The byte that holds the bit read next.
    pub(crate) fn byte(&self) -> usize {
        self.position / 8
    }
}
