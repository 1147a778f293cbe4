//! A code buffer: each of its print functions appends.

#[derive(Default)]
pub struct CodeBuffer {
    bytes: Vec<u8>,
}

impl CodeBuffer {
    #[inline]
    pub fn len(&self) -> usize {
        self.bytes.len()
    }

    #[inline]
    pub fn is_empty(&self) -> bool {
        self.bytes.is_empty()
    }

    #[inline]
    pub fn as_bytes(&self) -> &[u8] {
        &self.bytes
    }

    /// Empties the buffer and keeps its room.
    #[inline]
    pub fn clear(&mut self) {
        self.bytes.clear();
    }

    #[inline]
    pub fn print_ascii_byte(&mut self, byte: u8) {
        assert!(byte.is_ascii());
        self.bytes.push(byte);
    }

    #[inline]
    pub fn print_ascii_bytes<const N: usize>(&mut self, bytes: [u8; N]) {
        assert!(bytes.is_ascii());
        self.bytes.extend_from_slice(&bytes);
    }

    #[inline]
    pub fn print_str(&mut self, text: &str) {
        self.bytes.extend_from_slice(text.as_bytes());
    }

    #[inline]
    pub fn print_str_short(&mut self, text: &str) {
        self.bytes.extend_from_slice(text.as_bytes());
    }

    /// # Safety
    ///
    /// The byte is ASCII.
    #[inline]
    pub unsafe fn print_byte_unchecked(&mut self, byte: u8) {
        self.bytes.push(byte);
    }

    /// # Safety
    ///
    /// The bytes are UTF-8.
    #[inline]
    pub unsafe fn print_bytes_unchecked(&mut self, bytes: &[u8]) {
        self.bytes.extend_from_slice(bytes);
    }
}
