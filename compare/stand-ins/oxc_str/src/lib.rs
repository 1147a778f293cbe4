//! Stands in for the crate of this name: a text is bytes with a flag.

#[derive(Clone, Copy)]
pub struct JSStr<'a> {
    bytes: &'a [u8],
    lone: bool,
}

impl<'a> JSStr<'a> {
    /// # Safety
    ///
    /// The bytes are well-formed WTF-8, and the flag is set precisely when they hold a surrogate.
    #[inline]
    pub unsafe fn new_unchecked(bytes: &'a [u8], lone: bool) -> Self {
        JSStr { bytes, lone }
    }

    #[inline]
    pub fn as_bytes(self) -> &'a [u8] {
        self.bytes
    }

    #[inline]
    pub fn has_lone_surrogate(self) -> bool {
        self.lone
    }
}
