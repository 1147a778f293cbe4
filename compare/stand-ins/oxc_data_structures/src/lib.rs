//! Stands in for the crate of this name: the code buffer, and looking ahead in a slice's iterator.

pub mod code_buffer;
pub mod slice_iter;

/// Lets the compiler rely on a condition. It is called inside `unsafe`.
#[macro_export]
macro_rules! assert_unchecked {
    ($condition:expr) => {
        ::core::hint::assert_unchecked($condition)
    };
}
