//! The inputs: what is tried on each kind.

mod alphabet;
mod damage;
mod mixed;
mod sequences;

pub use alphabet::{ESCAPES, LITERAL, LITERAL_CORE, NAME, QUOTING, RAW, RAW_CORE};
pub use damage::damaged;
pub use mixed::{mixed, mixed_of_length};
pub use sequences::{byte_sequences, code_point_escapes, code_points, every_sequence, surrogate_pairs, tag_lookalikes};
