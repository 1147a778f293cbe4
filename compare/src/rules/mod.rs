//! The rules once more, written slowly and plainly over code points, from WTF-8, ECMA-262 and the list of rules in
//! docs/FORMAT.md. Nothing here is shared with the library or the crate, so it can speak against either.

pub mod laws;
mod printing;
mod refusals;
mod value;
mod wtf8;

pub use printing::print;
pub use refusals::{Refusal, holds_surrogate, refusal};
pub use wtf8::encode;

/// Whether the code points are those of these ASCII characters.
fn starts_with_ignoring_case(points: &[u32], letters: &str) -> bool {
    let small = |point: u32| char::from_u32(point).map(|c| c.to_ascii_lowercase());
    points.len() >= letters.len() && points.iter().zip(letters.chars()).all(|(&p, c)| small(p) == Some(c))
}
