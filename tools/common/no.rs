//! The refusals that should come, as document 01's sentences say them.

/// A refusal: its number, its place, and which part of its sentence applies.
#[derive(Clone, Copy, Debug, PartialEq, Eq)]
pub struct No {
    pub number: u32,
    pub place: u64,
    pub why: &'static str,
}

pub fn no<T>(number: u32, place: usize, why: &'static str) -> Result<T, No> {
    let place = place as u64;
    Err(No { number, place, why })
}
