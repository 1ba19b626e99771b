//! The pricing of a month and the book of a point in plain Rust, written from `docs/` alone.
//! Nothing of `crates/` is read or called here.

pub mod book;
pub mod pricing;
pub mod rates;
pub mod riders;

/// The four numbers of a refusal (`docs/REFUSALS.md`).
#[derive(Clone, Copy, PartialEq, Eq, Debug, Default)]
pub struct Refusal {
    pub number: u32,
    pub month: u32,
    pub place: u64,
    pub rider: u32,
}

impl Refusal {
    pub fn new(number: u32, month: u32, place: u64) -> Refusal {
        Refusal {
            number,
            month,
            place,
            rider: 0,
        }
    }
}

/// The place, from 1, of the first figure outside its limits.
pub fn check_figures(figures: &[(i64, i64, i64)]) -> Result<(), Refusal> {
    match figures
        .iter()
        .position(|(value, low, high)| value < low || high < value)
    {
        Some(at) => Err(Refusal::new(18, 0, at as u64 + 1)),
        None => Ok(()),
    }
}
