//! The crate `deoxys` to compare with: its own three files over the stand-ins, behind one pair of
//! functions. `GIVEN` says whether DEOXYS_SRC named them when this was built.
#![forbid(unsafe_code)]

#[cfg(not(crate_given))]
mod absent;
#[cfg(crate_given)]
mod given;

#[cfg(not(crate_given))]
pub use absent::{open, seal};
#[cfg(crate_given)]
pub use given::{open, seal};

// deoxys_bc.rs asks for these by `crate::`: in its own package they are in the root.
#[cfg(crate_given)]
use given::{DeoxysBcType, DeoxysKey, Tweak};

pub use aes::{COUNTS_ROUNDS, instructions_present, use_instructions};

pub const GIVEN: bool = cfg!(crate_given);

/// Runs `work` and gives the number of block cipher calls that the crate made in it, all of one suite.
#[cfg(feature = "count")]
pub fn count_calls<R>(suite: u8, work: impl FnOnce() -> R) -> (R, usize) {
    let rounds_of_a_call = match suite {
        1 | 3 => 14,
        _ => 16,
    };
    let (result, rounds) = aes::count_rounds(work);
    assert!(rounds.is_multiple_of(rounds_of_a_call));
    (result, (rounds / rounds_of_a_call) as usize)
}
