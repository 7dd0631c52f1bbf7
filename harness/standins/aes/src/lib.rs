//! A stand-in for the crate `aes`: the four pieces of a round that the Deoxys crate takes from its
//! `hazmat`, written from FIPS 197. They use the processor's AES instructions where the calling thread
//! asked for them, which is all that a round tests. With the feature `count` it is counted as well.
#![deny(unsafe_code)]

#[cfg(feature = "count")]
mod count;
pub mod hazmat;
#[cfg(target_arch = "x86_64")]
mod instructions;
mod plain;

#[cfg(feature = "count")]
pub use count::count_rounds;

use std::cell::Cell;

/// Whether rounds are counted, which makes them slower.
pub const COUNTS_ROUNDS: bool = cfg!(feature = "count");

thread_local! {
    /// On only where the processor has the instructions.
    static BY_INSTRUCTIONS: Cell<bool> = const { Cell::new(false) };
}

/// Whether this processor has AES instructions that the stand-in can use.
pub fn instructions_present() -> bool {
    #[cfg(target_arch = "x86_64")]
    return std::arch::is_x86_feature_detected!("aes");
    #[cfg(not(target_arch = "x86_64"))]
    return false;
}

/// Whether this thread uses the AES instructions, where there are any. At first it doesn't.
pub fn use_instructions(wanted: bool) {
    BY_INSTRUCTIONS.set(wanted && instructions_present());
}

#[cfg(target_arch = "x86_64")]
#[inline]
fn instructions_in_use() -> bool {
    BY_INSTRUCTIONS.get()
}
