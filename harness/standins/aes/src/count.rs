//! How many rounds a thread made.

use std::cell::Cell;

thread_local! {
    static ROUNDS: Cell<u64> = const { Cell::new(0) };
}

/// Runs `work` and gives the number of rounds, forward and inverse, that this thread made in it.
///
/// Rounds stand for block calls: nothing that the Deoxys crate calls is called once in each block call
/// and nowhere else (it XORs the first key as it XORs keystream), but a block call makes exactly one
/// round for each round key after the first, 14 or 16, and no round is made outside block calls.
pub fn count_rounds<R>(work: impl FnOnce() -> R) -> (R, u64) {
    let before = ROUNDS.get();
    let result = work();
    (result, ROUNDS.get() - before)
}

#[inline]
pub fn count_round() {
    ROUNDS.set(ROUNDS.get() + 1);
}
