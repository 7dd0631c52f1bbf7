//! The pieces of a round, each by the instructions or by plain Rust.

use aead::{array::Array, consts::U16};

pub type Block = Array<u8, U16>;

macro_rules! by_either_path {
    ($piece:ident($($block:expr),+)) => {
        #[cfg(target_arch = "x86_64")]
        if crate::instructions_in_use() {
            // SAFETY: the processor has the instructions: `use_instructions` turns them on nowhere else.
            #[allow(unsafe_code)]
            return unsafe { crate::instructions::$piece($($block),+) };
        }
        crate::plain::$piece($($block),+)
    };
}

/// Substitute, turn the rows, mix the columns, XOR the key.
#[inline]
pub fn cipher_round(block: &mut Block, round_key: &Block) {
    #[cfg(feature = "count")]
    crate::count::count_round();
    by_either_path!(cipher_round(&mut block.0, &round_key.0));
}

/// The inverses of the three steps in the same order, then XOR the key, which the caller has unmixed.
#[inline]
pub fn equiv_inv_cipher_round(block: &mut Block, round_key: &Block) {
    #[cfg(feature = "count")]
    crate::count::count_round();
    by_either_path!(equiv_inv_cipher_round(&mut block.0, &round_key.0));
}

#[inline]
pub fn mix_columns(block: &mut Block) {
    by_either_path!(mix_columns(&mut block.0));
}

#[inline]
pub fn inv_mix_columns(block: &mut Block) {
    by_either_path!(inv_mix_columns(&mut block.0));
}

#[cfg(test)]
mod tests {
    use super::*;
    use crate::{instructions_present, use_instructions};

    /// FIPS 197, appendix B: the state at the start of round 2, its round key, and the state after it.
    const START: u128 = 0xa49c7ff2689f352b6b5bea43026a5049;
    const KEY: u128 = 0xf2c295f27a96b9435935807a7359f67f;
    const AFTER: u128 = 0xaa8f5f0361dde3ef82d24ad26832469a;

    fn block(bytes: u128) -> Block {
        Array(bytes.to_be_bytes())
    }

    fn with(mut start: Block, piece: impl Fn(&mut Block)) -> Block {
        piece(&mut start);
        start
    }

    fn on_both_paths(test: impl Fn()) {
        use_instructions(false);
        test();
        use_instructions(true);
        test();
    }

    #[test]
    fn a_round_of_the_standard() {
        on_both_paths(|| {
            let after = with(block(START), |b| cipher_round(b, &block(KEY)));
            assert_eq!(after.0, AFTER.to_be_bytes());
        });
    }

    #[test]
    fn an_inverse_round_undoes_a_round() {
        on_both_paths(|| {
            let unmixed = with(block(AFTER ^ KEY), inv_mix_columns);
            let substituted_back = with(unmixed, |b| equiv_inv_cipher_round(b, &block(0)));
            let start = with(substituted_back, mix_columns);
            assert_eq!(start.0, START.to_be_bytes());
        });
    }

    #[test]
    fn both_paths_agree() {
        if !instructions_present() {
            println!("no AES instructions here: there is only one path");
            return;
        }
        let mut state = block(START);
        for i in 0..100_000u128 {
            let key = block(KEY.wrapping_mul(2 * i + 1));
            let answers = [false, true].map(|wanted| {
                use_instructions(wanted);
                [
                    with(state, |b| cipher_round(b, &key)).0,
                    with(state, |b| equiv_inv_cipher_round(b, &key)).0,
                    with(state, mix_columns).0,
                    with(state, inv_mix_columns).0,
                ]
            });
            assert_eq!(answers[0], answers[1], "step {i}");
            state = Array(answers[0][i as usize % 2]);
        }
    }

    #[cfg(feature = "count")]
    #[test]
    fn rounds_are_counted_and_nothing_else() {
        let ((), rounds) = crate::count_rounds(|| {
            let mut state = block(START);
            mix_columns(&mut state);
            cipher_round(&mut state, &block(KEY));
            inv_mix_columns(&mut state);
            equiv_inv_cipher_round(&mut state, &block(KEY));
        });
        assert_eq!(rounds, 2);
    }
}
