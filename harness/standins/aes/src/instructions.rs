//! The pieces of a round by the AES instructions of x86-64.

use std::arch::x86_64::{
    __m128i, _mm_aesdec_si128, _mm_aesdeclast_si128, _mm_aesenc_si128, _mm_aesimc_si128,
    _mm_loadu_si128, _mm_setzero_si128, _mm_storeu_si128,
};

#[target_feature(enable = "aes")]
pub fn cipher_round(block: &mut [u8; 16], round_key: &[u8; 16]) {
    store(block, _mm_aesenc_si128(load(block), load(round_key)));
}

#[target_feature(enable = "aes")]
pub fn equiv_inv_cipher_round(block: &mut [u8; 16], round_key: &[u8; 16]) {
    store(block, _mm_aesdec_si128(load(block), load(round_key)));
}

/// There is no instruction that only mixes: the last inverse round, which doesn't unmix, takes back
/// beforehand the substitution and the turned rows of the round that does mix.
#[target_feature(enable = "aes")]
pub fn mix_columns(block: &mut [u8; 16]) {
    let no_key = _mm_setzero_si128();
    let taken_back = _mm_aesdeclast_si128(load(block), no_key);
    store(block, _mm_aesenc_si128(taken_back, no_key));
}

#[target_feature(enable = "aes")]
pub fn inv_mix_columns(block: &mut [u8; 16]) {
    store(block, _mm_aesimc_si128(load(block)));
}

#[allow(unsafe_code)]
#[inline]
fn load(block: &[u8; 16]) -> __m128i {
    // SAFETY: sixteen bytes are there to read, and this load asks for no alignment.
    unsafe { _mm_loadu_si128(block.as_ptr().cast()) }
}

#[allow(unsafe_code)]
#[inline]
fn store(block: &mut [u8; 16], value: __m128i) {
    // SAFETY: sixteen bytes are there to write, and this store asks for no alignment.
    unsafe { _mm_storeu_si128(block.as_mut_ptr().cast(), value) }
}
