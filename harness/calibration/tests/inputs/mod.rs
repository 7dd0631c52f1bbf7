//! What both test programs seal with.

use calibration::Suite;

pub const DATA: [u8; 18] = *b"eighteen bytes, ad";

pub fn key(suite: &Suite) -> Vec<u8> {
    (1..=suite.key_length as u8).collect()
}

pub fn nonce(suite: &Suite) -> Vec<u8> {
    (101..=100 + suite.nonce_length as u8).collect()
}
