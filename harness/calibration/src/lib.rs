//! The library `libcalibration.a` from Rust: Deoxys sealing and opening in place, Deoxys-I sealing by pieces,
//! and the house record written and read; slices in, a `Result` out.
#![deny(unsafe_code)]
#![deny(unsafe_op_in_unsafe_fn)]

#[allow(unsafe_code)]
pub mod ffi;
mod pieces;
mod records;
mod suite;

pub use pieces::{Pieces, Refused};
pub use records::{
    BUNDLE_LIMIT, BUNDLE_RECORDS, CIPHER_LIMIT, Found, NOTE_LIMIT, RECORD_LIMIT, ROW_LIMIT, Record,
    RecordRefusal, read_bundle, read_record, write_record,
};
pub use suite::{SUITES, Suite};

use std::fmt;

/// The most bytes of data, and the most bytes of message, in one call or in all pieces of one message.
pub const LIMIT: usize = 1_048_576;

pub type Tag = [u8; 16];

/// A message was sealed: the buffer holds its ciphertext, or the pieces do.
#[derive(Clone, Copy, Debug, PartialEq, Eq)]
pub struct Sealed {
    pub tag: Tag,
    /// The block cipher calls made.
    pub rows: usize,
}

/// A ciphertext was opened: the buffer holds its message.
#[derive(Clone, Copy, Debug, PartialEq, Eq)]
pub struct Opened {
    /// The block cipher calls made.
    pub rows: usize,
}

/// Why a call was refused. The buffer or the piece is as it was, but for `WrongTag`.
#[derive(Clone, Copy, Debug, PartialEq, Eq)]
pub enum Refusal {
    BadSuite,
    BadKeyLength,
    BadNonceLength,
    DataTooLong,
    MessageTooLong,
    BadTagLength,
    /// Every byte of the buffer is zero, and these block cipher calls were made.
    WrongTag {
        rows: usize,
    },
    /// By pieces: the message has had its last piece.
    NoMore,
}

/// Enciphers the message in the buffer and gives its tag.
pub fn seal(
    suite: u8,
    key: &[u8],
    nonce: &[u8],
    data: &[u8],
    buffer: &mut [u8],
) -> Result<Sealed, Refusal> {
    let ffi::Sealed { number, tag, rows } = ffi::seal(suite, key, nonce, data, buffer);
    done_or_refused(number, rows).map(|()| Sealed { tag, rows })
}

/// Deciphers the ciphertext in the buffer if the tag is the right one.
pub fn open(
    suite: u8,
    key: &[u8],
    nonce: &[u8],
    data: &[u8],
    buffer: &mut [u8],
    tag: &[u8],
) -> Result<Opened, Refusal> {
    let ffi::Opened { number, rows } = ffi::open(suite, key, nonce, data, buffer, tag);
    done_or_refused(number, rows).map(|()| Opened { rows })
}

fn done_or_refused(number: u8, rows: usize) -> Result<(), Refusal> {
    Err(match number {
        0 => return Ok(()),
        1 => Refusal::BadSuite,
        2 => Refusal::BadKeyLength,
        3 => Refusal::BadNonceLength,
        4 => Refusal::DataTooLong,
        5 => Refusal::MessageTooLong,
        6 => Refusal::BadTagLength,
        7 => Refusal::WrongTag { rows },
        8 => Refusal::NoMore,
        _ => panic!("the library answered {number}, which its contract excludes"),
    })
}

impl fmt::Display for Refusal {
    fn fmt(&self, f: &mut fmt::Formatter<'_>) -> fmt::Result {
        f.write_str(match self {
            Refusal::BadSuite => "the suite isn't 1 to 4, or by pieces 1 or 2",
            Refusal::BadKeyLength => "the key doesn't have the suite's length",
            Refusal::BadNonceLength => "the nonce doesn't have the suite's length",
            Refusal::DataTooLong => "the associated data is over 1,048,576 bytes",
            Refusal::MessageTooLong => "the message or ciphertext is over 1,048,576 bytes",
            Refusal::BadTagLength => "the tag isn't 16 bytes",
            Refusal::WrongTag { .. } => "the tag is wrong",
            Refusal::NoMore => "the message has had its last piece",
        })
    }
}

impl std::error::Error for Refusal {}
