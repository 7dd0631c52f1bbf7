//! The house record, which keeps one sealed row, and bundles of records.

use crate::ffi;
use std::fmt;

/// The most bytes of a note, of a ciphertext, of a record and of a bundle; the highest row; the most records of a
/// bundle. The header has the same numbers.
pub const NOTE_LIMIT: usize = 1024;
pub const CIPHER_LIMIT: usize = 4096;
pub const ROW_LIMIT: u16 = 20;
pub const RECORD_LIMIT: usize = 5172;
pub const BUNDLE_RECORDS: usize = 64;
pub const BUNDLE_LIMIT: usize = 331_008;

/// What a record holds, to be written or as it was read. Reading checks the layout and not the tag: what was
/// read is authentic only once it has been opened.
#[derive(Clone, Copy, Debug, PartialEq, Eq)]
pub struct Record<'a> {
    pub suite: u8,
    pub row: u16,
    pub nonce: &'a [u8],
    pub note: &'a [u8],
    pub cipher: &'a [u8],
    pub tag: &'a [u8],
}

/// A record that was read: its texts are parts of the bytes given.
#[derive(Clone, Copy, Debug, PartialEq, Eq)]
pub struct Found<'a> {
    pub record: Record<'a>,
    /// How many bytes after the record's place the next one begins.
    pub length: usize,
}

/// Why a record or a bundle was refused, each with the library's number. There is nothing to take from what
/// was read, and the destination is as it was.
#[derive(Clone, Copy, Debug, PartialEq, Eq)]
#[repr(u8)]
pub enum RecordRefusal {
    BytesMissing = 10,
    WrongField = 11,
    BadLength = 12,
    OutOfRange = 13,
    TooManyRecords = 15,
    NoRoom = 24,
}

impl Record<'_> {
    /// The cipher's associated data: the two row bytes, then the note.
    pub fn data(&self) -> Vec<u8> {
        [&self.row.to_be_bytes(), self.note].concat()
    }
}

/// Writes the record at the start of the destination and gives its length.
pub fn write_record(record: &Record, destination: &mut [u8]) -> Result<usize, RecordRefusal> {
    let Record { suite, row, nonce, note, cipher, tag } = *record;
    let ffi::Written { number, length } =
        ffi::write_record(suite, row, nonce, note, cipher, tag, destination);
    done_or_refused(number).map(|()| length)
}

/// Reads the record that begins at a place, whatever comes after it.
pub fn read_record(bytes: &[u8], at: usize) -> Result<Found<'_>, RecordRefusal> {
    let found = ffi::read_record(bytes, at);
    done_or_refused(found.number)?;
    let text = |place: usize, length: usize| &bytes[place..place + length];
    let record = Record {
        suite: found.suite,
        row: found.row,
        nonce: text(found.nonce, found.nonce_length),
        note: text(found.note, found.note_length),
        cipher: text(found.cipher, found.cipher_length),
        tag: text(found.tag, size_of::<crate::Tag>()),
    };
    Ok(Found { record, length: found.length })
}

/// Reads a bundle to its last byte and counts its records.
pub fn read_bundle(bytes: &[u8]) -> Result<usize, RecordRefusal> {
    let ffi::Bundle { number, records } = ffi::read_bundle(bytes);
    done_or_refused(number).map(|()| records)
}

fn done_or_refused(number: u8) -> Result<(), RecordRefusal> {
    Err(match number {
        0 => return Ok(()),
        10 => RecordRefusal::BytesMissing,
        11 => RecordRefusal::WrongField,
        12 => RecordRefusal::BadLength,
        13 => RecordRefusal::OutOfRange,
        15 => RecordRefusal::TooManyRecords,
        24 => RecordRefusal::NoRoom,
        _ => panic!("the library answered {number}, which its contract excludes"),
    })
}

impl RecordRefusal {
    /// The library's number.
    pub fn number(self) -> u8 {
        self as u8
    }
}

impl fmt::Display for RecordRefusal {
    fn fmt(&self, f: &mut fmt::Formatter<'_>) -> fmt::Result {
        f.write_str(match self {
            RecordRefusal::BytesMissing => "bytes are missing",
            RecordRefusal::WrongField => "a field has another tag than the one that comes next",
            RecordRefusal::BadLength => "a field has a length that it may not have",
            RecordRefusal::OutOfRange => "the suite isn't 1 to 4, or the row isn't 1 to 20",
            RecordRefusal::TooManyRecords => "there are bytes after record 64",
            RecordRefusal::NoRoom => "the destination is shorter than the record",
        })
    }
}

impl std::error::Error for RecordRefusal {}
