//! The house record from the sentences of document 02, request b, which are quoted. Of the library it has the
//! shape of the answers and nothing else.

use calibration::{Record, ffi};
use std::ops::{Range, RangeInclusive};

/// "Exactly these, ascending: 01 suite (1 byte, 1 to 4); 02 row number (2 bytes, big-endian, 1 to 20); 03
/// nonce (the suite's length); 04 note (0 to 1,024); 05 ciphertext (0 to 4,096); 06 tag (16)."
const TAGS: RangeInclusive<u8> = 1..=6;

/// Of the suite it is asked for the nonce alone.
fn lengths(tag: u8, suite: u8) -> RangeInclusive<usize> {
    match (tag, suite) {
        (1, _) => 1..=1,
        (2, _) => 2..=2,
        (3, 1 | 2) => 8..=8,
        (3, _) => 15..=15,
        (4, _) => 0..=1024,
        (5, _) => 0..=4096,
        _ => 16..=16,
    }
}

fn is_in_range(tag: u8, text: &[u8]) -> bool {
    match (tag, text) {
        (1, suite) => matches!(suite, [1..=4]),
        (2, row) => matches!(row, [0, 1..=20]),
        _ => true,
    }
}

fn texts(record: &Record) -> [Vec<u8>; 6] {
    let Record { suite, row, nonce, note, cipher, tag } = *record;
    let row = row.to_be_bytes();
    [vec![suite], row.to_vec(), nonce.to_vec(), note.to_vec(), cipher.to_vec(), tag.to_vec()]
}

/// "Each field is a one-byte tag, a two-byte big-endian length and its bytes."
pub fn written(record: &Record) -> Vec<u8> {
    let field = |(tag, text): (u8, &Vec<u8>)| {
        let length = u16::try_from(text.len()).expect("the record is allowed");
        [&[tag], length.to_be_bytes().as_slice(), text].concat()
    };
    TAGS.zip(&texts(record)).flat_map(field).collect()
}

/// "The writer answers 12 or 13 alike, field by field, and last 24 if the destination is too short; refused,
/// it writes nothing." The answer, and the destination at the end.
pub fn writing(record: &Record, destination: &[u8]) -> (ffi::Written, Vec<u8>) {
    let refused = |number| (ffi::Written { number, length: 0 }, destination.to_vec());
    for (tag, text) in TAGS.zip(&texts(record)) {
        if !lengths(tag, record.suite).contains(&text.len()) {
            return refused(12);
        }
        if !is_in_range(tag, text) {
            return refused(13);
        }
    }
    let written = written(record);
    match destination.get(written.len()..) {
        Some(rest) => {
            (ffi::Written { number: 0, length: written.len() }, [&written, rest].concat())
        }
        None => refused(24),
    }
}

/// Where the six texts lie. "Per field, the reader checks in this order: fewer than three bytes left, 10; wrong
/// tag, 11; length not allowed, 12; bytes missing, 10; suite or row outside its range, 13."
fn fields(bytes: &[u8], at: usize) -> Result<[Range<usize>; 6], u8> {
    let mut suite = 0;
    let mut places = [const { 0..0 }; 6];
    let mut left = bytes.get(at..).unwrap_or_default();
    for (tag, place) in TAGS.zip(&mut places) {
        let [seen, high, low, after @ ..] = left else { return Err(10) };
        let length = usize::from(u16::from_be_bytes([*high, *low]));
        if *seen != tag {
            return Err(11);
        }
        if !lengths(tag, suite).contains(&length) {
            return Err(12);
        }
        let (text, rest) = after.split_at_checked(length).ok_or(10)?;
        if !is_in_range(tag, text) {
            return Err(13);
        }
        if tag == 1 {
            suite = text[0];
        }
        *place = bytes.len() - after.len()..bytes.len() - rest.len();
        left = rest;
    }
    Ok(places)
}

/// "A reading is of one record at a place, or of the bundle with its count; refused, it gives its number and no
/// record."
pub fn reading(bytes: &[u8], at: usize) -> ffi::Record {
    match fields(bytes, at) {
        Err(number) => ffi::Record { number, ..ffi::Record::default() },
        Ok([suite, row, nonce, note, cipher, tag]) => ffi::Record {
            number: 0,
            suite: bytes[suite.start],
            row: bytes[row].iter().fold(0, |number, byte| number * 256 + u16::from(*byte)),
            nonce: nonce.start,
            nonce_length: nonce.len(),
            note: note.start,
            note_length: note.len(),
            cipher: cipher.start,
            cipher_length: cipher.len(),
            tag: tag.start,
            length: tag.end - at,
        },
    }
}

/// "A bundle is 0 to 64 records with nothing between or after." "Bytes after record 64 are 15."
pub fn bundle_reading(bytes: &[u8]) -> ffi::Bundle {
    let mut at = 0;
    for records in 0..=64 {
        if at == bytes.len() {
            return ffi::Bundle { number: 0, records };
        }
        match fields(bytes, at) {
            Ok([.., tag]) if records < 64 => at = tag.end,
            Err(number) if records < 64 => return ffi::Bundle { number, records: 0 },
            _ => break,
        }
    }
    ffi::Bundle { number: 15, records: 0 }
}
