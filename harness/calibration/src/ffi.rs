//! The archive's eight functions as include/calibration.h declares them, and the only unsafe code over
//! them.

/// The answer of a sealing.
#[repr(C)]
#[derive(Clone, Copy, Debug, PartialEq, Eq)]
pub struct Sealed {
    pub number: u8,
    pub tag: [u8; 16],
    pub rows: usize,
}

/// The answer of an opening.
#[repr(C)]
#[derive(Clone, Copy, Debug, PartialEq, Eq)]
pub struct Opened {
    pub number: u8,
    pub rows: usize,
}

/// The expanded key.
#[repr(C)]
#[derive(Clone, Copy, PartialEq, Eq)]
pub struct Subkeys {
    pub bytes: [u8; 272],
    pub rounds: usize,
}

/// The running state of a sealing by pieces. It holds key material, so it isn't `Debug`. A copy goes on
/// from where the state stood: `calibration::Pieces` can't be copied.
#[repr(C)]
#[derive(Clone, Copy, PartialEq, Eq)]
pub struct Pieces {
    pub number: u8,
    pub stage: u8,
    pub keys: Subkeys,
    pub nonce: [u8; 8],
    pub auth: [u8; 16],
    pub checksum: [u8; 16],
    pub total: usize,
    pub rows: usize,
}

/// The answer to a piece.
#[repr(C)]
pub struct Taken {
    pub pieces: Pieces,
    pub number: u8,
}

/// The answer to a finish.
#[repr(C)]
pub struct Finished {
    pub pieces: Pieces,
    pub number: u8,
    pub tag: [u8; 16],
    pub rows: usize,
}

/// The answer of the writer of a record.
#[repr(C)]
#[derive(Clone, Copy, Debug, PartialEq, Eq)]
pub struct Written {
    pub number: u8,
    pub length: usize,
}

/// The answer of the reader of a record. Places are counted from the start of the bytes given.
#[repr(C)]
#[derive(Clone, Copy, Debug, Default, PartialEq, Eq)]
pub struct Record {
    pub number: u8,
    pub suite: u8,
    pub row: u16,
    pub nonce: usize,
    pub nonce_length: usize,
    pub note: usize,
    pub note_length: usize,
    pub cipher: usize,
    pub cipher_length: usize,
    pub tag: usize,
    pub length: usize,
}

/// The answer of the reader of a bundle.
#[repr(C)]
#[derive(Clone, Copy, Debug, PartialEq, Eq)]
pub struct Bundle {
    pub number: u8,
    pub records: usize,
}

unsafe extern "C" {
    fn deoxys_seal(
        suite: u8,
        key: *const u8,
        key_length: usize,
        nonce: *const u8,
        nonce_length: usize,
        data: *const u8,
        data_length: usize,
        buffer: *mut u8,
        buffer_length: usize,
    ) -> Sealed;

    fn deoxys_open(
        suite: u8,
        key: *const u8,
        key_length: usize,
        nonce: *const u8,
        nonce_length: usize,
        data: *const u8,
        data_length: usize,
        buffer: *mut u8,
        buffer_length: usize,
        tag: *const u8,
        tag_length: usize,
    ) -> Opened;

    fn deoxys_begin(
        suite: u8,
        key: *const u8,
        key_length: usize,
        nonce: *const u8,
        nonce_length: usize,
        data: *const u8,
        data_length: usize,
    ) -> Pieces;

    fn deoxys_take(state: Pieces, piece: *mut u8, piece_length: usize) -> Taken;

    fn deoxys_finish(state: Pieces) -> Finished;

    fn calibration_write_record(
        suite: u8,
        row: u16,
        nonce: *const u8,
        nonce_length: usize,
        note: *const u8,
        note_length: usize,
        cipher: *const u8,
        cipher_length: usize,
        tag: *const u8,
        tag_length: usize,
        destination: *mut u8,
        destination_length: usize,
    ) -> Written;

    fn calibration_read_record(bytes: *const u8, bytes_length: usize, at: usize) -> Record;

    fn calibration_read_bundle(bytes: *const u8, bytes_length: usize) -> Bundle;
}

pub fn seal(suite: u8, key: &[u8], nonce: &[u8], data: &[u8], buffer: &mut [u8]) -> Sealed {
    // SAFETY: each pointer is that of a slice with its own length, never null, and the borrows keep the
    // buffer apart from the rest. The function has no condition on lengths or bytes: it refuses instead.
    unsafe {
        deoxys_seal(
            suite,
            key.as_ptr(),
            key.len(),
            nonce.as_ptr(),
            nonce.len(),
            data.as_ptr(),
            data.len(),
            buffer.as_mut_ptr(),
            buffer.len(),
        )
    }
}

pub fn open(
    suite: u8,
    key: &[u8],
    nonce: &[u8],
    data: &[u8],
    buffer: &mut [u8],
    tag: &[u8],
) -> Opened {
    // SAFETY: as for `seal`.
    unsafe {
        deoxys_open(
            suite,
            key.as_ptr(),
            key.len(),
            nonce.as_ptr(),
            nonce.len(),
            data.as_ptr(),
            data.len(),
            buffer.as_mut_ptr(),
            buffer.len(),
            tag.as_ptr(),
            tag.len(),
        )
    }
}

pub fn begin(suite: u8, key: &[u8], nonce: &[u8], data: &[u8]) -> Pieces {
    // SAFETY: as for `seal`.
    unsafe {
        deoxys_begin(
            suite,
            key.as_ptr(),
            key.len(),
            nonce.as_ptr(),
            nonce.len(),
            data.as_ptr(),
            data.len(),
        )
    }
}

pub fn take(state: Pieces, piece: &mut [u8]) -> Taken {
    // SAFETY: as for `seal`. There is no condition on the state either.
    unsafe { deoxys_take(state, piece.as_mut_ptr(), piece.len()) }
}

pub fn finish(state: Pieces) -> Finished {
    // SAFETY: there is no condition on the state.
    unsafe { deoxys_finish(state) }
}

pub fn write_record(
    suite: u8,
    row: u16,
    nonce: &[u8],
    note: &[u8],
    cipher: &[u8],
    tag: &[u8],
    destination: &mut [u8],
) -> Written {
    // SAFETY: as for `seal`, with the destination as the buffer.
    unsafe {
        calibration_write_record(
            suite,
            row,
            nonce.as_ptr(),
            nonce.len(),
            note.as_ptr(),
            note.len(),
            cipher.as_ptr(),
            cipher.len(),
            tag.as_ptr(),
            tag.len(),
            destination.as_mut_ptr(),
            destination.len(),
        )
    }
}

pub fn read_record(bytes: &[u8], at: usize) -> Record {
    // SAFETY: the pointer is that of a slice with its own length, which is only read. There is no
    // condition on the bytes or on the place.
    unsafe { calibration_read_record(bytes.as_ptr(), bytes.len(), at) }
}

pub fn read_bundle(bytes: &[u8]) -> Bundle {
    // SAFETY: as for `read_record`.
    unsafe { calibration_read_bundle(bytes.as_ptr(), bytes.len()) }
}

#[cfg(test)]
mod tests {
    use super::{Bundle, Finished, Opened, Pieces, Record, Sealed, Subkeys, Taken, Written};
    use std::mem::{offset_of, size_of};

    /// The layout that a C compiler gives the header's structs on x86-64.
    #[test]
    fn the_answers_are_laid_out_as_in_c() {
        assert_eq!(offset_of!(Sealed, number), 0);
        assert_eq!(offset_of!(Sealed, tag), 1);
        assert_eq!(offset_of!(Sealed, rows), 24);
        assert_eq!(size_of::<Sealed>(), 32);
        assert_eq!(align_of::<Sealed>(), 8);

        assert_eq!(offset_of!(Opened, number), 0);
        assert_eq!(offset_of!(Opened, rows), 8);
        assert_eq!(size_of::<Opened>(), 16);
        assert_eq!(align_of::<Opened>(), 8);

        assert_eq!(offset_of!(Taken, pieces), 0);
        assert_eq!(offset_of!(Taken, number), 344);
        assert_eq!(size_of::<Taken>(), 352);
        assert_eq!(align_of::<Taken>(), 8);

        assert_eq!(offset_of!(Finished, pieces), 0);
        assert_eq!(offset_of!(Finished, number), 344);
        assert_eq!(offset_of!(Finished, tag), 345);
        assert_eq!(offset_of!(Finished, rows), 368);
        assert_eq!(size_of::<Finished>(), 376);
        assert_eq!(align_of::<Finished>(), 8);
    }

    #[test]
    fn the_state_by_pieces_is_laid_out_as_in_c() {
        assert_eq!(offset_of!(Pieces, number), 0);
        assert_eq!(offset_of!(Pieces, stage), 1);
        assert_eq!(offset_of!(Pieces, keys), 8);
        assert_eq!(offset_of!(Pieces, nonce), 288);
        assert_eq!(offset_of!(Pieces, auth), 296);
        assert_eq!(offset_of!(Pieces, checksum), 312);
        assert_eq!(offset_of!(Pieces, total), 328);
        assert_eq!(offset_of!(Pieces, rows), 336);
        assert_eq!(size_of::<Pieces>(), 344);
        assert_eq!(align_of::<Pieces>(), 8);

        assert_eq!(offset_of!(Subkeys, bytes), 0);
        assert_eq!(offset_of!(Subkeys, rounds), 272);
        assert_eq!(size_of::<Subkeys>(), 280);
        assert_eq!(align_of::<Subkeys>(), 8);
    }

    #[test]
    fn the_answers_on_records_are_laid_out_as_in_c() {
        assert_eq!(offset_of!(Written, number), 0);
        assert_eq!(offset_of!(Written, length), 8);
        assert_eq!(size_of::<Written>(), 16);
        assert_eq!(align_of::<Written>(), 8);

        assert_eq!(offset_of!(Record, number), 0);
        assert_eq!(offset_of!(Record, suite), 1);
        assert_eq!(offset_of!(Record, row), 2);
        assert_eq!(offset_of!(Record, nonce), 8);
        assert_eq!(offset_of!(Record, nonce_length), 16);
        assert_eq!(offset_of!(Record, note), 24);
        assert_eq!(offset_of!(Record, note_length), 32);
        assert_eq!(offset_of!(Record, cipher), 40);
        assert_eq!(offset_of!(Record, cipher_length), 48);
        assert_eq!(offset_of!(Record, tag), 56);
        assert_eq!(offset_of!(Record, length), 64);
        assert_eq!(size_of::<Record>(), 72);
        assert_eq!(align_of::<Record>(), 8);

        assert_eq!(offset_of!(Bundle, number), 0);
        assert_eq!(offset_of!(Bundle, records), 8);
        assert_eq!(size_of::<Bundle>(), 16);
        assert_eq!(align_of::<Bundle>(), 8);
    }
}
