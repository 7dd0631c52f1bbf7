//! Sealing Deoxys-I, suites 1 and 2, by pieces.

use crate::{Refusal, Sealed, done_or_refused, ffi};
use std::fmt;

/// A message that is being sealed by pieces. Every call takes the state and hands on the next, and there is
/// no copy: an old state used again could seal two messages under one nonce, which Deoxys-I forbids.
///
/// It holds key material, and nothing wipes it when it is dropped. The library takes the state by value, so
/// that each call leaves a copy on the stack, and wiping this one alone would promise too much.
#[must_use = "a message that is not finished has no tag"]
pub struct Pieces(Box<ffi::Pieces>); // boxed, to be handed back in an `Err`

/// A piece was refused. It is as it was, and so is the state: after `MessageTooLong` it takes a shorter
/// piece, and in any case it can be finished.
#[derive(Debug)]
pub struct Refused {
    pub pieces: Pieces,
    pub refusal: Refusal,
}

impl Pieces {
    /// Begins a message, with its associated data.
    pub fn begin(suite: u8, key: &[u8], nonce: &[u8], data: &[u8]) -> Result<Pieces, Refusal> {
        let state = ffi::begin(suite, key, nonce, data);
        done_or_refused(state.number, 0).map(|()| Pieces(Box::new(state)))
    }

    /// Enciphers the next piece in place. Once one is taken that is no multiple of 16 bytes, every other is
    /// refused, an empty one too.
    pub fn take(mut self, piece: &mut [u8]) -> Result<Pieces, Refused> {
        let ffi::Taken { pieces, number } = ffi::take(*self.0, piece);
        *self.0 = pieces;
        match done_or_refused(number, 0) {
            Ok(()) => Ok(self),
            Err(refusal) => Err(Refused { pieces: self, refusal }),
        }
    }

    /// Gives the tag and the rows of all that was taken: those of one `seal` of the joined pieces. It
    /// refuses no state that can be had here, since it takes away the one it finishes.
    pub fn finish(self) -> Sealed {
        let ffi::Finished { number, tag, rows, .. } = ffi::finish(*self.0);
        assert_eq!(number, 0, "the library refused to finish, which its contract excludes");
        Sealed { tag, rows }
    }
}

impl fmt::Debug for Pieces {
    /// Shows nothing of the key.
    fn fmt(&self, f: &mut fmt::Formatter<'_>) -> fmt::Result {
        f.debug_struct("Pieces").finish_non_exhaustive()
    }
}

impl fmt::Display for Refused {
    fn fmt(&self, f: &mut fmt::Formatter<'_>) -> fmt::Result {
        self.refusal.fmt(f)
    }
}

impl std::error::Error for Refused {}
