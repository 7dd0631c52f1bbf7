//! One case of Deoxys-I by pieces: cut at random, with calls that must be refused among them, against the
//! crate's one call.

use crate::cipher::{Calls, Checker, SealedByCrate};
use crate::report::{Kind, Report, Step};
use calibration::{LIMIT, ffi};
use cases::{Case, Generator, surrounded};

pub fn check(case: &Case, report: &mut Report) {
    let mut generator = Generator::new(!case.seed);
    let lengths = cutting(case.message.len(), &mut generator);
    let disturbed = generator.below(lengths.len() + 1);
    let mut sealing = Sealing::begin(case, report);
    for (n, length) in lengths.into_iter().enumerate() {
        if n == disturbed {
            sealing.offer_too_much();
        }
        sealing.take(length);
    }
    sealing.offer_too_much();
    sealing.finish();
}

/// The lengths of pieces that make up so many bytes: whole blocks, none at all too, and a last part. One
/// cutting has pieces of a block at most, another longer ones, up to the whole. In every other all are
/// alike.
fn cutting(length: usize, generator: &mut Generator) -> Vec<usize> {
    let powers = length.div_ceil(16).next_power_of_two().ilog2() + 1;
    let most_blocks = 1 << generator.below(powers as usize);
    let are_alike = generator.below(2) == 0;
    let mut pieces = Vec::new();
    let mut left = length;
    while left > 0 {
        let blocks = if are_alike { most_blocks } else { generator.below(most_blocks + 1) };
        let piece = left.min(16 * blocks);
        pieces.push(piece);
        left -= piece;
    }
    if length.is_multiple_of(16) {
        pieces.extend(vec![0; generator.below(3)]);
    }
    pieces
}

/// A sealing under way.
struct Sealing<'a> {
    checker: Checker<'a>,
    message: &'a [u8],
    state: ffi::Pieces,
    /// Of all pieces taken.
    ciphertext: Vec<u8>,
    /// The first number that isn't 0, if there is one.
    number: u8,
    untouched: bool,
}

#[derive(Debug, PartialEq)]
struct Refused {
    number: u8,
    state_stayed: bool,
    piece_stayed: bool,
    surroundings_stayed: bool,
}

impl Refused {
    fn with(number: u8) -> Self {
        Refused { number, state_stayed: true, piece_stayed: true, surroundings_stayed: true }
    }
}

impl<'a> Sealing<'a> {
    fn begin(case: &'a Case, report: &'a mut Report) -> Self {
        let state = ffi::begin(case.suite.number, &case.key, &case.nonce, &case.data);
        Sealing {
            checker: Checker::new(case, report),
            message: &case.message,
            state,
            ciphertext: Vec::new(),
            number: state.number,
            untouched: true,
        }
    }

    fn take(&mut self, length: usize) {
        let start = self.ciphertext.len();
        let piece = &self.message[start..start + length];
        let (taken, bytes, untouched) = surrounded(piece, |piece| ffi::take(self.state, piece));
        self.state = taken.pieces;
        self.ciphertext.extend(bytes);
        self.untouched &= untouched;
        self.note(taken.number);
    }

    fn note(&mut self, number: u8) {
        if self.number == 0 {
            self.number = number;
        }
    }

    /// A byte more than the limit leaves. After the last part that doesn't matter: nothing is taken.
    fn offer_too_much(&mut self) {
        let taken = self.ciphertext.len();
        let too_much = LIMIT - taken + 1;
        if taken.is_multiple_of(16) {
            self.offer(too_much, 5);
        } else {
            self.offer(too_much, 8);
            self.offer(0, 8);
        }
    }

    fn offer(&mut self, length: usize, number: u8) {
        let piece = vec![0x3c; length];
        let (taken, bytes, untouched) = surrounded(&piece, |piece| ffi::take(self.state, piece));
        let seen = Refused {
            number: taken.number,
            state_stayed: taken.pieces == self.state,
            piece_stayed: bytes == piece,
            surroundings_stayed: untouched,
        };
        self.checker.values(Kind::ByPieces(Step::Refused(number)), seen, Refused::with(number));
    }

    fn finish(mut self) {
        let finished = ffi::finish(self.state);
        self.note(finished.number);
        let SealedByCrate { ciphertext, tag, calls } = self.checker.sealed_by_crate();
        let checker = &mut self.checker;
        checker.values(Kind::ByPieces(Step::Done), self.number, 0);
        checker.bytes(Kind::ByPieces(Step::Ciphertext), &self.ciphertext, &ciphertext);
        checker.bytes(Kind::ByPieces(Step::Tag), &finished.tag, &tag);
        let calls = Calls { ours: finished.rows, by_crate: calls };
        checker.calls(Kind::ByPieces(Step::Calls), calls);
        checker.values(Kind::ByPieces(Step::Surroundings), self.untouched, true);

        self.state = finished.pieces;
        self.offer(0, 8);
        self.finish_again();
    }

    fn finish_again(mut self) {
        let finished = ffi::finish(self.state);
        let seen = (finished.number, finished.tag, finished.rows, finished.pieces == self.state);
        self.checker.values(Kind::ByPieces(Step::Refused(8)), seen, (8, [0; 16], 0, true));
    }
}

#[cfg(test)]
mod tests {
    use super::cutting;
    use cases::Generator;

    fn cuttings(length: usize) -> Vec<Vec<usize>> {
        let mut generator = Generator::new(length as u64);
        (0..1000).map(|_| cutting(length, &mut generator)).collect()
    }

    #[test]
    fn only_the_last_piece_may_have_a_part_of_a_block() {
        for length in 0..=80 {
            for pieces in cuttings(length) {
                assert_eq!(pieces.iter().sum::<usize>(), length);
                let last = pieces.len().saturating_sub(1);
                assert!(pieces[..last].iter().all(|piece| piece.is_multiple_of(16)));
            }
        }
    }

    #[test]
    fn every_kind_of_cutting_comes_up() {
        for pieces in [vec![], vec![0, 0]] {
            assert!(cuttings(0).contains(&pieces));
        }
        for pieces in [vec![37], vec![16, 21], vec![32, 5], vec![16, 16, 5], vec![0, 16, 16, 5]] {
            assert!(cuttings(37).contains(&pieces), "{pieces:?}");
        }
        for pieces in [vec![32], vec![16, 0, 16], vec![32, 0]] {
            assert!(cuttings(32).contains(&pieces), "{pieces:?}");
        }
    }
}
