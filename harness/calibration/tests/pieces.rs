//! Sealing by pieces: by the wrapper, and by the functions under it where the wrapper has no such call.

mod inputs;

use calibration::{LIMIT, Pieces, Refusal, Refused, SUITES, Sealed, Suite, ffi, seal};
use inputs::{DATA, key, nonce};

const NO_MORE: u8 = 8;

fn deoxys_i() -> impl Iterator<Item = &'static Suite> {
    SUITES.iter().filter(|suite| !suite.is_two_pass())
}

fn bytes(count: usize) -> Vec<u8> {
    (0..count).map(|n| (n % 251) as u8).collect()
}

fn begin(suite: &Suite, data: &[u8]) -> Pieces {
    Pieces::begin(suite.number, &key(suite), &nonce(suite), data).unwrap()
}

fn begin_raw(suite: &Suite) -> ffi::Pieces {
    ffi::begin(suite.number, &key(suite), &nonce(suite), &DATA)
}

/// The ciphertext too.
fn sealed_at_once(suite: &Suite, data: &[u8], message: &[u8]) -> (Sealed, Vec<u8>) {
    let mut buffer = message.to_vec();
    let sealed = seal(suite.number, &key(suite), &nonce(suite), data, &mut buffer).unwrap();
    (sealed, buffer)
}

/// The number of a refused piece: it and the state are as they were.
fn refused_take(state: ffi::Pieces, length: usize) -> u8 {
    let mut piece = bytes(length);
    let taken = ffi::take(state, &mut piece);
    assert!(taken.pieces == state, "the state changed");
    assert!(piece == bytes(length), "the piece changed");
    taken.number
}

/// The number of a refused finish: the state is as it was, and there is no tag.
fn refused_finish(state: ffi::Pieces) -> u8 {
    let finished = ffi::finish(state);
    assert!(finished.pieces == state, "the state changed");
    assert_eq!((finished.tag, finished.rows), ([0; 16], 0));
    finished.number
}

/// Whatever the piece's length: one over the limit too, which alone would be a 5.
fn assert_answers(state: ffi::Pieces, number: u8, name: &str) {
    for length in [0, 16, 37, LIMIT + 1] {
        assert_eq!(refused_take(state, length), number, "{name}, a piece of {length} bytes");
    }
    assert_eq!(refused_finish(state), number, "{name}, finish");
}

/// Where the pieces end, for every way to cut so many bytes.
fn cuttings(length: usize) -> impl Iterator<Item = Vec<usize>> {
    let borders: Vec<usize> = (16..length).step_by(16).collect();
    (0..1_usize << borders.len()).map(move |chosen| {
        let is_chosen = |n: usize| chosen >> n & 1 == 1;
        let ends = (0..borders.len()).filter(|n| is_chosen(*n)).map(|n| borders[n]);
        ends.chain([length]).collect()
    })
}

/// An empty piece goes before each.
fn sealed_by_pieces(suite: &Suite, message: &[u8], ends: &[usize]) -> (Sealed, Vec<u8>) {
    let mut buffer = message.to_vec();
    let mut pieces = begin(suite, &DATA);
    let mut start = 0;
    for end in ends {
        pieces = pieces.take(&mut []).unwrap();
        pieces = pieces.take(&mut buffer[start..*end]).unwrap();
        start = *end;
    }
    (pieces.finish(), buffer)
}

#[test]
fn every_cutting_gives_what_one_call_gives() {
    for suite in deoxys_i() {
        for length in 0..=65 {
            let message = bytes(length);
            let at_once = sealed_at_once(suite, &DATA, &message);
            for ends in cuttings(length) {
                let by_pieces = sealed_by_pieces(suite, &message, &ends);
                assert_eq!(by_pieces, at_once, "{}, cut at {ends:?}", suite.name);
            }
        }
    }
}

#[test]
fn two_messages_are_sealed_in_turn() {
    let message = bytes(80);
    let mut buffers = [message.clone(), message.clone()];
    let mut states = deoxys_i().map(|suite| begin(suite, &DATA)).collect::<Vec<_>>();
    for start in (0..80).step_by(16) {
        for buffer in &mut buffers {
            let next = states.remove(0).take(&mut buffer[start..start + 16]).unwrap();
            states.push(next);
        }
    }
    let sealed = states.into_iter().map(Pieces::finish).zip(buffers);
    assert!(sealed.eq(deoxys_i().map(|suite| sealed_at_once(suite, &DATA, &message))));
}

/// As much data and message as there can be: the most rows too.
#[test]
fn a_byte_over_the_limit_is_refused_and_a_shorter_piece_taken() {
    let (data, over) = (bytes(LIMIT), bytes(LIMIT + 1));
    for suite in deoxys_i() {
        let mut buffer = over.clone();
        let pieces = begin(suite, &data).take(&mut buffer[..4096]).unwrap();
        let Refused { pieces, refusal } = pieces.take(&mut buffer[4096..]).unwrap_err();
        assert_eq!(refusal, Refusal::MessageTooLong);
        assert!(buffer[4096..] == over[4096..]);

        let pieces = pieces.take(&mut buffer[4096..LIMIT]).unwrap();
        let Refused { pieces, refusal } = pieces.take(&mut buffer[LIMIT..]).unwrap_err();
        assert_eq!(refusal, Refusal::MessageTooLong);
        assert_eq!(buffer[LIMIT], over[LIMIT]);

        let (sealed, ciphertext) = sealed_at_once(suite, &data, &over[..LIMIT]);
        assert_eq!(pieces.take(&mut []).unwrap().finish(), sealed);
        assert!(buffer[..LIMIT] == ciphertext);
    }
}

#[test]
fn after_the_last_piece_every_other_is_refused() {
    for suite in deoxys_i() {
        let mut buffer = bytes(37);
        let mut pieces = begin(suite, &DATA).take(&mut buffer).unwrap();
        for length in [0, 11, 16, LIMIT] {
            let mut piece = bytes(length);
            let refused = pieces.take(&mut piece).unwrap_err();
            assert_eq!(refused.refusal, Refusal::NoMore, "a piece of {length} bytes");
            assert!(piece == bytes(length));
            pieces = refused.pieces;
        }
        let by_pieces = (pieces.finish(), buffer);
        assert_eq!(by_pieces, sealed_at_once(suite, &DATA, &bytes(37)));
    }
}

#[test]
fn a_finished_state_answers_8() {
    for suite in deoxys_i() {
        for length in [0, 16, 37] {
            let taken = ffi::take(begin_raw(suite), &mut bytes(length));
            let finished = ffi::finish(taken.pieces);
            assert_eq!((taken.number, finished.number), (0, 0));
            assert_answers(finished.pieces, NO_MORE, "finished");
        }
    }
}

#[test]
fn what_the_state_says_of_itself() {
    let says = |state: ffi::Pieces| (state.number, state.stage, state.total, state.rows);
    for suite in deoxys_i() {
        let begun = begin_raw(suite);
        let open = ffi::take(begun, &mut bytes(32)).pieces;
        let closed = ffi::take(open, &mut bytes(5)).pieces;
        let finished = ffi::finish(closed);
        assert_eq!(says(begun), (0, 0, 0, 2));
        assert_eq!(says(open), (0, 0, 32, 4));
        assert_eq!(says(closed), (0, 1, 37, 5));
        assert_eq!(says(finished.pieces), (0, 2, 37, 6));
        assert_eq!(finished.rows, 6);
    }
}

/// The state of a refused begin: no byte of the key is in it.
fn void(number: u8) -> ffi::Pieces {
    ffi::Pieces {
        number,
        stage: 0,
        keys: ffi::Subkeys { bytes: [0; 272], rounds: 0 },
        nonce: [0; 8],
        auth: [0; 16],
        checksum: [0; 16],
        total: 0,
        rows: 0,
    }
}

#[test]
fn the_refusals_of_a_begin() {
    let long = bytes(LIMIT + 1);
    let refused = |suite, key: &[u8], nonce: &[u8], data: &[u8]| {
        let state = ffi::begin(suite, key, nonce, data);
        assert!(state == void(state.number));
        assert_answers(state, state.number, "a refused begin");
        Pieces::begin(suite, key, nonce, data).unwrap_err()
    };
    for suite in deoxys_i() {
        let (n, key, nonce) = (suite.number, key(suite), nonce(suite));
        assert_eq!(refused(0, &key, &nonce, &DATA), Refusal::BadSuite);
        assert_eq!(refused(5, &[], &[], &long), Refusal::BadSuite);
        assert_eq!(refused(n, &key[1..], &[], &long), Refusal::BadKeyLength);
        assert_eq!(refused(n, &key, &nonce[1..], &long), Refusal::BadNonceLength);
        assert_eq!(refused(n, &key, &nonce, &long), Refusal::DataTooLong);
    }
    for suite in SUITES.iter().filter(|suite| suite.is_two_pass()) {
        let (n, key, nonce) = (suite.number, key(suite), nonce(suite));
        assert_eq!(refused(n, &key, &nonce, &DATA), Refusal::BadSuite);
        assert_eq!(refused(n, &[], &[], &long), Refusal::BadSuite);
    }
}

/// A state that was wiped, and states with one field as no call gives it.
fn forged(state: ffi::Pieces) -> Vec<ffi::Pieces> {
    let with_rounds = |rounds| ffi::Pieces { keys: ffi::Subkeys { rounds, ..state.keys }, ..state };
    let mut forged = vec![void(0)];
    forged.extend([0, 13, 15, 17, usize::MAX].map(with_rounds));
    forged.extend([LIMIT + 1, usize::MAX].map(|total| ffi::Pieces { total, ..state }));
    forged.extend([131_073, usize::MAX].map(|rows| ffi::Pieces { rows, ..state }));
    forged.extend([3, 255].map(|stage| ffi::Pieces { stage, ..state }));
    forged
}

#[test]
fn a_forged_state_answers_8() {
    for suite in deoxys_i() {
        for (n, state) in forged(begin_raw(suite)).into_iter().enumerate() {
            assert_answers(state, NO_MORE, &format!("forgery {n}"));
        }
    }
}

#[test]
fn the_number_in_a_state_goes_before_all() {
    for suite in deoxys_i() {
        let begun = begin_raw(suite);
        let finished = ffi::finish(begun).pieces;
        for state in [vec![begun, finished], forged(begun)].concat() {
            assert_answers(ffi::Pieces { number: 200, ..state }, 200, "number 200");
        }
    }
}

#[test]
fn what_is_shown_has_nothing_of_the_key() {
    let pieces = begin(&SUITES[0], &DATA).take(&mut [0]).unwrap();
    assert_eq!(format!("{pieces:?}"), "Pieces { .. }");
    let refused = pieces.take(&mut []).unwrap_err();
    assert_eq!(format!("{refused:?}"), "Refused { pieces: Pieces { .. }, refusal: NoMore }");
    assert_eq!(refused.to_string(), "the message has had its last piece");
}
