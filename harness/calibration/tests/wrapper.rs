//! The wrapper over the archive: what each answer is turned into, and what it leaves.

mod inputs;

use calibration::{LIMIT, Refusal, SUITES, open, seal};
use inputs::{DATA, key, nonce};

const MESSAGE: [u8; 37] = *b"thirty-seven bytes: 2 blocks and 5 on";

#[test]
fn what_is_sealed_opens_again() {
    for suite in &SUITES {
        let mut buffer = MESSAGE;
        let (key, nonce) = (key(suite), nonce(suite));
        let sealed = seal(suite.number, &key, &nonce, &DATA, &mut buffer).unwrap();
        assert_eq!(sealed.rows, suite.rows(DATA.len(), MESSAGE.len()));
        assert_ne!(buffer, MESSAGE);

        let opened = open(suite.number, &key, &nonce, &DATA, &mut buffer, &sealed.tag).unwrap();
        assert_eq!(opened.rows, sealed.rows);
        assert_eq!(buffer, MESSAGE);
    }
}

#[test]
fn a_wrong_tag_leaves_zeros() {
    for suite in &SUITES {
        let mut buffer = MESSAGE;
        let (key, nonce) = (key(suite), nonce(suite));
        let mut sealed = seal(suite.number, &key, &nonce, &DATA, &mut buffer).unwrap();
        sealed.tag[0] ^= 0x80;
        let answer = open(suite.number, &key, &nonce, &DATA, &mut buffer, &sealed.tag);
        assert_eq!(answer, Err(Refusal::WrongTag { rows: sealed.rows }));
        assert_eq!(buffer, [0; 37]);
    }
}

#[test]
fn the_refusals_of_a_sealing() {
    let suite = &SUITES[3];
    let (key, nonce, long) = (key(suite), nonce(suite), vec![7; LIMIT + 1]);
    let refused = |suite, key, nonce, data, message: &[u8]| {
        let mut buffer = message.to_vec();
        let refusal = seal(suite, key, nonce, data, &mut buffer).unwrap_err();
        assert_eq!(buffer, message, "{refusal}");
        refusal
    };
    assert_eq!(refused(0, &key, &nonce, &[], &MESSAGE), Refusal::BadSuite);
    assert_eq!(refused(5, &[], &[], &long, &long), Refusal::BadSuite);
    assert_eq!(refused(4, &key[1..], &[], &long, &long), Refusal::BadKeyLength);
    assert_eq!(refused(4, &key, &nonce[1..], &long, &long), Refusal::BadNonceLength);
    assert_eq!(refused(4, &key, &nonce, &long, &long), Refusal::DataTooLong);
    assert_eq!(refused(4, &key, &nonce, &DATA, &long), Refusal::MessageTooLong);
}

#[test]
fn a_tag_of_another_length_is_refused() {
    let suite = &SUITES[0];
    let (key, nonce) = (key(suite), nonce(suite));
    for length in [0, 15, 17] {
        let mut buffer = MESSAGE;
        let answer = open(suite.number, &key, &nonce, &DATA, &mut buffer, &vec![0; length]);
        assert_eq!(answer, Err(Refusal::BadTagLength));
        assert_eq!(buffer, MESSAGE);
    }
}

/// From the vectors published with Deoxys v1.41.
#[test]
fn a_published_vector() {
    let key: Vec<u8> = (0x10..0x30).collect();
    let nonce: Vec<u8> = (0x20..0x2f).collect();
    let mut buffer = *b"\x15\xcd\x77\x73\x2f\x9d\x0c\x4c\x6e\x58\x1e\xf4\x00\x87\x6a\xd9\
        \x18\x8c\x5b\x88\x50\xeb\xd3\x82\x24\xda\x95\xd7\xcd\xc9\x9f\x7a\xcc";
    let sealed = seal(4, &key, &nonce, &[], &mut buffer).unwrap();
    assert_eq!(
        &buffer,
        b"\xe5\xff\xd2\xab\xc5\xb4\x59\xa7\x36\x67\x75\x6e\xda\x64\x43\xed\
        \xe8\x6c\x08\x83\xfc\x51\xdd\x75\xd2\x2b\xb1\x49\x92\xc6\x84\x61\x8c"
    );
    assert_eq!(&sealed.tag, b"\x5f\xa7\x8d\x57\x30\x8f\x19\xd0\x25\x20\x72\xee\x39\xdf\x5e\xcc");
}
