//! The house record: what the library writes and reads beside what the model does.

mod guarded;
mod inputs;
mod model;

use calibration::{
    BUNDLE_LIMIT, BUNDLE_RECORDS, CIPHER_LIMIT, Found, NOTE_LIMIT, RECORD_LIMIT, ROW_LIMIT, Record,
    RecordRefusal, Refusal, SUITES, Suite, ffi, open, read_bundle, read_record, seal, write_record,
};
use cases::{Generator, combinations, surrounded};
use guarded::Guarded;
use inputs::{DATA, key, nonce};
use std::collections::BTreeMap;

const LONGEST: usize = 5172;
const MOST_RECORDS: usize = 64;
const LONGEST_BUNDLE: usize = 331_008;

/// A record's content, in memory of its own.
struct Content {
    suite: u8,
    row: u16,
    nonce: Vec<u8>,
    note: Vec<u8>,
    cipher: Vec<u8>,
    tag: Vec<u8>,
}

impl Content {
    fn new(suite: &Suite, row: u16, note: usize, cipher: usize, generator: &mut Generator) -> Self {
        Content {
            suite: suite.number,
            row,
            nonce: generator.bytes(suite.nonce_length),
            note: generator.bytes(note),
            cipher: generator.bytes(cipher),
            tag: generator.bytes(16),
        }
    }

    /// Of any suite and row, with texts that are no longer than these.
    fn random(generator: &mut Generator, most_note: usize, most_cipher: usize) -> Self {
        let suite = &SUITES[generator.below(4)];
        let row = 1 + generator.below(20) as u16;
        let note = generator.below(most_note + 1);
        let cipher = generator.below(most_cipher + 1);
        Content::new(suite, row, note, cipher, generator)
    }

    fn longest(generator: &mut Generator) -> Self {
        Content::new(&SUITES[3], 20, 1024, 4096, generator)
    }

    fn record(&self) -> Record<'_> {
        let Content { suite, row, nonce, note, cipher, tag } = self;
        Record { suite: *suite, row: *row, nonce, note, cipher, tag }
    }

    fn written(&self) -> Vec<u8> {
        model::written(&self.record())
    }
}

/// Every suite, the first row and the last, and the shortest and the longest texts and those of a byte.
fn edges(generator: &mut Generator) -> Vec<Content> {
    let lists = [vec![0, 1, 2, 3], vec![1, 20], vec![0, 1, 1024], vec![0, 1, 4096]];
    let content = |chosen: Vec<usize>| {
        let [suite, row, note, cipher] = chosen[..] else { unreachable!() };
        Content::new(&SUITES[suite], row as u16, note, cipher, generator)
    };
    combinations(&lists).into_iter().map(content).collect()
}

/// Records of different sizes, the shortest and the longest among them.
fn mixed(generator: &mut Generator) -> Vec<Content> {
    vec![
        Content::new(&SUITES[0], 1, 0, 0, generator),
        Content::new(&SUITES[2], 20, 1, 37, generator),
        Content::longest(generator),
        Content::new(&SUITES[1], 7, 1024, 1, generator),
        Content::new(&SUITES[3], 12, 300, 255, generator),
        Content::new(&SUITES[0], 2, 0, 256, generator),
    ]
}

fn some(count: usize, generator: &mut Generator) -> Vec<Content> {
    (0..count).map(|_| Content::random(generator, 40, 60)).collect()
}

fn longest(count: usize, generator: &mut Generator) -> Vec<Content> {
    (0..count).map(|_| Content::longest(generator)).collect()
}

fn bundle(contents: &[Content]) -> Vec<u8> {
    contents.iter().flat_map(Content::written).collect()
}

/// Where each record begins, and where the last one ends.
fn borders(contents: &[Content]) -> Vec<usize> {
    let lengths = contents.iter().map(|content| content.written().len());
    let ends = lengths.scan(0, |end, length| {
        *end += length;
        Some(*end)
    });
    [0].into_iter().chain(ends).collect()
}

/// The number for a record at a place. The answer is the model's, in every field; the wrapper has the same
/// from inside the bytes; and what is accepted is what the writer writes for it.
fn read(bytes: &[u8], at: usize) -> u8 {
    let answer = ffi::read_record(bytes, at);
    assert_eq!(answer, model::reading(bytes, at), "at {at} of {bytes:02x?}");
    match read_record(bytes, at) {
        Err(refusal) => assert_eq!(refusal.number(), answer.number),
        Ok(Found { record, length }) => {
            assert_eq!((answer.number, answer.length), (0, length));
            let mut again = vec![0; length];
            assert_eq!(write_record(&record, &mut again), Ok(length));
            assert!(again == bytes[at..at + length], "at {at} of {bytes:02x?}");
        }
    }
    answer.number
}

/// The answer for a bundle: the model's, and the wrapper's.
fn count(bytes: &[u8]) -> Result<usize, u8> {
    let answer = ffi::read_bundle(bytes);
    assert_eq!(answer, model::bundle_reading(bytes), "{bytes:02x?}");
    let counted = read_bundle(bytes).map_err(RecordRefusal::number);
    assert_eq!(counted, done_or_refused(answer.number, answer.records));
    counted
}

fn done_or_refused(number: u8, value: usize) -> Result<usize, u8> {
    if number == 0 { Ok(value) } else { Err(number) }
}

/// How often each number came up.
#[derive(Default)]
struct Tally(BTreeMap<u8, usize>);

impl Tally {
    fn note(&mut self, number: u8) {
        *self.0.entry(number).or_default() += 1;
    }

    fn numbers(&self) -> Vec<u8> {
        self.0.keys().copied().collect()
    }
}

/// From the sentences of 02 by hand.
#[test]
fn a_record_written_out() {
    let nonce = [0x20, 0x21, 0x22, 0x23, 0x24, 0x25, 0x26, 0x27];
    let (note, cipher, tag) = ([0x30, 0x31, 0x32], [0x40, 0x41], [0x50; 16]);
    let record =
        Record { suite: 2, row: 13, nonce: &nonce, note: &note, cipher: &cipher, tag: &tag };
    let expected =
        b"\x01\x00\x01\x02\x02\x00\x02\x00\x0d\x03\x00\x08\x20\x21\x22\x23\x24\x25\x26\x27\
        \x04\x00\x03\x30\x31\x32\x05\x00\x02\x40\x41\x06\x00\x10PPPPPPPPPPPPPPPP";
    let mut bytes = [0xa5; 60];
    assert_eq!(write_record(&record, &mut bytes), Ok(50));
    assert_eq!(&bytes[..50], expected);
    assert_eq!(bytes[50..], [0xa5; 10]);
    assert_eq!(read_record(&bytes, 0), Ok(Found { record, length: 50 }));
    assert_eq!(record.data(), [0, 13, 0x30, 0x31, 0x32]);
}

/// In a destination of just its length and in longer ones; read back at several places, with bytes before and
/// after.
fn assert_written_and_read_back(content: &Content, generator: &mut Generator) {
    let (record, expected) = (content.record(), content.written());
    for more in [0, 1, 100] {
        let destination = generator.bytes(expected.len() + more);
        let (answer, bytes, untouched) =
            surrounded(&destination, |destination| write_record(&record, destination));
        assert_eq!(answer, Ok(expected.len()));
        assert!(bytes[..expected.len()] == expected, "{expected:02x?}");
        assert!(bytes[expected.len()..] == destination[expected.len()..]);
        assert!(untouched);
    }
    for (before, after) in [(0, 0), (1, 0), (0, 1), (37, 16), (LONGEST, LONGEST)] {
        let bytes = [generator.bytes(before), expected.clone(), generator.bytes(after)].concat();
        assert_eq!(read(&bytes, before), 0);
        assert_eq!(read_record(&bytes, before), Ok(Found { record, length: expected.len() }));
    }
}

#[test]
fn what_is_written_is_read_back() {
    let mut generator = Generator::new(1);
    for content in edges(&mut generator) {
        assert_written_and_read_back(&content, &mut generator);
    }
    for most in [(0, 0), (3, 3), (40, 300), (1024, 4096)] {
        for _ in 0..500 {
            let content = Content::random(&mut generator, most.0, most.1);
            assert_written_and_read_back(&content, &mut generator);
        }
    }
}

/// For each suite every combination of a wrong suite, row, nonce, note, ciphertext, tag and destination. The
/// lengths from 65,536 on would be allowed in two bytes.
#[test]
fn the_refusals_of_the_writer() {
    let bytes = Generator::new(2).bytes(70_000);
    let mut tally = Tally::default();
    for suite in &SUITES {
        let (number, length) = (suite.number.into(), suite.nonce_length);
        let shortest = 37 + length + 5 + 9;
        let lists = [
            vec![number, 0, 5, 255],
            vec![7, 0, 21, 256, 263, 65_535],
            vec![length, 0, length - 1, length + 1, 8 + 15 - length, 65_536 + length],
            vec![5, 1025, 65_541],
            vec![9, 4097, 65_545],
            vec![16, 0, 15, 17, 65_552],
            vec![shortest, 0, shortest - 1, shortest + 1],
        ];
        for chosen in combinations(&lists) {
            let part = |n: usize| &bytes[n..n + chosen[n]];
            let record = Record {
                suite: chosen[0] as u8,
                row: chosen[1] as u16,
                nonce: part(2),
                note: part(3),
                cipher: part(4),
                tag: part(5),
            };
            tally.note(assert_written_as_by_model(&record, part(6)));
        }
    }
    assert_eq!(tally.numbers(), [0, 12, 13, 24]);
    assert_eq!(tally.0[&0], 4 * 2, "the right choices, with two destinations in each suite");
}

fn assert_written_as_by_model(record: &Record, destination: &[u8]) -> u8 {
    let Record { suite, row, nonce, note, cipher, tag } = *record;
    let (answer, bytes, untouched) = surrounded(destination, |destination| {
        ffi::write_record(suite, row, nonce, note, cipher, tag, destination)
    });
    let (expected_answer, expected_bytes) = model::writing(record, destination);
    assert_eq!(answer, expected_answer, "{record:02x?}");
    assert!(bytes == expected_bytes, "{record:02x?}");
    assert!(untouched);
    let wrapped = write_record(record, &mut destination.to_vec()).map_err(RecordRefusal::number);
    assert_eq!(wrapped, done_or_refused(answer.number, answer.length));
    answer.number
}

/// A destination of each length up to the record's own and past it.
#[test]
fn the_room_that_the_writer_needs() {
    let mut generator = Generator::new(3);
    let content = Content::new(&SUITES[1], 3, 21, 33, &mut generator);
    let length = content.written().len();
    for room in 0..length + 3 {
        let number = assert_written_as_by_model(&content.record(), &generator.bytes(room));
        assert_eq!(number, if room < length { 24 } else { 0 });
    }
}

/// With another record after it, which a changed length reaches into.
#[test]
fn every_byte_of_a_record_changed() {
    let mut generator = Generator::new(4);
    for suite in &SUITES {
        let contents =
            [Content::new(suite, 5, 5, 7, &mut generator), Content::random(&mut generator, 9, 9)];
        let (whole, length) = (bundle(&contents), contents[0].written().len());
        let (mut tally, mut of_bundles) = (Tally::default(), Tally::default());
        for n in 0..length {
            for value in (0..=255).filter(|value| *value != whole[n]) {
                let mut changed = whole.clone();
                changed[n] = value;
                tally.note(read(&changed[..length], 0));
                of_bundles.note(count(&changed).err().unwrap_or(0));
            }
        }
        assert_eq!(tally.numbers(), [0, 10, 11, 12, 13], "{}", suite.name);
        assert_eq!(of_bundles.numbers(), [0, 10, 11, 12, 13], "{}", suite.name);
        let texts = suite.nonce_length + 5 + 7 + 16;
        let other_suite_and_rows = 1 + 19;
        assert_eq!(tally.0[&0], 255 * texts + other_suite_and_rows, "{}", suite.name);
    }
}

#[test]
fn every_byte_of_a_longest_record_changed() {
    let whole = Content::longest(&mut Generator::new(5)).written();
    for n in 0..whole.len() {
        for change in [0x01, 0x10, 0x80, 0xff] {
            let mut changed = whole.clone();
            changed[n] ^= change;
            read(&changed, 0);
            count(&changed).ok();
        }
    }
}

#[test]
fn a_record_cut_after_every_byte() {
    let mut generator = Generator::new(6);
    for content in edges(&mut generator).iter().chain(&mixed(&mut generator)) {
        let whole = content.written();
        for end in 0..whole.len() {
            let answer = ffi::read_record(&whole[..end], 0);
            assert_eq!(answer, ffi::Record { number: 10, ..Default::default() });
            assert_eq!(answer, model::reading(&whole[..end], 0));
        }
        assert_eq!(read(&whole, 0), 0);
    }
}

/// Between two records it is a bundle; elsewhere bytes are missing.
fn assert_cut_after_every_byte(contents: &[Content]) {
    let (whole, borders) = (bundle(contents), borders(contents));
    for end in 0..=whole.len() {
        let expected = borders.binary_search(&end).map_err(|_| 10);
        assert_eq!(count(&whole[..end]), expected, "cut after {end} bytes");
    }
}

#[test]
fn a_bundle_cut_after_every_byte() {
    let mut generator = Generator::new(7);
    assert_cut_after_every_byte(&mixed(&mut generator));
    assert_cut_after_every_byte(&some(MOST_RECORDS, &mut generator));
    assert_cut_after_every_byte(&longest(MOST_RECORDS, &mut generator));
}

#[test]
fn sixty_four_records_and_more() {
    let mut generator = Generator::new(8);
    for make in [some, longest] {
        let contents = make(MOST_RECORDS + 1, &mut generator);
        let (whole, borders) = (bundle(&contents), borders(&contents));
        for (records, end) in borders.iter().enumerate().take(MOST_RECORDS) {
            assert_eq!(count(&whole[..*end]), Ok(records));
            assert_eq!(count(&[&whole[..*end], &[1]].concat()), Err(10), "{records} and a byte");
        }
        let last = borders[MOST_RECORDS];
        assert_eq!(count(&whole[..last]), Ok(64));
        for end in last + 1..=whole.len() {
            assert_eq!(count(&whole[..end]), Err(15), "64 records and {} bytes", end - last);
        }
        for byte in 0..=255 {
            assert_eq!(count(&[&whole[..last], &[byte]].concat()), Err(15));
        }
    }
}

#[test]
fn the_longest_record_and_the_longest_bundle() {
    let longest = longest(MOST_RECORDS, &mut Generator::new(9));
    assert_eq!(longest[0].written().len(), LONGEST);
    assert_eq!(bundle(&longest).len(), LONGEST_BUNDLE);
    assert_eq!(count(&bundle(&longest)), Ok(MOST_RECORDS));
}

/// A record begins at no other place, since no text here has the bytes of one.
#[test]
fn every_place_of_a_bundle() {
    let mut generator = Generator::new(10);
    for contents in [mixed(&mut generator), some(MOST_RECORDS, &mut generator), vec![]] {
        let (bytes, borders) = (bundle(&contents), borders(&contents));
        let places = (0..bytes.len() + 4).chain((0..4).map(|n| usize::MAX - n));
        for at in places {
            let number = read(&bytes, at);
            let starts_here = at < bytes.len() && borders.contains(&at);
            assert_eq!(number == 0, starts_here, "at {at}");
            assert!(number == 10 || at < bytes.len(), "at {at}");
        }
    }
}

/// Small numbers, which tags, lengths and values are, come up more often than others.
#[test]
fn random_bytes() {
    let mut generator = Generator::new(11);
    let mut memory = Guarded::new(80);
    let mut tally = Tally::default();
    for limit in [7, 21, 256] {
        for _ in 0..100_000 {
            let mut bytes = vec![0; generator.below(81)];
            bytes.iter_mut().for_each(|byte| *byte = generator.below(limit) as u8);
            let bytes = memory.at_end(&bytes);
            tally.note(read(bytes, generator.below(4)));
            tally.note(count(bytes).err().unwrap_or(0));
        }
    }
    assert_eq!(tally.numbers(), [0, 10, 11, 12, 13]);
}

/// Bundles with some bytes changed, taken out, put in or said twice.
#[test]
fn damaged_bundles() {
    let mut generator = Generator::new(12);
    let mut memory = Guarded::new(2 * 65 * 60);
    let mut tally = Tally::default();
    for _ in 0..20_000 {
        let records = [1, 2, 3, 64, 65][generator.below(5)];
        let contents: Vec<_> =
            (0..records).map(|_| Content::random(&mut generator, 4, 4)).collect();
        let mut bytes = bundle(&contents);
        damage(&mut bytes, &mut generator);
        let bytes = memory.at_end(&bytes);
        tally.note(count(bytes).err().unwrap_or(0));
        read(bytes, generator.below(bytes.len() + 1));
    }
    assert_eq!(tally.numbers(), [0, 10, 11, 12, 13, 15]);
}

fn damage(bytes: &mut Vec<u8>, generator: &mut Generator) {
    let at = generator.below(bytes.len());
    match generator.below(5) {
        0 => bytes[at] = generator.below(256) as u8,
        1 => bytes[at] = generator.below(22) as u8,
        2 => drop(bytes.remove(at)),
        3 => bytes.insert(at, generator.below(22) as u8),
        _ => bytes.extend_from_within(at..),
    }
}

type Lay = for<'a> fn(&'a mut Guarded, &[u8]) -> &'a mut [u8];

/// Right before a page that can't be read, and right after one.
const BOTH_ENDS: [Lay; 2] = [Guarded::at_end, Guarded::at_start];

/// Every cut of a bundle, and so of each record in it.
#[test]
fn the_readers_stay_inside_the_bytes() {
    let contents = mixed(&mut Generator::new(13));
    let (whole, borders) = (bundle(&contents), borders(&contents));
    let mut memory = Guarded::new(whole.len());
    for end in 0..=whole.len() {
        let cut = &whole[..end];
        for lay in BOTH_ENDS {
            let bytes = &*lay(&mut memory, cut);
            assert_eq!(ffi::read_bundle(bytes), model::bundle_reading(cut));
            for at in borders.iter().copied().chain([end, end + 1, usize::MAX]) {
                assert_eq!(ffi::read_record(bytes, at), model::reading(cut, at));
            }
        }
    }
}

#[test]
fn the_writer_stays_inside_its_texts_and_the_destination() {
    let room = || Guarded::new(LONGEST);
    let (mut nonce, mut note, mut cipher, mut tag) = (room(), room(), room(), room());
    let mut memory = room();
    for content in edges(&mut Generator::new(14)) {
        let (expected, untouched) = (content.written(), vec![0xa5; LONGEST]);
        for lay in BOTH_ENDS {
            let record = Record {
                nonce: lay(&mut nonce, &content.nonce),
                note: lay(&mut note, &content.note),
                cipher: lay(&mut cipher, &content.cipher),
                tag: lay(&mut tag, &content.tag),
                ..content.record()
            };
            let destination = lay(&mut memory, &untouched[..expected.len()]);
            assert_eq!(write_record(&record, destination), Ok(expected.len()));
            assert!(destination == expected);

            let destination = lay(&mut memory, &untouched[..expected.len() - 1]);
            assert_eq!(write_record(&record, destination), Err(RecordRefusal::NoRoom));
            assert!(destination == &untouched[..expected.len() - 1]);
        }
    }
}

/// By what was read and the key.
fn open_kept(key: &[u8], bytes: &[u8]) -> Result<Vec<u8>, Refusal> {
    let Found { record, .. } = read_record(bytes, 0).unwrap();
    let mut buffer = record.cipher.to_vec();
    open(record.suite, key, record.nonce, &record.data(), &mut buffer, record.tag)?;
    Ok(buffer)
}

/// The associated data is the two row bytes, then the note: with another row, or with one byte of the note,
/// the nonce, the ciphertext or the tag changed, it is refused with 7.
#[test]
fn a_row_is_sealed_and_kept_and_opened_again() {
    const MESSAGE: [u8; 21] = *b"45 dB, then 60 and 72";
    for suite in &SUITES {
        let (key, nonce) = (key(suite), nonce(suite));
        let mut cipher = MESSAGE;
        let data = [&[0, 7], DATA.as_slice()].concat();
        let sealed = seal(suite.number, &key, &nonce, &data, &mut cipher).unwrap();
        let record = Record {
            suite: suite.number,
            row: 7,
            nonce: &nonce,
            note: &DATA,
            cipher: &cipher,
            tag: &sealed.tag,
        };
        let mut kept = [0; LONGEST];
        let length = write_record(&record, &mut kept).unwrap();
        let kept = &kept[..length];
        assert_eq!(open_kept(&key, kept), Ok(MESSAGE.to_vec()));

        let forgery = Err(Refusal::WrongTag { rows: sealed.rows });
        for row in (1..=20).filter(|row| *row != 7) {
            let mut changed = kept.to_vec();
            changed[8] = row;
            assert_eq!(open_kept(&key, &changed), forgery, "row {row}");
        }
        let ffi::Record { nonce, note, cipher, tag, .. } = ffi::read_record(kept, 0);
        let texts = [
            nonce..nonce + suite.nonce_length,
            note..note + DATA.len(),
            cipher..cipher + MESSAGE.len(),
            tag..tag + 16,
        ];
        for n in texts.into_iter().flatten() {
            let mut changed = kept.to_vec();
            changed[n] ^= 0x10;
            assert_eq!(open_kept(&key, &changed), forgery, "byte {n}");
        }
    }
}

#[test]
fn the_limits_are_those_of_the_request() {
    assert_eq!((NOTE_LIMIT, CIPHER_LIMIT, ROW_LIMIT), (1024, 4096, 20));
    assert_eq!(
        (RECORD_LIMIT, BUNDLE_RECORDS, BUNDLE_LIMIT),
        (LONGEST, MOST_RECORDS, LONGEST_BUNDLE)
    );
}

#[test]
fn what_a_refusal_says() {
    let refusals = [
        (read_record(&[1, 0], 0).unwrap_err(), 10, "bytes are missing"),
        (
            read_record(&[2, 0, 1, 1], 0).unwrap_err(),
            11,
            "a field has another tag than the one that comes next",
        ),
        (read_bundle(&[1, 0, 2, 1]).unwrap_err(), 12, "a field has a length that it may not have"),
        (
            read_bundle(&[1, 0, 1, 5]).unwrap_err(),
            13,
            "the suite isn't 1 to 4, or the row isn't 1 to 20",
        ),
        (RecordRefusal::TooManyRecords, 15, "there are bytes after record 64"),
        (RecordRefusal::NoRoom, 24, "the destination is shorter than the record"),
    ];
    for (refusal, number, text) in refusals {
        assert_eq!((refusal.number(), refusal.to_string().as_str()), (number, text));
    }
}
