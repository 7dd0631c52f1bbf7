//! The longest bundle, read, and its records written, beside a copy of its bytes.

use crate::stopwatch::Times;
use calibration::{
    BUNDLE_LIMIT, BUNDLE_RECORDS, CIPHER_LIMIT, Found, NOTE_LIMIT, RECORD_LIMIT, Record, SUITES,
    read_bundle, read_record, write_record,
};
use cases::Generator;
use std::{hint::black_box, time::Instant};

/// Calls in a measurement, so that reading the clock doesn't count.
const CALLS: usize = 16;

#[derive(Clone, Copy, PartialEq, Eq)]
pub enum Work {
    /// What the others are measured against.
    Copying,
    ReadingTheBundle,
    ReadingEachRecord,
    WritingEachRecord,
}

impl Work {
    pub const ALL: [Work; 4] =
        [Work::Copying, Work::ReadingTheBundle, Work::ReadingEachRecord, Work::WritingEachRecord];

    pub fn name(self) -> &'static str {
        match self {
            Work::Copying => "copying the bytes",
            Work::ReadingTheBundle => "reading the bundle",
            Work::ReadingEachRecord => "reading each record",
            Work::WritingEachRecord => "writing each record",
        }
    }

    pub fn is_reading(self) -> bool {
        matches!(self, Work::ReadingTheBundle | Work::ReadingEachRecord)
    }
}

pub struct Records {
    bundle: Vec<u8>,
    pub times: Times<Work>,
}

impl Records {
    pub fn new() -> Self {
        let mut generator = Generator::new(BUNDLE_RECORDS as u64);
        let mut bundle = vec![0; BUNDLE_LIMIT];
        for place in bundle.chunks_exact_mut(RECORD_LIMIT) {
            let suite = &SUITES[3];
            let record = Record {
                suite: suite.number,
                row: 20,
                nonce: &generator.bytes(suite.nonce_length),
                note: &generator.bytes(NOTE_LIMIT),
                cipher: &generator.bytes(CIPHER_LIMIT),
                tag: &generator.bytes(16),
            };
            assert_eq!(write_record(&record, place), Ok(RECORD_LIMIT), "the longest record");
        }
        Records { bundle, times: Times::new(&Work::ALL) }
    }

    pub fn bytes(&self) -> usize {
        self.bundle.len()
    }

    /// One measurement more of each work.
    pub fn measure(&mut self) {
        let mut destination = vec![0xa5; self.bundle.len()];
        for work in self.times.sides() {
            let time = self.time(work, &mut destination);
            self.times.note(work, time);
        }
    }

    fn time(&self, work: Work, destination: &mut [u8]) -> f64 {
        destination.fill(0xa5);
        let records: Vec<Record> = self.each().map(|found| found.record).collect();
        let start = Instant::now();
        for _ in 0..CALLS {
            let done = self.call(work, &records, black_box(&mut *destination));
            assert_eq!(done, BUNDLE_RECORDS, "a wrong answer in {}", work.name());
        }
        let time = start.elapsed().as_nanos() as f64 / CALLS as f64;
        assert!(work.is_reading() || destination == self.bundle, "{}", work.name());
        time
    }

    /// How many records it was of.
    fn call(&self, work: Work, records: &[Record], destination: &mut [u8]) -> usize {
        match work {
            Work::Copying => {
                destination.copy_from_slice(black_box(&self.bundle));
                BUNDLE_RECORDS
            }
            Work::ReadingTheBundle => read_bundle(black_box(&self.bundle)).unwrap_or(0),
            Work::ReadingEachRecord => self.each().map(black_box).count(),
            Work::WritingEachRecord => {
                let pairs = records.iter().zip(destination.chunks_exact_mut(RECORD_LIMIT));
                let write = |(record, place)| write_record(black_box(record), place).ok();
                pairs.filter_map(write).count()
            }
        }
    }

    /// Every record of the bundle, each read at its place.
    fn each(&self) -> impl Iterator<Item = Found<'_>> {
        let mut at = 0;
        std::iter::from_fn(move || {
            let found = read_record(&self.bundle, at).ok()?;
            at += found.length;
            Some(found)
        })
    }
}
