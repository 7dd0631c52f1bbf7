//! Refusals 1 to 6, which the crate doesn't have: every combination of faults, and the first one decides.

use crate::report::{Kind, Place, Report};
use calibration::{LIMIT, Suite, ffi};
use cases::{Generator, combinations, surrounded};

const SEED: u64 = 1;

/// The right choice first, then the faults: for the suite, and for the lengths of key, nonce, data,
/// message and tag. A fault in the first list is refused with 1, and so on.
fn choices(suite: &Suite) -> [Vec<usize>; 6] {
    let (key, nonce) = (suite.key_length, suite.nonce_length);
    let (key_of_other_suites, nonce_of_other_suites) = (16 + 32 - key, 8 + 15 - nonce);
    [
        vec![suite.number.into(), 0, 5, 255],
        vec![key, 0, key - 1, key + 1, key_of_other_suites],
        vec![nonce, 0, nonce - 1, nonce + 1, nonce_of_other_suites],
        vec![18, LIMIT + 1],
        vec![37, LIMIT + 1],
        vec![16, 0, 15, 17],
    ]
}

pub fn check(suite: &Suite, report: &mut Report) {
    let choices = choices(suite);
    let bytes = Generator::new(SEED).bytes(LIMIT + 1);
    for chosen in combinations(&choices) {
        let faults: Vec<usize> = (0..6).filter(|n| chosen[*n] != choices[*n][0]).collect();
        let Some(first) = faults.first() else { continue };
        let attempt = Attempt { suite, chosen, bytes: &bytes, number: first + 1 };
        attempt.check_opening(report);
        let tag_is_right = !faults.contains(&5);
        if tag_is_right {
            attempt.check_sealing(report);
        }
    }
}

/// A call that must be refused with `number`.
struct Attempt<'a> {
    suite: &'a Suite,
    chosen: Vec<usize>,
    bytes: &'a [u8],
    number: usize,
}

#[derive(Debug, PartialEq)]
struct Outcome<Answer> {
    answer: Answer,
    buffer_stayed: bool,
    surroundings_stayed: bool,
}

impl Attempt<'_> {
    fn check_opening(&self, report: &mut Report) {
        let expected = ffi::Opened { number: self.number as u8, rows: 0 };
        self.check(report, "opening", expected, |suite, key, nonce, data, buffer| {
            ffi::open(suite, key, nonce, data, buffer, self.part(5))
        });
    }

    fn check_sealing(&self, report: &mut Report) {
        let expected = ffi::Sealed { number: self.number as u8, tag: [0; 16], rows: 0 };
        self.check(report, "sealing", expected, ffi::seal);
    }

    fn check<Answer: std::fmt::Debug + PartialEq>(
        &self,
        report: &mut Report,
        operation: &str,
        expected: Answer,
        call: impl FnOnce(u8, &[u8], &[u8], &[u8], &mut [u8]) -> Answer,
    ) {
        let message = self.part(4);
        let (answer, buffer, surroundings_stayed) = surrounded(message, |buffer| {
            call(self.chosen[0] as u8, self.part(1), self.part(2), self.part(3), buffer)
        });
        let seen = Outcome { answer, buffer_stayed: buffer == message, surroundings_stayed };
        let expected = Outcome { answer: expected, buffer_stayed: true, surroundings_stayed: true };
        let name = || format!("{operation} with {}", self.name());
        let place = Place::new(self.suite.number, Kind::Refused(self.number), &name);
        report.values(place, seen, expected);
    }

    fn part(&self, n: usize) -> &[u8] {
        &self.bytes[..self.chosen[n]]
    }

    fn name(&self) -> String {
        let lengths: Vec<String> = ["key", "nonce", "data", "message", "tag"]
            .iter()
            .zip(&self.chosen[1..])
            .map(|(part, length)| format!("{part} {length} bytes"))
            .collect();
        format!("suite {}, {}, seed {SEED}", self.chosen[0], lengths.join(", "))
    }
}
