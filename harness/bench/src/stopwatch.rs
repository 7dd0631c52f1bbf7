//! A task is timed on each side in turn, and all tasks in each round, so that a slow moment of the machine
//! hits all sides of all rows alike.

use calibration::{Pieces, Sealed};
use cases::Case;
use std::{hint::black_box, time::Instant};

/// Rounds over all tasks: a minute and a half in all.
pub const ROUNDS: usize = 61;

/// Short messages are timed many at a time, so that reading the clock doesn't count.
const BYTES_OF_A_MEASUREMENT: usize = 65_536;

/// Bytes of a piece.
pub const PIECE: usize = 4096;

#[derive(Clone, Copy, PartialEq, Eq)]
pub enum Side {
    Ours,
    /// Sealing alone: the library has no other operation by pieces.
    OursByPieces,
    CrateWithInstructions,
    CrateWithout,
}

#[derive(Clone, Copy)]
pub enum Operation {
    Sealing,
    Opening,
}

impl Operation {
    pub fn name(self) -> &'static str {
        match self {
            Operation::Sealing => "sealing",
            Operation::Opening => "opening",
        }
    }
}

/// Nanoseconds a call, for each side, one of each round.
pub struct Times<Side>(Vec<(Side, Vec<f64>)>);

impl<Side: Copy + PartialEq> Times<Side> {
    pub fn new(sides: &[Side]) -> Self {
        Times(sides.iter().map(|side| (*side, Vec::new())).collect())
    }

    pub fn sides(&self) -> Vec<Side> {
        self.0.iter().map(|(side, _)| *side).collect()
    }

    pub fn note(&mut self, side: Side, time: f64) {
        let times = self.0.iter_mut().find(|(s, _)| *s == side);
        times.expect("the side is timed").1.push(time);
    }

    /// The median of a side, if the side was timed.
    pub fn median(&self, side: Side) -> Option<f64> {
        self.0.iter().find(|(s, _)| *s == side).map(|(_, times)| median(times.clone()))
    }

    /// How many times as long a side takes as another.
    pub fn ratio(&self, side: Side, other: Side) -> Option<f64> {
        self.median(side).zip(self.median(other)).map(|(time, other)| time / other)
    }
}

pub struct Task {
    pub case: Case,
    pub operation: Operation,
    /// What each buffer holds before a call.
    input: Vec<u8>,
    tag: [u8; 16],
    pub times: Times<Side>,
}

impl Task {
    pub fn new(case: Case, operation: Operation, sides: &[Side]) -> Self {
        let mut ciphertext = case.message.clone();
        let Case { key, nonce, data, .. } = &case;
        let sealed = calibration::seal(case.suite.number, key, nonce, data, &mut ciphertext);
        let tag = sealed.expect("the case is allowed").tag;
        let input = match operation {
            Operation::Sealing => case.message.clone(),
            Operation::Opening => ciphertext,
        };
        Task { case, operation, input, tag, times: Times::new(sides) }
    }

    /// One measurement more on each side.
    pub fn measure(&mut self) {
        let calls = (BYTES_OF_A_MEASUREMENT / self.input.len()).max(1);
        let mut buffers = vec![0; calls * self.input.len()];
        for side in self.times.sides() {
            let time = self.time(side, &mut buffers) / calls as f64;
            self.times.note(side, time);
        }
    }

    fn time(&self, side: Side, buffers: &mut [u8]) -> f64 {
        for buffer in buffers.chunks_exact_mut(self.input.len()) {
            buffer.copy_from_slice(&self.input);
        }
        oracle::use_instructions(side != Side::CrateWithout);
        let start = Instant::now();
        for buffer in buffers.chunks_exact_mut(self.input.len()) {
            self.call(side, black_box(buffer));
        }
        start.elapsed().as_nanos() as f64
    }

    fn call(&self, side: Side, buffer: &mut [u8]) {
        let Case { key, nonce, data, .. } = &self.case;
        let (suite, tag) = (self.case.suite.number, &self.tag);
        let right = match (side, self.operation) {
            (Side::Ours, Operation::Sealing) => calibration::seal(suite, key, nonce, data, buffer)
                .is_ok_and(|sealed| sealed.tag == *tag),
            (Side::Ours, Operation::Opening) => {
                calibration::open(suite, key, nonce, data, buffer, tag).is_ok()
            }
            (Side::OursByPieces, _) => seal_by_pieces(&self.case, buffer).tag == *tag,
            (_, Operation::Sealing) => oracle::seal(suite, key, nonce, data, buffer) == *tag,
            (_, Operation::Opening) => oracle::open(suite, key, nonce, data, buffer, tag),
        };
        assert!(right, "a wrong answer on {}", self.case.name());
    }
}

fn seal_by_pieces(case: &Case, buffer: &mut [u8]) -> Sealed {
    let Case { key, nonce, data, .. } = case;
    let begun = Pieces::begin(case.suite.number, key, nonce, data);
    let mut pieces = begun.expect("the case is allowed");
    for piece in buffer.chunks_mut(PIECE) {
        pieces = pieces.take(piece).expect("the case is allowed");
    }
    pieces.finish()
}

fn median(mut times: Vec<f64>) -> f64 {
    times.sort_by(f64::total_cmp);
    times[times.len() / 2]
}

#[cfg(test)]
mod tests {
    #[test]
    fn the_median_is_the_middle_one() {
        assert_eq!(super::median(vec![9.0, 1.0, 5.0]), 5.0);
    }
}
