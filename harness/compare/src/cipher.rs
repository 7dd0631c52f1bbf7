//! One case: sealed and opened by both, whole and damaged.

use crate::report::{Kind, Part, Place, Report};
use calibration::ffi;
use cases::{Case, Generator, surrounded};
use std::fmt::Debug;

/// What an opening is given.
#[derive(Clone)]
struct Opening {
    key: Vec<u8>,
    nonce: Vec<u8>,
    data: Vec<u8>,
    ciphertext: Vec<u8>,
    tag: [u8; 16],
}

impl Opening {
    fn part(&mut self, part: Part) -> &mut [u8] {
        match part {
            Part::Tag => &mut self.tag,
            Part::Ciphertext => &mut self.ciphertext,
            Part::Data => &mut self.data,
            Part::Nonce => &mut self.nonce,
            Part::Key => &mut self.key,
        }
    }
}

/// What both sides made of an opening.
struct Opened {
    verdicts: Verdicts,
    our_bytes: Vec<u8>,
    crate_bytes: Vec<u8>,
}

#[derive(Debug, PartialEq)]
struct Verdicts {
    our_number: u8,
    crate_accepts: bool,
}

/// The crate's answer to a case.
pub struct SealedByCrate {
    pub ciphertext: Vec<u8>,
    pub tag: [u8; 16],
    pub calls: usize,
}

#[derive(Debug, PartialEq)]
pub struct Calls {
    pub ours: usize,
    pub by_crate: usize,
}

pub fn check(case: &Case, report: &mut Report) {
    let mut checker = Checker::new(case, report);
    let mut opening = checker.sealing();
    checker.opening(&opening);
    let mut generator = Generator::new(!case.seed);
    for part in Part::ALL {
        let bits = 8 * opening.part(part).len();
        if bits > 0 {
            checker.damaged_opening(&opening, part, generator.below(bits));
        }
    }
}

pub fn check_every_tag_bit(case: &Case, report: &mut Report) {
    let mut checker = Checker::new(case, report);
    let opening = checker.sealing();
    for bit in 0..128 {
        checker.damaged_opening(&opening, Part::Tag, bit);
    }
}

pub struct Checker<'a> {
    case: &'a Case,
    suite: u8,
    report: &'a mut Report,
    damage: Option<(Part, usize)>,
}

impl<'a> Checker<'a> {
    pub fn new(case: &'a Case, report: &'a mut Report) -> Self {
        Checker { case, suite: case.suite.number, report, damage: None }
    }

    /// Gives what the crate sealed.
    fn sealing(&mut self) -> Opening {
        let Case { key, nonce, data, message, .. } = self.case;
        let (ours, our_bytes, untouched) =
            surrounded(message, |buffer| ffi::seal(self.suite, key, nonce, data, buffer));
        let SealedByCrate { ciphertext, tag, calls } = self.sealed_by_crate();

        self.values(Kind::SealingDone, ours.number, 0);
        self.bytes(Kind::Ciphertext, &our_bytes, &ciphertext);
        self.bytes(Kind::Tag, &ours.tag, &tag);
        self.calls(Kind::SealingCalls, Calls { ours: ours.rows, by_crate: calls });
        self.values(Kind::Surroundings, untouched, true);
        let (key, nonce, data) = (key.clone(), nonce.clone(), data.clone());
        Opening { key, nonce, data, ciphertext, tag }
    }

    pub fn sealed_by_crate(&self) -> SealedByCrate {
        let Case { key, nonce, data, message, .. } = self.case;
        let mut ciphertext = message.clone();
        let (tag, calls) = oracle::count_calls(self.suite, || {
            oracle::seal(self.suite, key, nonce, data, &mut ciphertext)
        });
        SealedByCrate { ciphertext, tag, calls }
    }

    fn opening(&mut self, opening: &Opening) {
        let opened = self.open(Kind::OpeningCalls, opening);
        let both_accept = Verdicts { our_number: 0, crate_accepts: true };
        self.values(Kind::OpeningDone, opened.verdicts, both_accept);
        self.bytes(Kind::Message, &opened.our_bytes, &self.case.message);
        self.bytes(Kind::Message, &opened.crate_bytes, &self.case.message);
    }

    fn damaged_opening(&mut self, whole: &Opening, part: Part, bit: usize) {
        self.damage = Some((part, bit));
        let mut damaged = whole.clone();
        damaged.part(part)[bit / 8] ^= 1 << (bit % 8);
        let opened = self.open(Kind::DamagedCalls, &damaged);
        let both_refuse = Verdicts { our_number: 7, crate_accepts: false };
        self.values(Kind::Damaged(part), opened.verdicts, both_refuse);
        let zeros = vec![0; damaged.ciphertext.len()];
        self.bytes(Kind::Zeros, &opened.our_bytes, &zeros);
        if self.case.message.is_empty() {
            return;
        }
        if self.case.suite.is_two_pass() {
            let keystream = self.keystream(whole, &damaged, part);
            let recovered = xor(&damaged.ciphertext, &keystream);
            self.bytes(Kind::CrateLeftBytes, &opened.crate_bytes, &recovered);
        } else {
            let sealed_again = self.sealed_by_us(&damaged, &opened.crate_bytes);
            self.bytes(Kind::CrateLeftBytes, &sealed_again, &damaged.ciphertext);
        }
    }

    /// In Deoxys-I each message has its own ciphertext, whatever the tag: what seals to the damaged
    /// ciphertext is what the damaged ciphertext deciphers to.
    fn sealed_by_us(&self, damaged: &Opening, message: &[u8]) -> Vec<u8> {
        let Opening { key, nonce, data, .. } = damaged;
        let mut buffer = message.to_vec();
        ffi::seal(self.suite, key, nonce, data, &mut buffer);
        buffer
    }

    /// In Deoxys-II a message is XORed with a keystream of key, nonce and tag. If one of these is
    /// damaged, nobody knows the keystream but the crate, which leaves it where it opens zeros.
    fn keystream(&self, whole: &Opening, damaged: &Opening, part: Part) -> Vec<u8> {
        if matches!(part, Part::Data | Part::Ciphertext) {
            return xor(&self.case.message, &whole.ciphertext);
        }
        let Opening { key, nonce, data, tag, .. } = damaged;
        let mut buffer = vec![0; self.case.message.len()];
        oracle::open(self.suite, key, nonce, data, &mut buffer, tag);
        buffer
    }

    fn open(&mut self, calls_kind: Kind, opening: &Opening) -> Opened {
        let Opening { key, nonce, data, ciphertext, tag } = opening;
        let (ours, our_bytes, untouched) =
            surrounded(ciphertext, |buffer| ffi::open(self.suite, key, nonce, data, buffer, tag));
        let mut crate_bytes = ciphertext.clone();
        let (crate_accepts, by_crate) = oracle::count_calls(self.suite, || {
            oracle::open(self.suite, key, nonce, data, &mut crate_bytes, tag)
        });

        self.calls(calls_kind, Calls { ours: ours.rows, by_crate });
        self.values(Kind::Surroundings, untouched, true);
        let verdicts = Verdicts { our_number: ours.number, crate_accepts };
        Opened { verdicts, our_bytes, crate_bytes }
    }

    /// The crate draws keystream for the rest after the whole blocks, even where there is none.
    pub fn calls(&mut self, kind: Kind, calls: Calls) {
        let length = self.case.message.len();
        let has_no_rest = length > 0 && length.is_multiple_of(16);
        let one_more = self.case.suite.is_two_pass() && has_no_rest;
        let ours = self.case.rows();
        let by_crate = ours + usize::from(one_more);
        if calls.by_crate == ours + 1 {
            self.report.count(self.suite, Kind::OneCallMore);
        }
        self.values(kind, calls, Calls { ours, by_crate });
    }

    pub fn values<T: PartialEq + Debug>(&mut self, kind: Kind, seen: T, expected: T) {
        let name = || name(self.case, self.damage);
        let place = Place::new(self.suite, kind, &name);
        self.report.values(place, seen, expected);
    }

    pub fn bytes(&mut self, kind: Kind, seen: &[u8], expected: &[u8]) {
        let name = || name(self.case, self.damage);
        let place = Place::new(self.suite, kind, &name);
        self.report.bytes(place, seen, expected);
    }
}

fn name(case: &Case, damage: Option<(Part, usize)>) -> String {
    let damage = damage.map(|(part, bit)| format!(", bit {bit} of the {} flipped", part.name()));
    case.name() + &damage.unwrap_or_default()
}

fn xor(a: &[u8], b: &[u8]) -> Vec<u8> {
    a.iter().zip(b).map(|(a, b)| a ^ b).collect()
}
