//! What was compared, how often, and the first difference.

use calibration::{SUITES, Suite};
use std::{collections::BTreeMap, fmt::Debug};

#[derive(Clone, Copy, PartialEq, Eq, PartialOrd, Ord)]
pub enum Kind {
    SealingDone,
    Ciphertext,
    Tag,
    SealingCalls,
    OpeningDone,
    Message,
    OpeningCalls,
    Damaged(Part),
    Zeros,
    CrateLeftBytes,
    DamagedCalls,
    Surroundings,
    Refused(usize),
    OneCallMore,
    ByPieces(Step),
}

/// What of a sealing by pieces.
#[derive(Clone, Copy, PartialEq, Eq, PartialOrd, Ord)]
pub enum Step {
    Done,
    Ciphertext,
    Tag,
    Calls,
    Surroundings,
    Refused(u8),
}

impl Step {
    const ALL: [Step; 7] = [
        Step::Done,
        Step::Ciphertext,
        Step::Tag,
        Step::Calls,
        Step::Surroundings,
        Step::Refused(5),
        Step::Refused(8),
    ];

    fn label(self) -> String {
        match self {
            Step::Done => "by pieces: number 0 of every call",
            Step::Ciphertext => "by pieces: ciphertext as the crate's",
            Step::Tag => "by pieces: tag as the crate's",
            Step::Calls => "by pieces: block calls",
            Step::Surroundings => "by pieces: bytes around every piece untouched",
            Step::Refused(number) => {
                return format!("by pieces, refused with {number}: answer, state and piece");
            }
        }
        .to_string()
    }

    fn is_ours_alone(self) -> bool {
        !matches!(self, Step::Ciphertext | Step::Tag | Step::Calls)
    }
}

/// What of an opening is damaged.
#[derive(Clone, Copy, PartialEq, Eq, PartialOrd, Ord)]
pub enum Part {
    Tag,
    Ciphertext,
    Data,
    Nonce,
    Key,
}

impl Part {
    pub const ALL: [Part; 5] = [Part::Tag, Part::Ciphertext, Part::Data, Part::Nonce, Part::Key];

    pub fn name(self) -> &'static str {
        match self {
            Part::Tag => "tag",
            Part::Ciphertext => "ciphertext",
            Part::Data => "data",
            Part::Nonce => "nonce",
            Part::Key => "key",
        }
    }
}

impl Kind {
    /// Those that must come up in a suite.
    fn all(suite: &Suite) -> Vec<Kind> {
        let mut kinds = vec![
            Kind::SealingDone,
            Kind::Ciphertext,
            Kind::Tag,
            Kind::SealingCalls,
            Kind::OpeningDone,
            Kind::Message,
            Kind::OpeningCalls,
            Kind::Zeros,
            Kind::CrateLeftBytes,
            Kind::DamagedCalls,
            Kind::Surroundings,
        ];
        kinds.extend(Part::ALL.map(Kind::Damaged));
        kinds.extend((1..=6).map(Kind::Refused));
        if suite.is_two_pass() {
            kinds.push(Kind::OneCallMore);
        } else {
            kinds.extend(Step::ALL.map(Kind::ByPieces));
        }
        kinds
    }

    fn label(self) -> String {
        match self {
            Kind::SealingDone => "sealing: number 0",
            Kind::Ciphertext => "sealing: ciphertext as the crate's",
            Kind::Tag => "sealing: tag as the crate's",
            Kind::SealingCalls => "sealing: block calls",
            Kind::OpeningDone => "opening: accepted by both",
            Kind::Message => "opening: message recovered by both",
            Kind::OpeningCalls => "opening: block calls",
            Kind::Damaged(part) => {
                return format!("one bit of the {}: 7, refused by both", part.name());
            }
            Kind::Zeros => "after 7: every byte of our buffer zero",
            Kind::CrateLeftBytes => "after 7: the recovered bytes in the crate's buffer",
            Kind::DamagedCalls => "after 7: block calls",
            Kind::Surroundings => "bytes before and after our buffer untouched",
            Kind::Refused(number) => return format!("refused with {number}: answer and buffer"),
            Kind::OneCallMore => "the crate made one block call more (whole blocks)",
            Kind::ByPieces(step) => return step.label(),
        }
        .to_string()
    }

    /// No comparison: the lines of block calls hold each case to it.
    fn is_only_counted(self) -> bool {
        self == Kind::OneCallMore
    }

    fn is_ours_alone(self) -> bool {
        match self {
            Kind::SealingDone | Kind::Zeros | Kind::Surroundings | Kind::Refused(_) => true,
            Kind::ByPieces(step) => step.is_ours_alone(),
            _ => false,
        }
    }
}

#[derive(Default)]
struct Count {
    compared: usize,
    differing: usize,
}

pub struct Report {
    counts: BTreeMap<(u8, Kind), Count>,
    first_difference: Option<String>,
}

/// Where a comparison belongs, and how its case is named if it fails.
pub struct Place<'a> {
    suite: u8,
    kind: Kind,
    name: &'a dyn Fn() -> String,
}

impl<'a> Place<'a> {
    pub fn new(suite: u8, kind: Kind, name: &'a dyn Fn() -> String) -> Self {
        Place { suite, kind, name }
    }
}

impl Report {
    pub fn new() -> Self {
        let kinds = |suite| Kind::all(suite).into_iter().map(|kind| (suite.number, kind));
        let counts = SUITES.iter().flat_map(kinds).map(|line| (line, Count::default()));
        Report { counts: counts.collect(), first_difference: None }
    }

    pub fn values<T: PartialEq + Debug>(&mut self, place: Place, seen: T, expected: T) {
        let same = seen == expected;
        self.note(place, same, || format!("{seen:?}, expected {expected:?}"));
    }

    pub fn bytes(&mut self, place: Place, seen: &[u8], expected: &[u8]) {
        self.note(place, seen == expected, || {
            let pairs = seen.iter().zip(expected).enumerate();
            let describe = |(i, (s, e))| format!("byte {i} is {s:02x}, expected {e:02x}");
            let first = pairs.clone().find(|(_, (s, e))| s != e);
            first.map_or("other lengths".to_string(), describe)
        });
    }

    pub fn count(&mut self, suite: u8, kind: Kind) {
        self.counts.entry((suite, kind)).or_default().compared += 1;
    }

    fn note(&mut self, place: Place, same: bool, describe: impl FnOnce() -> String) {
        let count = self.counts.entry((place.suite, place.kind)).or_default();
        count.compared += 1;
        count.differing += usize::from(!same);
        if !same {
            self.first_difference.get_or_insert_with(|| {
                format!("{}: {}: {}", (place.name)(), place.kind.label(), describe())
            });
        }
    }

    /// Nothing differs, and no line is empty.
    pub fn is_good(&self) -> bool {
        self.counts.values().all(|count| count.compared > 0 && count.differing == 0)
    }

    pub fn print(&self) {
        for ((suite, kind), count) in &self.counts {
            println!("suite {suite}  {:<52} {}", kind.label(), shown(*kind, count));
        }
        if let Some(difference) = &self.first_difference {
            println!("first difference: {difference}");
        }
        self.print_total("with an answer of the crate", |kind| !kind.is_ours_alone());
        self.print_total("of our side alone", Kind::is_ours_alone);
        self.print_total("total", |_| true);
    }

    fn print_total(&self, name: &str, belongs: impl Fn(Kind) -> bool) {
        let mut total = Count::default();
        for ((_, kind), count) in &self.counts {
            if belongs(*kind) && !kind.is_only_counted() {
                total.compared += count.compared;
                total.differing += count.differing;
            }
        }
        println!("{name}: {} compared, {} differ", total.compared, total.differing);
    }
}

fn shown(kind: Kind, Count { compared, differing }: &Count) -> String {
    if *compared == 0 {
        "  none: FAILED".to_string()
    } else if kind.is_only_counted() {
        format!("{compared:>6} times, as expected")
    } else {
        format!("{compared:>6} compared, {differing} differ")
    }
}

#[cfg(test)]
mod tests {
    use super::*;

    fn report_with_one_of_each() -> Report {
        let mut report = Report::new();
        report.counts.values_mut().for_each(|count| count.compared = 1);
        report
    }

    #[test]
    fn an_empty_line_is_a_failure() {
        let mut report = report_with_one_of_each();
        assert!(report.is_good());
        report.counts.get_mut(&(1, Kind::CrateLeftBytes)).unwrap().compared = 0;
        assert!(!report.is_good());
    }

    #[test]
    fn a_difference_is_a_failure() {
        let mut report = report_with_one_of_each();
        report.values(Place::new(4, Kind::Tag, &|| "a case".to_string()), 1, 2);
        assert!(!report.is_good());
        let told = "a case: sealing: tag as the crate's: 1, expected 2";
        assert_eq!(report.first_difference.as_deref(), Some(told));
    }
}
