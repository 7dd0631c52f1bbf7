//! Times the archive and the crate's files side by side, sealing by pieces beside one call, and records beside
//! a copy of their bytes, and writes three tables.
#![forbid(unsafe_code)]

mod records;
mod stopwatch;

use calibration::{BUNDLE_RECORDS, LIMIT, SUITES};
use cases::Case;
use records::{Records, Work};
use std::process::ExitCode;
use stopwatch::{Operation, PIECE, ROUNDS, Side, Task};

const DATA_LENGTH: usize = 18;
const MESSAGE_LENGTHS: [usize; 5] = [16, 144, 4096, 65_536, 1_048_576];

/// The time by pieces may be so many times that of one call.
const MOST_BY_PIECES: f64 = 1.1;

/// Reading a bundle may take the time of so many copies of its bytes.
const MOST_COPIES: f64 = 2.0;

fn main() -> ExitCode {
    if oracle::COUNTS_ROUNDS {
        eprintln!(
            "built together with compare, which counts the crate's rounds: use `-p bench` alone"
        );
        return ExitCode::FAILURE;
    }
    print_heading();
    let mut tasks = tasks(&sides());
    let mut by_pieces = tasks_by_pieces();
    let mut records = Records::new();
    for _ in 0..ROUNDS {
        tasks.iter_mut().chain(&mut by_pieces).for_each(Task::measure);
        records.measure();
    }
    tasks.iter().for_each(print_row);
    print_heading_by_pieces();
    by_pieces.iter().for_each(print_row_by_pieces);
    print_heading_of_records(&records);
    Work::ALL.iter().for_each(|work| print_row_of_records(&records, *work));
    let are_read_fast = Work::ALL.iter().all(|work| is_fast_enough(&records, *work));
    if by_pieces.iter().all(is_fast_by_pieces) && are_read_fast {
        ExitCode::SUCCESS
    } else {
        ExitCode::FAILURE
    }
}

/// A task for each row of the table.
fn tasks(sides: &[Side]) -> Vec<Task> {
    let mut tasks = Vec::new();
    for suite in &SUITES {
        for operation in [Operation::Sealing, Operation::Opening] {
            for length in MESSAGE_LENGTHS {
                let case = Case::new(suite, DATA_LENGTH, length, length as u64);
                tasks.push(Task::new(case, operation, sides));
            }
        }
    }
    tasks
}

/// Deoxys-I alone is sealed by pieces.
fn tasks_by_pieces() -> Vec<Task> {
    let suites = SUITES.iter().filter(|suite| !suite.is_two_pass());
    let cases = suites.map(|suite| Case::new(suite, DATA_LENGTH, LIMIT, LIMIT as u64));
    let sides = [Side::Ours, Side::OursByPieces];
    cases.map(|case| Task::new(case, Operation::Sealing, &sides)).collect()
}

/// Ours first, then the crate as far as it can run here.
fn sides() -> Vec<Side> {
    let mut sides = vec![Side::Ours];
    if oracle::GIVEN {
        if oracle::instructions_present() {
            sides.push(Side::CrateWithInstructions);
        }
        sides.push(Side::CrateWithout);
    }
    sides
}

fn print_heading() {
    println!("Processor: {}.", processor());
    let present = oracle::instructions_present();
    println!("AES instructions: {}.", if present { "there" } else { "not there" });
    if !oracle::GIVEN {
        println!("Our side only: DEOXYS_SRC isn't set, so the crate's files are not here.");
    }
    println!(
        "Nanoseconds a call, medians of {ROUNDS} rounds over all rows; {DATA_LENGTH} bytes of data. Every \
         call expands its key, on all sides. The buffers are filled anew before each measurement, and \
         that isn't timed. A ratio is our speed over the crate's: above 1, ours is the faster.\n"
    );
    println!(
        "| suite | operation | bytes | ours | crate, AES instructions | crate, without \
         | ours/crate | ours/crate without |"
    );
    println!("|---|---|---:|---:|---:|---:|---:|---:|");
}

fn print_row(task: &Task) {
    let ours = task.times.median(Side::Ours);
    let with = task.times.median(Side::CrateWithInstructions);
    let without = task.times.median(Side::CrateWithout);
    let ratio = |crate_time: Option<f64>| crate_time.zip(ours).map(|(theirs, ours)| theirs / ours);
    println!(
        "| {} | {} | {} | {} | {} | {} | {} | {} |",
        task.case.suite.name,
        task.operation.name(),
        task.case.message.len(),
        shown(ours, 0),
        shown(with, 0),
        shown(without, 0),
        shown(ratio(with), 2),
        shown(ratio(without), 2),
    );
}

fn print_heading_by_pieces() {
    println!(
        "\nSealing {LIMIT} bytes in pieces of {PIECE} bytes beside one call, in the same rounds. A ratio is \
         the time by pieces over that of one call, and has to be at most {MOST_BY_PIECES}.\n"
    );
    println!("| suite | one call | by pieces | by pieces/one call | at most {MOST_BY_PIECES} |");
    println!("|---|---:|---:|---:|---|");
}

fn print_row_by_pieces(task: &Task) {
    println!(
        "| {} | {} | {} | {} | {} |",
        task.case.suite.name,
        shown(task.times.median(Side::Ours), 0),
        shown(task.times.median(Side::OursByPieces), 0),
        shown(ratio_by_pieces(task), 3),
        verdict(is_fast_by_pieces(task)),
    );
}

fn is_fast_by_pieces(task: &Task) -> bool {
    ratio_by_pieces(task).is_some_and(|ratio| ratio <= MOST_BY_PIECES)
}

fn ratio_by_pieces(task: &Task) -> Option<f64> {
    task.times.ratio(Side::OursByPieces, Side::Ours)
}

fn print_heading_of_records(records: &Records) {
    println!(
        "\nA bundle of {BUNDLE_RECORDS} longest records, {} bytes, beside a copy of its bytes, in the same rounds: a \
         ratio is the time over that of the copy, and for reading has to be at most {MOST_COPIES}.\n",
        records.bytes()
    );
    println!("| work | time | time/copy | at most {MOST_COPIES} |");
    println!("|---|---:|---:|---|");
}

fn print_row_of_records(records: &Records, work: Work) {
    println!(
        "| {} | {} | {} | {} |",
        work.name(),
        shown(records.times.median(work), 0),
        shown(records.times.ratio(work, Work::Copying), 3),
        if work.is_reading() { verdict(is_fast_enough(records, work)) } else { "-" },
    );
}

fn is_fast_enough(records: &Records, work: Work) -> bool {
    let ratio = records.times.ratio(work, Work::Copying);
    !work.is_reading() || ratio.is_some_and(|ratio| ratio <= MOST_COPIES)
}

fn verdict(holds: bool) -> &'static str {
    if holds { "holds" } else { "DOES NOT HOLD" }
}

fn shown(value: Option<f64>, decimals: usize) -> String {
    value.map_or("-".to_string(), |value| format!("{value:.decimals$}"))
}

fn processor() -> String {
    let description = std::fs::read_to_string("/proc/cpuinfo").unwrap_or_default();
    let model = description.lines().find_map(|line| line.strip_prefix("model name"));
    model
        .map_or("unknown".to_string(), |rest| rest.trim_start_matches([' ', '\t', ':']).to_string())
}
