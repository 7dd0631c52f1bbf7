//! Compares the archive with the crate, case by case, or writes a sample of the crate's answers.
#![forbid(unsafe_code)]

mod cipher;
mod lengths;
mod pieces;
mod refusals;
mod report;
mod sample;

use calibration::SUITES;
use cases::Case;
use report::Report;
use std::process::ExitCode;

fn main() -> ExitCode {
    let words: Vec<String> = std::env::args().skip(1).collect();
    match (words.as_slice(), oracle::GIVEN) {
        ([], true) => compare(),
        ([], false) => {
            println!("nothing compared: DEOXYS_SRC isn't set, so the crate's files are not here");
            print_instructions();
            ExitCode::SUCCESS
        }
        ([word], true) if word == "--sample" => {
            print!("{}", sample::text());
            ExitCode::SUCCESS
        }
        ([word], false) if word == "--sample" => {
            eprintln!("no sample: DEOXYS_SRC isn't set, so the crate's files are not here");
            ExitCode::FAILURE
        }
        _ => {
            eprintln!("usage: compare [--sample]");
            ExitCode::from(2)
        }
    }
}

fn print_instructions() {
    let there = if oracle::instructions_present() {
        "there"
    } else {
        "not there, so that the stand-in's plain path alone was tried"
    };
    println!("AES instructions: {there}");
}

fn compare() -> ExitCode {
    oracle::use_instructions(true);
    print_instructions();
    let mut report = Report::new();
    for suite in &SUITES {
        for (index, (data, message)) in lengths::all().enumerate() {
            cipher::check(&Case::new(suite, data, message, index as u64), &mut report);
        }
        for (data, message) in lengths::FOR_EVERY_TAG_BIT {
            cipher::check_every_tag_bit(&Case::new(suite, data, message, 0), &mut report);
        }
        refusals::check(suite, &mut report);
        if !suite.is_two_pass() {
            for (index, (data, message)) in lengths::to_cut().enumerate() {
                pieces::check(&Case::new(suite, data, message, index as u64), &mut report);
            }
        }
    }
    report.print();
    if report.is_good() { ExitCode::SUCCESS } else { ExitCode::FAILURE }
}
