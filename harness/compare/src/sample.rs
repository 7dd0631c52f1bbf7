//! A fixed sample of the crate's answers, for another program to replay: a line for each case, with
//! suite, key, nonce, data, message, ciphertext and tag.

use crate::lengths::AROUND_BLOCKS;
use calibration::{SUITES, Suite};
use cases::{Case, hex};

pub fn text() -> String {
    let mut seeds = 1_000_000..;
    let mut lines = String::new();
    for suite in &SUITES {
        for ((data, message), seed) in pairs(suite).into_iter().zip(&mut seeds) {
            lines += &line(&Case::new(suite, data, message, seed));
        }
    }
    lines
}

/// Data and message of every length alike, and six pairs of two lengths, other ones in each suite.
fn pairs(suite: &Suite) -> Vec<(usize, usize)> {
    let length = |n: usize| AROUND_BLOCKS[n % AROUND_BLOCKS.len()];
    let alike = AROUND_BLOCKS.map(|length| (length, length));
    let shift = usize::from(suite.number);
    let mixed = [0, 1, 3, 4, 6, 8].map(|n| (length(n), length(n + shift)));
    [alike.as_slice(), &mixed].concat()
}

fn line(case: &Case) -> String {
    let Case { key, nonce, data, message, .. } = case;
    let mut ciphertext = message.clone();
    let tag = oracle::seal(case.suite.number, key, nonce, data, &mut ciphertext);
    let fields = [key, nonce, data, message, &ciphertext, &tag.to_vec()].map(|bytes| hex(bytes));
    format!("{} {}\n", case.suite.number, fields.join(" "))
}

#[cfg(test)]
mod tests {
    use super::*;
    use std::collections::BTreeSet;

    #[test]
    fn each_length_is_there_in_both_places() {
        for suite in &SUITES {
            let (data, messages): (BTreeSet<_>, BTreeSet<_>) = pairs(suite).into_iter().unzip();
            assert_eq!(data, BTreeSet::from(AROUND_BLOCKS));
            assert_eq!(messages, BTreeSet::from(AROUND_BLOCKS));
        }
    }
}
