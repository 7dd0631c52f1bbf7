//! The four suites and what each asks for.

pub struct Suite {
    pub number: u8,
    pub name: &'static str,
    pub key_length: usize,
    pub nonce_length: usize,
}

pub const SUITES: [Suite; 4] = [
    suite(1, "Deoxys-I-128", 16, 8),
    suite(2, "Deoxys-I-256", 32, 8),
    suite(3, "Deoxys-II-128", 16, 15),
    suite(4, "Deoxys-II-256", 32, 15),
];

const fn suite(number: u8, name: &'static str, key_length: usize, nonce_length: usize) -> Suite {
    Suite { number, name, key_length, nonce_length }
}

impl Suite {
    /// Deoxys-II goes over the message twice: once for the tag and once for the keystream.
    pub fn is_two_pass(&self) -> bool {
        self.number >= 3
    }

    /// The block cipher calls of a sealing or an opening that isn't refused before it starts.
    pub fn rows(&self, data_length: usize, message_length: usize) -> usize {
        let passes = if self.is_two_pass() { 2 } else { 1 };
        data_length.div_ceil(16) + passes * message_length.div_ceil(16) + 1
    }
}

#[cfg(test)]
mod tests {
    use super::SUITES;

    #[test]
    fn rows_of_some_lengths() {
        let rows = |data, message| SUITES.each_ref().map(|suite| suite.rows(data, message));
        assert_eq!(rows(0, 0), [1, 1, 1, 1]);
        assert_eq!(rows(17, 17), [5, 5, 7, 7]);
        assert_eq!(rows(16, 144), [11, 11, 20, 20]);
        assert_eq!(rows(1 << 20, 1 << 20), [131_073, 131_073, 196_609, 196_609]);
    }
}
