//! Inputs that are the same in every run, a case being its suite, its lengths and its seed; every combination
//! of some; and a buffer whose surroundings are watched.
#![forbid(unsafe_code)]

use calibration::Suite;

/// Pseudo-random numbers: a counter with odd steps, its bits stirred by two multiplications.
pub struct Generator(u64);

impl Generator {
    pub fn new(seed: u64) -> Self {
        Generator(seed)
    }

    pub fn number(&mut self) -> u64 {
        self.0 = self.0.wrapping_add(0x9e37_79b9_7f4a_7c15);
        let mut bits = self.0;
        bits = (bits ^ (bits >> 32)).wrapping_mul(0xd6e8_feb8_6659_fd93);
        bits = (bits ^ (bits >> 29)).wrapping_mul(0xa076_1d64_78bd_642f);
        bits ^ (bits >> 32)
    }

    pub fn below(&mut self, limit: usize) -> usize {
        (self.number() % limit as u64) as usize
    }

    pub fn bytes(&mut self, count: usize) -> Vec<u8> {
        let mut bytes = vec![0; count];
        for chunk in bytes.chunks_mut(8) {
            chunk.copy_from_slice(&self.number().to_le_bytes()[..chunk.len()]);
        }
        bytes
    }
}

pub struct Case {
    pub suite: &'static Suite,
    pub seed: u64,
    pub key: Vec<u8>,
    pub nonce: Vec<u8>,
    pub data: Vec<u8>,
    pub message: Vec<u8>,
}

impl Case {
    pub fn new(
        suite: &'static Suite,
        data_length: usize,
        message_length: usize,
        seed: u64,
    ) -> Self {
        let mut generator = Generator::new(seed);
        Case {
            suite,
            seed,
            key: generator.bytes(suite.key_length),
            nonce: generator.bytes(suite.nonce_length),
            data: generator.bytes(data_length),
            message: generator.bytes(message_length),
        }
    }

    /// The case in full: everything else in it follows from this.
    pub fn name(&self) -> String {
        format!(
            "suite {} {}, data {} bytes, message {} bytes, seed {}",
            self.suite.number,
            self.suite.name,
            self.data.len(),
            self.message.len(),
            self.seed
        )
    }

    pub fn rows(&self) -> usize {
        self.suite.rows(self.data.len(), self.message.len())
    }
}

/// Bytes as hexadecimal digits, '-' for none.
pub fn hex(bytes: &[u8]) -> String {
    if bytes.is_empty() {
        return "-".to_string();
    }
    bytes.iter().map(|byte| format!("{byte:02x}")).collect()
}

/// Lends `work` a buffer that holds `bytes`. Gives what it holds then, and whether the bytes before and
/// after it are untouched.
pub fn surrounded<R>(bytes: &[u8], work: impl FnOnce(&mut [u8]) -> R) -> (R, Vec<u8>, bool) {
    const AROUND: [u8; 32] = [0xa5; 32];
    let mut memory = [&AROUND, bytes, &AROUND].concat();
    let answer = work(&mut memory[32..32 + bytes.len()]);
    let untouched = memory.starts_with(&AROUND) && memory.ends_with(&AROUND);
    memory.truncate(32 + bytes.len());
    memory.drain(..32);
    (answer, memory, untouched)
}

/// Every way to choose one of each list.
pub fn combinations(lists: &[Vec<usize>]) -> Vec<Vec<usize>> {
    lists.iter().fold(vec![vec![]], |starts, list| {
        let longer = |start: &Vec<usize>| {
            let start = start.clone();
            list.iter().map(move |next| [start.as_slice(), &[*next]].concat())
        };
        starts.iter().flat_map(longer).collect()
    })
}

#[cfg(test)]
mod tests {
    use super::*;

    /// A sample that was written once stays the one that is written.
    #[test]
    fn a_seed_gives_the_same_bytes_for_ever() {
        assert_eq!(hex(&Generator::new(0).bytes(12)), "ccf447289c3a13fba6c6c445");
        assert_eq!(hex(&[]), "-");
    }
}
