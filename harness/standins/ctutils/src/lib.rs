//! A stand-in for the crate `ctutils`: the one comparison that the Deoxys crate makes with it.
//! It looks at every byte, but nothing is claimed about its time.
#![no_std]
#![forbid(unsafe_code)]

/// Whether two values were equal.
pub struct Choice(bool);

impl From<Choice> for bool {
    fn from(choice: Choice) -> bool {
        choice.0
    }
}

pub trait CtEq {
    fn ct_eq(&self, other: &Self) -> Choice;
}

impl CtEq for [u8] {
    fn ct_eq(&self, other: &[u8]) -> Choice {
        let differing = self.iter().zip(other).fold(0, |bits, (a, b)| bits | (a ^ b));
        Choice(self.len() == other.len() && differing == 0)
    }
}

#[cfg(test)]
mod tests {
    use super::CtEq;

    fn equal(a: &[u8], b: &[u8]) -> bool {
        a.ct_eq(b).into()
    }

    #[test]
    fn every_bit_and_the_length_count() {
        let tag = [0x5a; 16];
        assert!(equal(&tag, &tag));
        assert!(!equal(&tag, &tag[..15]));
        for bit in 0..128 {
            let mut other = tag;
            other[bit / 8] ^= 1 << (bit % 8);
            assert!(!equal(&tag, &other), "bit {bit}");
        }
    }
}
