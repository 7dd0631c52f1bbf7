//! The pieces of a round in plain Rust: a column is a word, its first byte lowest, and one table holds
//! substitution and mixing together. It is made for speed and leaks through the cache, which does no
//! harm in a comparison.

/// What a byte of row 0 adds to its column in a round; row r adds the same, turned by r bytes.
static FORWARD: [u32; 256] = columns(&SUBSTITUTED, [2, 1, 1, 3]);
static INVERSE: [u32; 256] = columns(&inverse_of(&SUBSTITUTED), [14, 9, 13, 11]);

const SUBSTITUTED: [u8; 256] = substituted();

pub fn cipher_round(block: &mut [u8; 16], round_key: &[u8; 16]) {
    let from = *block;
    for column in 0..4 {
        let row = |r: usize| FORWARD[from[4 * ((column + r) % 4) + r] as usize];
        set_column(block, column, joined(row) ^ word(round_key, column));
    }
}

pub fn equiv_inv_cipher_round(block: &mut [u8; 16], round_key: &[u8; 16]) {
    let from = *block;
    for column in 0..4 {
        let row = |r: usize| INVERSE[from[4 * ((column + 4 - r) % 4) + r] as usize];
        set_column(block, column, joined(row) ^ word(round_key, column));
    }
}

pub fn mix_columns(block: &mut [u8; 16]) {
    for column in 0..4 {
        set_column(block, column, mixed(word(block, column)));
    }
}

/// 14, 11, 13, 9 is 2, 3, 1, 1 times 5, 0, 4, 0: add four times the sum with the opposite row, then mix.
pub fn inv_mix_columns(block: &mut [u8; 16]) {
    for column in 0..4 {
        let bytes = word(block, column);
        let opposite = bytes ^ bytes.rotate_left(16);
        let fourfold = doubled_bytes(doubled_bytes(opposite));
        set_column(block, column, mixed(bytes ^ fourfold));
    }
}

#[inline]
fn joined(row: impl Fn(usize) -> u32) -> u32 {
    row(0) ^ row(1).rotate_left(8) ^ row(2).rotate_left(16) ^ row(3).rotate_left(24)
}

#[inline]
fn mixed(column: u32) -> u32 {
    let next = column.rotate_right(8);
    doubled_bytes(column ^ next) ^ next ^ column.rotate_right(16) ^ column.rotate_right(24)
}

#[inline]
fn doubled_bytes(bytes: u32) -> u32 {
    ((bytes & 0x7f7f_7f7f) << 1) ^ (((bytes >> 7) & 0x0101_0101) * 0x1b)
}

#[inline]
fn word(block: &[u8; 16], column: usize) -> u32 {
    u32::from_le_bytes(block.as_chunks().0[column])
}

#[inline]
fn set_column(block: &mut [u8; 16], column: usize, value: u32) {
    block[4 * column..4 * column + 4].copy_from_slice(&value.to_le_bytes());
}

const fn doubled(byte: u8) -> u8 {
    (byte << 1) ^ ((byte >> 7) * 0x1b)
}

const fn product(a: u8, b: u8) -> u8 {
    let mut sum = 0;
    let mut shifted = a;
    let mut left = b;
    while left > 0 {
        if left % 2 == 1 {
            sum ^= shifted;
        }
        shifted = doubled(shifted);
        left /= 2;
    }
    sum
}

/// The power 254: 2 + 4 + .. + 128. It is the inverse, and zero for zero.
const fn inverse(byte: u8) -> u8 {
    let mut power = product(byte, byte);
    let mut result = power;
    let mut step = 1;
    while step < 7 {
        power = product(power, power);
        result = product(result, power);
        step += 1;
    }
    result
}

/// FIPS 197, 5.1.1: the inverse in the field, then the affine rule.
const fn substituted() -> [u8; 256] {
    let mut table = [0; 256];
    let mut byte = 0;
    while byte < 256 {
        let i = inverse(byte as u8);
        table[byte] =
            i ^ i.rotate_left(1) ^ i.rotate_left(2) ^ i.rotate_left(3) ^ i.rotate_left(4) ^ 0x63;
        byte += 1;
    }
    table
}

const fn inverse_of(table: &[u8; 256]) -> [u8; 256] {
    let mut result = [0; 256];
    let mut byte = 0;
    while byte < 256 {
        result[table[byte] as usize] = byte as u8;
        byte += 1;
    }
    result
}

const fn columns(table: &[u8; 256], factors: [u8; 4]) -> [u32; 256] {
    let mut result = [0; 256];
    let mut byte = 0;
    while byte < 256 {
        let s = table[byte];
        result[byte] = u32::from_le_bytes([
            product(s, factors[0]),
            product(s, factors[1]),
            product(s, factors[2]),
            product(s, factors[3]),
        ]);
        byte += 1;
    }
    result
}
