//! The lengths of data and message that are compared.

use calibration::LIMIT;
use cases::Generator;

/// On both sides of every block border up to two blocks, and three whole ones.
pub const AROUND_BLOCKS: [usize; 9] = [0, 1, 15, 16, 17, 31, 32, 33, 48];

const SHORT_MESSAGES: std::ops::RangeInclusive<usize> = 0..=80;

/// Block numbers take a second byte from 256 on, after 4,096 bytes. At the limit the last block is number
/// 65,535, so that only the number in Deoxys-I's tag, 65,536, takes a third.
const LONG: [usize; 17] = [
    255,
    256,
    257,
    1000,
    4080,
    4095,
    4096,
    4097,
    4112,
    8191,
    8192,
    8193,
    65_535,
    65_536,
    65_537,
    LIMIT - 1,
    LIMIT,
];

/// Without a message too: in Deoxys-II a message that is recovered wrongly hides a bit not compared.
pub const FOR_EVERY_TAG_BIT: [(usize, usize); 2] = [(17, 0), (17, 33)];

/// So many longest messages are cut more, and so many of any length.
const CUT_MORE: usize = 40;

/// Pairs of a data and a message length.
pub fn all() -> impl Iterator<Item = (usize, usize)> {
    let short = SHORT_MESSAGES.flat_map(|message| AROUND_BLOCKS.map(|data| (data, message)));
    let long_messages = LONG.map(|message| (18, message));
    let long_data = LONG.map(|data| (data, 33));
    short.chain(long_messages).chain(long_data).chain([(LIMIT, LIMIT)])
}

/// The same pairs, and more of long messages.
pub fn to_cut() -> impl Iterator<Item = (usize, usize)> {
    let mut generator = Generator::new(CUT_MORE as u64);
    let any = (0..CUT_MORE).map(move |_| (18, generator.below(LIMIT + 1)));
    all().chain(any).chain([(18, LIMIT); CUT_MORE])
}
