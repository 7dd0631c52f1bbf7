//! The crate's four types behind one pair of functions.

// Written as a package's root, the files are a module here: what only a root may say goes unheard.
#[allow(unused_attributes, unused_imports, invalid_doc_attributes)]
#[allow(clippy::all)]
mod files {
    include!(concat!(env!("OUT_DIR"), "/given.rs"));
}

use aead::{
    AeadInOut, KeyInit, Tag,
    array::{Array, ArraySize},
    consts::U16,
};
pub use files::deoxys::DeoxysBcType;
use files::deoxys::{DeoxysI128, DeoxysI256, DeoxysII128, DeoxysII256};

pub type DeoxysKey = Array<u8, U16>;
pub type Tweak = Array<u8, U16>;

/// Seals in place and gives the tag. The suite and the lengths of key and nonce must be right.
pub fn seal(suite: u8, key: &[u8], nonce: &[u8], data: &[u8], buffer: &mut [u8]) -> [u8; 16] {
    let seal_with = match suite {
        1 => seal_with::<DeoxysI128>,
        2 => seal_with::<DeoxysI256>,
        3 => seal_with::<DeoxysII128>,
        4 => seal_with::<DeoxysII256>,
        _ => panic!("the crate has no suite {suite}"),
    };
    seal_with(key, nonce, data, buffer)
}

/// Opens in place and says whether the tag was right.
pub fn open(
    suite: u8,
    key: &[u8],
    nonce: &[u8],
    data: &[u8],
    buffer: &mut [u8],
    tag: &[u8; 16],
) -> bool {
    let open_with = match suite {
        1 => open_with::<DeoxysI128>,
        2 => open_with::<DeoxysI256>,
        3 => open_with::<DeoxysII128>,
        4 => open_with::<DeoxysII256>,
        _ => panic!("the crate has no suite {suite}"),
    };
    open_with(key, nonce, data, buffer, tag)
}

fn seal_with<C>(key: &[u8], nonce: &[u8], data: &[u8], buffer: &mut [u8]) -> [u8; 16]
where
    C: KeyInit + AeadInOut<TagSize = U16>,
{
    let cipher = C::new(&array(key));
    let tag: Tag<C> = cipher
        .encrypt_inout_detached(&array(nonce), data, buffer.into())
        .expect("the crate refuses no sealing");
    tag.0
}

fn open_with<C>(key: &[u8], nonce: &[u8], data: &[u8], buffer: &mut [u8], tag: &[u8; 16]) -> bool
where
    C: KeyInit + AeadInOut<TagSize = U16>,
{
    let cipher = C::new(&array(key));
    cipher.decrypt_inout_detached(&array(nonce), data, buffer.into(), &array(tag)).is_ok()
}

fn array<N: ArraySize>(bytes: &[u8]) -> Array<u8, N> {
    let mut array = Array::default();
    array.copy_from_slice(bytes);
    array
}

#[cfg(test)]
mod tests {
    use super::{open, seal};
    use crate::use_instructions;

    fn bytes(hex: &str) -> Vec<u8> {
        let byte = |at| u8::from_str_radix(&hex[at..at + 2], 16).unwrap();
        (0..hex.len()).step_by(2).map(byte).collect()
    }

    fn check_vector(suite: u8, data: &str, message: &str, ciphertext: &str, tag: &str) {
        let key: Vec<u8> = (0x10..if suite == 3 { 0x20 } else { 0x30 }).collect();
        let nonce: Vec<u8> = (0x20..0x2f).collect();
        let (data, message) = (bytes(data), bytes(message));
        let mut buffer = message.clone();
        let sealed = seal(suite, &key, &nonce, &data, &mut buffer);
        assert_eq!(sealed, *bytes(tag));
        assert_eq!(buffer, bytes(ciphertext));
        assert!(open(suite, &key, &nonce, &data, &mut buffer, &sealed));
        assert_eq!(buffer, message);
    }

    /// From the vectors published with Deoxys v1.41: the stand-ins don't change the crate's answers.
    #[test]
    fn published_vectors() {
        for instructions in [true, false] {
            use_instructions(instructions);
            let data = "a754f3387be992ffee5bee80e18b151900c6d69ec59786fb12d2eadb0750f82cf5";
            check_vector(3, data, "", "", "0a989ed78fa16776cd6c691ea734d874");
            let message = "15cd77732f9d0c4c6e581ef400876ad9188c5b8850ebd38224da95d7cdc99f7acc";
            let ciphertext = "e5ffd2abc5b459a73667756eda6443ede86c0883fc51dd75d22bb14992c684618c";
            let tag = "5fa78d57308f19d0252072ee39df5ecc";
            check_vector(4, "", message, ciphertext, tag);
        }
    }

    #[cfg(feature = "count")]
    #[test]
    fn block_calls_of_nine_whole_blocks() {
        use crate::count_calls;
        let mut buffer = [0; 144];
        let (_, calls) = count_calls(1, || seal(1, &[0; 16], &[0; 8], &[0; 16], &mut buffer));
        assert_eq!(calls, 11);
        // One more than the mode has: keystream for a rest that is empty.
        let (_, calls) = count_calls(3, || seal(3, &[0; 16], &[0; 15], &[0; 16], &mut buffer));
        assert_eq!(calls, 21);
    }
}
