//! A stand-in for the crate `aead`: the names that the Deoxys crate's three files use of it, and no more.
#![no_std]
#![deny(unsafe_code)]

pub mod array;
pub mod consts;
pub mod inout;

use array::{Array, ArraySize};
use inout::InOutBuf;

pub type Key<A> = Array<u8, <A as KeySizeUser>::KeySize>;
pub type Nonce<A> = Array<u8, <A as AeadCore>::NonceSize>;
pub type Tag<A> = Array<u8, <A as AeadCore>::TagSize>;

/// An opening was refused.
#[derive(Clone, Copy, Debug, PartialEq, Eq)]
pub struct Error;

#[derive(Clone, Copy, Debug, PartialEq, Eq)]
pub enum TagPosition {
    Postfix,
}

pub trait KeySizeUser {
    type KeySize: ArraySize;
}

pub trait KeyInit: KeySizeUser + Sized {
    fn new(key: &Key<Self>) -> Self;
}

pub trait AeadCore {
    type NonceSize: ArraySize;
    type TagSize: ArraySize;
    const TAG_POSITION: TagPosition;
}

pub trait AeadInOut: AeadCore {
    fn encrypt_inout_detached(
        &self,
        nonce: &Nonce<Self>,
        associated_data: &[u8],
        buffer: InOutBuf<'_, '_, u8>,
    ) -> Result<Tag<Self>, Error>;

    fn decrypt_inout_detached(
        &self,
        nonce: &Nonce<Self>,
        associated_data: &[u8],
        buffer: InOutBuf<'_, '_, u8>,
        tag: &Tag<Self>,
    ) -> Result<(), Error>;
}
