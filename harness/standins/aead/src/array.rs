//! An array whose length is a type, as generic code over several lengths needs it.

use crate::consts::U16;
use core::ops::{Deref, DerefMut};

/// A length. Each is made from Rust's own array of that length.
pub trait ArraySize {
    type ArrayType<T>: AsRef<[T]> + AsMut<[T]>;

    fn from_fn<T>(entry: impl FnMut(usize) -> T) -> Self::ArrayType<T>;
    fn chunks<T>(slice: &[T]) -> (&[Self::ArrayType<T>], &[T]);
    fn chunks_mut<T>(slice: &mut [T]) -> (&mut [Self::ArrayType<T>], &mut [T]);
}

#[repr(transparent)]
pub struct Array<T, N: ArraySize>(pub N::ArrayType<T>);

impl<T, N: ArraySize> Array<T, N> {
    /// The whole arrays at the start of a slice, and what is left.
    #[allow(unsafe_code)]
    pub fn slice_as_chunks(slice: &[T]) -> (&[Self], &[T]) {
        let (chunks, rest) = N::chunks(slice);
        let chunks: *const [N::ArrayType<T>] = chunks;
        // SAFETY: `Array` is a transparent struct of `ArrayType`, and the lifetime stays.
        (unsafe { &*(chunks as *const [Self]) }, rest)
    }

    /// The same, to write to.
    #[allow(unsafe_code)]
    pub fn slice_as_chunks_mut(slice: &mut [T]) -> (&mut [Self], &mut [T]) {
        let (chunks, rest) = N::chunks_mut(slice);
        let chunks: *mut [N::ArrayType<T>] = chunks;
        // SAFETY: as above, and the one mutable borrow is handed on.
        (unsafe { &mut *(chunks as *mut [Self]) }, rest)
    }
}

impl<T, N: ArraySize> Clone for Array<T, N>
where
    N::ArrayType<T>: Clone,
{
    fn clone(&self) -> Self {
        Array(self.0.clone())
    }
}

impl<T, N: ArraySize> Copy for Array<T, N> where N::ArrayType<T>: Copy {}

impl<T: Default, N: ArraySize> Default for Array<T, N> {
    fn default() -> Self {
        Array(N::from_fn(|_| T::default()))
    }
}

impl<T, N: ArraySize> Deref for Array<T, N> {
    type Target = [T];

    fn deref(&self) -> &[T] {
        self.0.as_ref()
    }
}

impl<T, N: ArraySize> DerefMut for Array<T, N> {
    fn deref_mut(&mut self) -> &mut [T] {
        self.0.as_mut()
    }
}

impl<T, N: ArraySize> AsRef<Array<T, N>> for Array<T, N> {
    fn as_ref(&self) -> &Array<T, N> {
        self
    }
}

impl<'a, T> From<&'a mut Array<T, U16>> for &'a mut [T; 16] {
    fn from(array: &'a mut Array<T, U16>) -> Self {
        &mut array.0
    }
}

#[cfg(test)]
mod tests {
    use super::Array;
    use crate::consts::U16;

    #[test]
    fn chunks_are_the_bytes_in_order() {
        let mut bytes: [u8; 37] = core::array::from_fn(|i| i as u8);
        let (chunks, rest) = Array::<u8, U16>::slice_as_chunks(&bytes);
        assert_eq!(chunks.len(), 2);
        assert_eq!(chunks[1][..3], [16, 17, 18]);
        assert_eq!(rest, [32, 33, 34, 35, 36]);

        let (chunks, rest) = Array::<u8, U16>::slice_as_chunks_mut(&mut bytes);
        chunks[1][15] = 0xff;
        rest[4] = 0xee;
        assert_eq!((bytes[31], bytes[36]), (0xff, 0xee));
    }
}
