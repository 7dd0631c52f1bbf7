//! Places that are read and then written. Here the two are always one place: the harness seals and
//! opens in place only, and the lifetime of the place read is kept for the crate's signatures alone.

use crate::array::{Array, ArraySize};
use core::marker::PhantomData;

/// One value.
pub struct InOut<'inp, 'out, T> {
    place: &'out mut T,
    read: PhantomData<&'inp T>,
}

impl<'a, T> From<&'a mut T> for InOut<'a, 'a, T> {
    fn from(place: &'a mut T) -> Self {
        InOut { place, read: PhantomData }
    }
}

impl<T> InOut<'_, '_, T> {
    pub fn reborrow(&mut self) -> InOut<'_, '_, T> {
        InOut { place: self.place, read: PhantomData }
    }

    pub fn get_in(&self) -> &T {
        self.place
    }

    pub fn get_out(&mut self) -> &mut T {
        self.place
    }
}

impl<N: ArraySize> InOut<'_, '_, Array<u8, N>> {
    pub fn xor_in2out(&mut self, data: &Array<u8, N>) {
        xor(self.place, data);
    }
}

/// A run of values.
pub struct InOutBuf<'inp, 'out, T> {
    place: &'out mut [T],
    read: PhantomData<&'inp T>,
}

impl<'a, T> From<&'a mut [T]> for InOutBuf<'a, 'a, T> {
    fn from(place: &'a mut [T]) -> Self {
        InOutBuf::over(place)
    }
}

impl<'inp, 'out, T> InOutBuf<'inp, 'out, T> {
    fn over(place: &'out mut [T]) -> Self {
        InOutBuf { place, read: PhantomData }
    }

    pub fn len(&self) -> usize {
        self.place.len()
    }

    pub fn is_empty(&self) -> bool {
        self.place.is_empty()
    }

    pub fn reborrow(&mut self) -> InOutBuf<'_, '_, T> {
        InOutBuf::over(self.place)
    }

    pub fn get_in(&self) -> &[T] {
        self.place
    }

    pub fn get_out(&mut self) -> &mut [T] {
        self.place
    }

    /// The whole arrays at the start, and what is left.
    pub fn into_chunks<N: ArraySize>(
        self,
    ) -> (InOutBuf<'inp, 'out, Array<T, N>>, InOutBuf<'inp, 'out, T>) {
        let (chunks, rest) = Array::slice_as_chunks_mut(self.place);
        (InOutBuf::over(chunks), InOutBuf::over(rest))
    }
}

impl InOutBuf<'_, '_, u8> {
    #[inline]
    pub fn xor_in2out(&mut self, data: &[u8]) {
        assert_eq!(self.len(), data.len());
        xor(self.place, data);
    }
}

impl<'inp, 'out, T> IntoIterator for InOutBuf<'inp, 'out, T> {
    type Item = InOut<'inp, 'out, T>;
    type IntoIter = InOutBufIter<'inp, 'out, T>;

    fn into_iter(self) -> Self::IntoIter {
        InOutBufIter { places: self.place.iter_mut(), read: PhantomData }
    }
}

pub struct InOutBufIter<'inp, 'out, T> {
    places: core::slice::IterMut<'out, T>,
    read: PhantomData<&'inp T>,
}

impl<'inp, 'out, T> Iterator for InOutBufIter<'inp, 'out, T> {
    type Item = InOut<'inp, 'out, T>;

    fn next(&mut self) -> Option<Self::Item> {
        self.places.next().map(|place| InOut { place, read: PhantomData })
    }
}

#[inline]
fn xor(place: &mut [u8], data: &[u8]) {
    for (byte, other) in place.iter_mut().zip(data) {
        *byte ^= other;
    }
}
