//! The array lengths that the Deoxys crate names, each a type.

use crate::array::ArraySize;

macro_rules! lengths {
    ($($name:ident = $length:literal),*) => {$(
        #[derive(Clone, Copy, Debug)]
        pub struct $name;

        impl ArraySize for $name {
            type ArrayType<T> = [T; $length];

            fn from_fn<T>(entry: impl FnMut(usize) -> T) -> [T; $length] {
                core::array::from_fn(entry)
            }

            fn chunks<T>(slice: &[T]) -> (&[[T; $length]], &[T]) {
                slice.as_chunks()
            }

            fn chunks_mut<T>(slice: &mut [T]) -> (&mut [[T; $length]], &mut [T]) {
                slice.as_chunks_mut()
            }
        }
    )*};
}

lengths!(U8 = 8, U15 = 15, U16 = 16, U17 = 17, U32 = 32, U48 = 48);
