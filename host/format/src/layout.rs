//! Little-endian fields at fixed places in bytes.

/// A value with a fixed place-by-place form. Encoding writes the named bytes
/// and leaves the others.
pub trait Layout: Sized {
    const SIZE: usize;

    fn decode(bytes: &[u8]) -> Self;

    fn encode(&self, bytes: &mut [u8]);

    /// The form in `N` bytes, the unnamed ones 0.
    fn to_bytes<const N: usize>(&self) -> [u8; N] {
        let mut bytes = [0; N];
        self.encode(&mut bytes);
        bytes
    }
}

macro_rules! number {
    ($($type:ty),*) => {$(
        impl Layout for $type {
            const SIZE: usize = size_of::<$type>();

            fn decode(bytes: &[u8]) -> Self {
                let mut own = [0; size_of::<$type>()];
                own.copy_from_slice(&bytes[..Self::SIZE]);
                <$type>::from_le_bytes(own)
            }

            fn encode(&self, bytes: &mut [u8]) {
                bytes[..Self::SIZE].copy_from_slice(&self.to_le_bytes());
            }
        }
    )*};
}

number!(u8, u16, u32, u64, i32, i64);

impl<T: Layout, const N: usize> Layout for [T; N] {
    const SIZE: usize = N * T::SIZE;

    fn decode(bytes: &[u8]) -> Self {
        std::array::from_fn(|i| T::decode(&bytes[i * T::SIZE..]))
    }

    fn encode(&self, bytes: &mut [u8]) {
        for (item, place) in self.iter().zip(bytes.chunks_mut(T::SIZE)) {
            item.encode(place);
        }
    }
}

/// A struct whose fields each name their type and first byte.
macro_rules! layout {
    (
        $(#[$about:meta])*
        $name:ident of $size:literal {
            $($(#[$note:meta])* $field:ident: $type:ty = $at:literal,)*
        }
    ) => {
        $(#[$about])*
        #[derive(Clone, Copy, Debug, Default, PartialEq, Eq)]
        pub struct $name {
            $($(#[$note])* pub $field: $type,)*
        }

        impl $crate::layout::Layout for $name {
            const SIZE: usize = $size;

            fn decode(bytes: &[u8]) -> Self {
                Self {
                    $($field: $crate::layout::Layout::decode(&bytes[$at..]),)*
                }
            }

            fn encode(&self, bytes: &mut [u8]) {
                $($crate::layout::Layout::encode(&self.$field, &mut bytes[$at..]);)*
            }
        }
    };
}

pub(crate) use layout;
