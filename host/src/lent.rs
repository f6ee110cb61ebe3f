//! What the calls take as a head and as the conditions of an hour: records, or the bytes themselves.
use crate::conditions::Conditions;
use crate::head::Head;
use crate::zone::Zone;
use std::borrow::Cow;

/// A head by name or in bytes.
pub trait AsHead {
    /// The bytes of the head.
    fn head_bytes(&self) -> Cow<'_, [u8]>;
}

/// The conditions of an hour, by name or in bytes.
pub trait AsConditions {
    /// The bytes of the conditions.
    fn conditions_bytes(&self) -> Cow<'_, [u8]>;
}

macro_rules! given_as {
    ($trait:ident, $bytes:ident, $record:ident) => {
        impl $trait for $record {
            fn $bytes(&self) -> Cow<'_, [u8]> {
                self.to_bytes().into()
            }
        }

        impl $trait for [u8] {
            fn $bytes(&self) -> Cow<'_, [u8]> {
                self.into()
            }
        }

        impl<const N: usize> $trait for [u8; N] {
            fn $bytes(&self) -> Cow<'_, [u8]> {
                self[..].into()
            }
        }

        impl $trait for Vec<u8> {
            fn $bytes(&self) -> Cow<'_, [u8]> {
                self[..].into()
            }
        }

        impl<T: $trait + ?Sized> $trait for &T {
            fn $bytes(&self) -> Cow<'_, [u8]> {
                (**self).$bytes()
            }
        }
    };
}

given_as!(AsHead, head_bytes, Head);
given_as!(AsConditions, conditions_bytes, Conditions);

/// A zone has its head.
impl AsHead for Zone {
    fn head_bytes(&self) -> Cow<'_, [u8]> {
        self.head().into()
    }
}
