//! Bytes of the library's interface: big-endian numbers, lengths before what they count, tags before what varies.

use std::error::Error;
use std::fmt;

/// Bytes that are not written as the value asked for.
#[derive(Clone, Copy, Debug, PartialEq, Eq)]
pub struct Malformed;

impl fmt::Display for Malformed {
    fn fmt(&self, f: &mut fmt::Formatter<'_>) -> fmt::Result {
        f.write_str("the bytes are no such value")
    }
}

impl Error for Malformed {}

/// Bytes that are read from the front.
#[derive(Debug)]
pub struct Reader<'a> {
    left: &'a [u8],
}

impl<'a> Reader<'a> {
    /// The next bytes.
    fn take(&mut self, count: usize) -> Result<&'a [u8], Malformed> {
        if count > self.left.len() {
            return Err(Malformed);
        }
        let (taken, left) = self.left.split_at(count);
        self.left = left;
        Ok(taken)
    }
}

/// What is written in bytes and read back from them.
pub trait Wire: Sized {
    /// Writes it after what `out` has.
    fn write(&self, out: &mut Vec<u8>);

    /// The value that stands next.
    fn read(reader: &mut Reader<'_>) -> Result<Self, Malformed>;

    /// Its bytes.
    fn to_bytes(&self) -> Vec<u8> {
        let mut out = Vec::new();
        self.write(&mut out);
        out
    }

    /// The value of which these are the bytes, all of them.
    fn from_bytes(bytes: &[u8]) -> Result<Self, Malformed> {
        let mut reader = Reader { left: bytes };
        let value = Self::read(&mut reader)?;
        if reader.left.is_empty() {
            Ok(value)
        } else {
            Err(Malformed)
        }
    }
}

macro_rules! number {
    ($($kind:ty),*) => {$(
        impl Wire for $kind {
            fn write(&self, out: &mut Vec<u8>) {
                out.extend_from_slice(&self.to_be_bytes());
            }

            fn read(reader: &mut Reader<'_>) -> Result<Self, Malformed> {
                Ok(Self::from_be_bytes(Wire::read(reader)?))
            }
        }
    )*};
}

number!(u8, u16, u32, u64);

impl Wire for bool {
    fn write(&self, out: &mut Vec<u8>) {
        out.push(u8::from(*self));
    }

    fn read(reader: &mut Reader<'_>) -> Result<Self, Malformed> {
        match u8::read(reader)? {
            0 => Ok(false),
            1 => Ok(true),
            _ => Err(Malformed),
        }
    }
}

impl<const N: usize> Wire for [u8; N] {
    fn write(&self, out: &mut Vec<u8>) {
        out.extend_from_slice(self);
    }

    fn read(reader: &mut Reader<'_>) -> Result<Self, Malformed> {
        reader.take(N)?.try_into().map_err(|_| Malformed)
    }
}

impl<T: Wire> Wire for Box<T> {
    fn write(&self, out: &mut Vec<u8>) {
        (**self).write(out);
    }

    fn read(reader: &mut Reader<'_>) -> Result<Self, Malformed> {
        Ok(Box::new(T::read(reader)?))
    }
}

impl<T: Wire> Wire for Option<T> {
    fn write(&self, out: &mut Vec<u8>) {
        self.is_some().write(out);
        if let Some(value) = self {
            value.write(out);
        }
    }

    fn read(reader: &mut Reader<'_>) -> Result<Self, Malformed> {
        if bool::read(reader)? {
            Ok(Some(T::read(reader)?))
        } else {
            Ok(None)
        }
    }
}

impl<A: Wire, B: Wire> Wire for (A, B) {
    fn write(&self, out: &mut Vec<u8>) {
        self.0.write(out);
        self.1.write(out);
    }

    fn read(reader: &mut Reader<'_>) -> Result<Self, Malformed> {
        Ok((A::read(reader)?, B::read(reader)?))
    }
}

/// Fields that are bytes after their length of two bytes. A value of more than 65,535 bytes is written with that
/// length: it is refused where it is read.
pub(crate) mod sized2 {
    use super::{Malformed, Reader, Wire};

    pub(crate) fn write(value: &[u8], out: &mut Vec<u8>) {
        u16::try_from(value.len()).unwrap_or(u16::MAX).write(out);
        out.extend_from_slice(value);
    }

    pub(crate) fn read(reader: &mut Reader<'_>) -> Result<Vec<u8>, Malformed> {
        let count = u16::read(reader)?;
        Ok(reader.take(usize::from(count))?.to_vec())
    }
}

/// Fields that are bytes after their length of eight bytes.
pub(crate) mod sized8 {
    use super::{Malformed, Reader, Wire};

    pub(crate) fn write(value: &[u8], out: &mut Vec<u8>) {
        (value.len() as u64).write(out);
        out.extend_from_slice(value);
    }

    pub(crate) fn read(reader: &mut Reader<'_>) -> Result<Vec<u8>, Malformed> {
        let count = usize::try_from(u64::read(reader)?).map_err(|_| Malformed)?;
        Ok(reader.take(count)?.to_vec())
    }
}

/// Fields that are a count of eight bytes and so many values.
pub(crate) mod list {
    use super::{Malformed, Reader, Wire};

    pub(crate) fn write<T: Wire>(values: &[T], out: &mut Vec<u8>) {
        (values.len() as u64).write(out);
        values.iter().for_each(|value| value.write(out));
    }

    pub(crate) fn read<T: Wire>(reader: &mut Reader<'_>) -> Result<Vec<T>, Malformed> {
        let count = u64::read(reader)?;
        (0..count).map(|_| T::read(reader)).collect()
    }
}

/// A record of `open_channel`: its type and its value.
impl Wire for (u64, Vec<u8>) {
    fn write(&self, out: &mut Vec<u8>) {
        self.0.write(out);
        sized2::write(&self.1, out);
    }

    fn read(reader: &mut Reader<'_>) -> Result<Self, Malformed> {
        Ok((u64::read(reader)?, sized2::read(reader)?))
    }
}

macro_rules! write_field {
    ($value:expr, $out:expr) => {
        $crate::codec::Wire::write($value, $out)
    };
    ($value:expr, $out:expr, $how:ident) => {
        $crate::codec::$how::write($value, $out)
    };
}

macro_rules! read_field {
    ($reader:expr) => {
        $crate::codec::Wire::read($reader)?
    };
    ($reader:expr, $how:ident) => {
        $crate::codec::$how::read($reader)?
    };
}

/// A struct whose fields stand one after the other in its bytes; `as` tells how a field of bytes or a list is written.
macro_rules! packed {
    ($(#[$meta:meta])* pub struct $name:ident {
        $($(#[$field_meta:meta])* $field:ident: $kind:ty $(as $how:ident)?,)*
    }) => {
        $(#[$meta])*
        #[derive(Clone, Debug, PartialEq, Eq)]
        pub struct $name { $($(#[$field_meta])* pub $field: $kind,)* }

        impl $crate::codec::Wire for $name {
            fn write(&self, out: &mut Vec<u8>) {
                $($crate::codec::write_field!(&self.$field, out $(, $how)?);)*
            }

            fn read(reader: &mut $crate::codec::Reader<'_>) -> Result<Self, $crate::codec::Malformed> {
                Ok($name { $($field: $crate::codec::read_field!(reader $(, $how)?),)* })
            }
        }
    };
}

/// An enum of which each variant has its tag, a byte, before its fields.
macro_rules! tagged {
    ($(#[$meta:meta])* pub enum $name:ident {
        $($(#[$variant_meta:meta])* $tag:literal => $variant:ident $({
            $($(#[$field_meta:meta])* $field:ident: $kind:ty $(as $how:ident)?,)*
        })?,)*
    }) => {
        $(#[$meta])*
        #[derive(Clone, Debug, PartialEq, Eq)]
        pub enum $name { $($(#[$variant_meta])* $variant $({ $($(#[$field_meta])* $field: $kind,)* })?,)* }

        impl $crate::codec::Wire for $name {
            fn write(&self, out: &mut Vec<u8>) {
                match self {
                    $($name::$variant $({ $($field,)* })? => {
                        out.push($tag);
                        $($($crate::codec::write_field!($field, out $(, $how)?);)*)?
                    })*
                }
            }

            fn read(reader: &mut $crate::codec::Reader<'_>) -> Result<Self, $crate::codec::Malformed> {
                match <u8 as $crate::codec::Wire>::read(reader)? {
                    $($tag => Ok($name::$variant $({
                        $($field: $crate::codec::read_field!(reader $(, $how)?),)*
                    })?),)*
                    _ => Err($crate::codec::Malformed),
                }
            }
        }
    };
}

/// An enum that is a byte.
macro_rules! choice {
    ($(#[$meta:meta])* pub enum $name:ident { $($(#[$variant_meta:meta])* $variant:ident = $tag:literal,)* }) => {
        $(#[$meta])*
        #[derive(Clone, Copy, Debug, PartialEq, Eq, Hash)]
        pub enum $name { $($(#[$variant_meta])* $variant = $tag,)* }

        impl $crate::codec::Wire for $name {
            fn write(&self, out: &mut Vec<u8>) {
                out.push(*self as u8);
            }

            fn read(reader: &mut $crate::codec::Reader<'_>) -> Result<Self, $crate::codec::Malformed> {
                match <u8 as $crate::codec::Wire>::read(reader)? {
                    $($tag => Ok($name::$variant),)*
                    _ => Err($crate::codec::Malformed),
                }
            }
        }
    };
}

pub(crate) use {choice, packed, read_field, tagged, write_field};
