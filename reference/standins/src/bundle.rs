use crate::{Bitstream, Error};

/// A value that is read from bits, given a context.
pub trait Bundle<Ctx>: Sized {
    type Error;

    fn parse(bitstream: &mut Bitstream, ctx: Ctx) -> Result<Self, Self::Error>;
}

/// A frame's name; no comparison reads one.
#[derive(Debug, Default, Clone)]
pub struct Name;

impl<Ctx> Bundle<Ctx> for Name {
    type Error = Error;

    fn parse(_: &mut Bitstream, _: Ctx) -> Result<Self, Error> {
        Err(Error::NotStoodIn)
    }
}

/// Declares the structs of a table of fields, with the default of its type for each field.
///
/// Only the types of the fields are used: no comparison reads a whole frame header, so conditions,
/// defaults and contexts are ignored and there is no reader.
#[macro_export]
macro_rules! define_bundle {
    ($(
        $(#[$about:meta])*
        $v:vis struct $name:ident $(ctx($($ctx:tt)*))? error($error:ty) {
            $($fv:vis $field:ident: ty($($ty:tt)*) $($rule:ident($($rest:tt)*))*,)*
        }
    )*) => {$(
        $(#[$about])*
        #[derive(Default)]
        $v struct $name {
            $($fv $field: $crate::field_type!($($ty)*),)*
        }
    )*};
}

/// The type of a field of `define_bundle!`.
#[macro_export]
macro_rules! field_type {
    (Bool) => { bool };
    (Bundle($bundle:ty)) => { $bundle };
    (Array[$($item:tt)*]; $count:literal) => { [$crate::field_type!($($item)*); $count] };
    (Vec[$($item:tt)*]; $count:expr) => { Vec<$crate::field_type!($($item)*)> };
    (U32($($way:tt)*); UnpackSigned) => { i32 };
    (U32($($way:tt)*)) => { u32 };
    (u($count:literal)) => { u32 };
    ($least:literal + u($count:literal)) => { u32 };
}
