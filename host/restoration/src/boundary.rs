//! Macros that declare the library's entry points, answers and defaults.

/// Entry points, `name = symbol(parameters) -> answer;`: declares each and a safe function with the
/// same parameters. A slice is passed as a pointer and a length.
// SAFETY: each entry point is proved for all inputs, and pointer and length are those of a slice.
macro_rules! entries {
    ($($(#[$doc:meta])* $name:ident = $symbol:ident($($rest:tt)*) -> $answer:ty;)*) => {
        $(entries!(@ { $(#[$doc])* $name $symbol $answer } [] [] [] $($rest)*,);)*
    };
    (@ $head:tt [$($own:tt)*] [$($c:tt)*] [$($passed:tt)*] $x:ident: &[$t:ty], $($rest:tt)*) => {
        entries!(@ $head [$($own)* $x: &[$t],] [$($c)* _: *const $t, _: usize,]
            [$($passed)* $x.as_ptr(), $x.len(),] $($rest)*);
    };
    (@ $head:tt [$($own:tt)*] [$($c:tt)*] [$($passed:tt)*] $x:ident: &mut [$t:ty], $($rest:tt)*) => {
        entries!(@ $head [$($own)* $x: &mut [$t],] [$($c)* _: *mut $t, _: usize,]
            [$($passed)* $x.as_mut_ptr(), $x.len(),] $($rest)*);
    };
    (@ $head:tt [$($own:tt)*] [$($c:tt)*] [$($passed:tt)*] $x:ident: $t:ty, $($rest:tt)*) => {
        entries!(@ $head [$($own)* $x: $t,] [$($c)* _: $t,] [$($passed)* $x,] $($rest)*);
    };
    (@ { $(#[$doc:meta])* $name:ident $symbol:ident $answer:ty }
        [$($own:tt)*] [$($c:tt)*] [$($passed:tt)*] $(,)?) => {
        $(#[$doc])*
        #[must_use = "the number alone says whether the call was refused"]
        #[allow(clippy::too_many_arguments, reason = "the parameters are those of the library")]
        pub fn $name($($own)*) -> $answer {
            unsafe extern "C" {
                fn $symbol($($c)*) -> $answer;
            }
            unsafe { $symbol($($passed)*) }
        }
    };
}

/// Answers: a number, and fields that are zero where the number is a refusal's.
macro_rules! answers {
    ($($(#[$doc:meta])* $name:ident { $($field:ident: $type:ty),+ })*) => { $(
        $(#[$doc])*
        #[repr(C)]
        #[derive(Debug, Clone, Copy, PartialEq)]
        pub struct $name {
            pub number: u32,
            $(pub $field: $type,)+
        }

        impl $name {
            /// The fields of an accepted call's answer, or why the call was refused.
            #[allow(unused_parens, reason = "one field is no tuple")]
            pub fn value(self) -> Result<($($type),+), $crate::Refusal> {
                $crate::accepted(self.number)?;
                Ok(($(self.$field),+))
            }

            /// A refused call's answer: its number, and zeros in every other field.
            pub const fn refused(number: u32) -> Self {
                // SAFETY: every field is an integer, a float or a bool, or is made of these, and
                // zero bytes are a value of each.
                let zeros: Self = unsafe { core::mem::zeroed() };
                Self { number, ..zeros }
            }
        }
    )* };
}

/// `Default` of structs that have a constant `DEFAULT`.
macro_rules! defaults {
    ($($name:ident)*) => { $(
        impl Default for $name {
            fn default() -> Self {
                Self::DEFAULT
            }
        }
    )* };
}

pub(crate) use {answers, defaults, entries};
