//! The numbers of refusals.

use core::fmt;

macro_rules! refusals {
    ($($number:literal $name:ident $meaning:literal)*) => {
        /// Why a call was refused. A refused call changes none of the caller's buffers.
        ///
        /// ```
        /// assert_eq!(restoration::accepted(0), Ok(()));
        /// let refusal = restoration::accepted(10).unwrap_err();
        /// assert_eq!((refusal, refusal.number()), (restoration::Refusal::BandNotOpen, 10));
        /// assert_eq!(refusal.to_string(), format!("refusal 10: {}", refusal.meaning()));
        /// ```
        #[derive(Debug, Clone, Copy, PartialEq, Eq)]
        pub enum Refusal {
            $(#[doc = $meaning] $name = $number,)*
        }

        impl Refusal {
            /// All refusals, in the order of their numbers, which are 1, 2, 3, ...
            ///
            /// ```
            /// let numbers = restoration::Refusal::ALL.map(|refusal| refusal.number() as usize);
            /// assert!(numbers.into_iter().eq(1..=numbers.len()));
            /// ```
            pub const ALL: [Self; [$($number),*].len()] = [$(Self::$name),*];

            pub fn number(self) -> u32 {
                self as u32
            }

            pub fn meaning(self) -> &'static str {
                match self {
                    $(Self::$name => $meaning,)*
                }
            }
        }

        /// `Ok` if a call with this number was accepted, else why it was refused.
        ///
        /// # Panics
        /// If the library has no such number.
        pub fn accepted(number: u32) -> Result<(), Refusal> {
            match number {
                0 => Ok(()),
                $($number => Err(Refusal::$name),)*
                _ => panic!("the library has no number {number}"),
            }
        }
    };
}

refusals! {
    1 BitsRunOut "the header's bits run out"
    2 HalfNotFinite "a half-precision number of the header is not finite"
    3 KernelNearZero "the weights of a channel and its centre's 1 add up to nearly 0"
    4 OutOfLimits "a side, area, left or top is out of range"
    5 NotInside "the filter region is not inside the image region"
    6 NotOnBlocks "the filter region's left or top is negative or no multiple of 8"
    7 WrongLength "a slice has a wrong length, or a cut file is longer than 16,777,216 bytes"
    8 BlockNotHeld "a block of the filter region has no group, or its group's grid does not hold it"
    9 OutOfRange "a setting is out of range, a run record is not valid, or there is no such rectangle"
    10 BandNotOpen "there is no such band, or it is done already, or the run is finished"
    11 PassNotDone "an advance with a band missing or after the finish, or a result before the finish"
    12 NotACutFile "the marker of a cut file is wrong, or its count of rectangles is not 1 to 64"
    13 BadEntry "an entry of a cut file has a side, area, left or top out of range, or a wrong offset"
    14 WrongEnd "a cut file ends before or after its last rectangle does"
    15 WantedOutside "the wanted rectangle is empty or not inside the whole filter region"
}

impl fmt::Display for Refusal {
    fn fmt(&self, f: &mut fmt::Formatter) -> fmt::Result {
        write!(f, "refusal {}: {}", self.number(), self.meaning())
    }
}

impl std::error::Error for Refusal {}
