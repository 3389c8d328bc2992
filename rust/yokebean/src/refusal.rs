//! Why a call was refused: the numbers and their sentences, each said once.

use std::fmt;

/// The enum, its numbers and its sentences, from one list.
macro_rules! refusals {
    ($($number:literal $name:ident $sentence:literal)*) => {
        /// Why a call was refused. Its `Display` is the sentence that stands with it here. Of load, propose and find on an [`OpenTable`](crate::OpenTable),
        /// 21, 23 and 24 are about the waiting session; 26 and 27 come only from the calls of [`raw`](crate::raw), since here an open table is a type of its
        /// own.
        ///
        /// ```
        /// use yokebean::{check, Refusal, Size};
        ///
        /// let refusal = check(Size { p: 9, n: 2 }, &[1, 0], &[2, 1], &[2, 1], &[1, 1]).unwrap_err();
        /// assert_eq!(refusal, Refusal::NotPrime);
        /// assert_eq!(refusal.to_string(), "p is below 2, above 1,048,575 or not prime");
        /// ```
        #[derive(Clone, Copy, Debug, PartialEq, Eq, Hash)]
        #[non_exhaustive]
        pub enum Refusal {
            $(#[doc = concat!(stringify!($number), ": ", $sentence, ".")] $name,)*
            /// A number that this layer does not know; no call gives one.
            Other(u32),
        }

        impl Refusal {
            pub(crate) fn of(number: u32) -> Self {
                match number {
                    $($number => Refusal::$name,)*
                    _ => Refusal::Other(number),
                }
            }

            /// The number that C has for it.
            ///
            /// ```
            /// assert_eq!(yokebean::Refusal::Congruence.number(), 8);
            /// ```
            pub fn number(self) -> u32 {
                match self {
                    $(Refusal::$name => $number,)*
                    Refusal::Other(number) => number,
                }
            }
        }

        impl fmt::Display for Refusal {
            fn fmt(&self, f: &mut fmt::Formatter) -> fmt::Result {
                match self {
                    $(Refusal::$name => f.write_str($sentence),)*
                    Refusal::Other(number) => write!(f, "refusal {number}"),
                }
            }
        }
    };
}

refusals! {
    1 NotPrime "p is below 2, above 1,048,575 or not prime"
    2 Degree "n is not 1 to 16"
    3 Length "a list of coefficients or a matrix, read or written, or the output list of a catalogue, card, sheet or report has the wrong length"
    4 Word "a coefficient or a word of a matrix is p or more"
    5 DegreeDoesNotDivide "n neither divides p − 1 nor is p^k with k ≥ 1"
    6 FirstModulusFactors "T1, or T where a call has one modulus, has a monic divisor of degree 1 to n − 1"
    7 SecondModulusFactors "T2 has a monic divisor of degree 1 to n − 1"
    8 Congruence "one of the congruences T1(S) = 0 mod T2, T2(R) = 0 mod T1, S(R) = X mod T1, R(S) = X mod T2 fails"
    9 TableLength "words of a table or part: above 16,384 or not a multiple of n; or a part that would bring its table above 4,294,967,295 residues"
    10 OutputLength "output length differs from input length"
    11 CardLength "card under 3 bytes, or under 6 where it begins with two zero bytes, or not of its exact length"
    12 CardKind "kind is neither 1 nor 2"
    13 FillBit "a fill bit is 1: after the last coefficient, or in the header of a wide card"
    21 SessionEmpty "the session is empty, and the call is propose, find, forward, back or begin"
    22 SessionWithoutPair "the session is loaded without a pair, and the call is forward, back or begin"
    23 SessionNotEmpty "the session is not empty, and the call is load"
    24 SessionPaired "the session is paired, and the call is propose or find"
    25 LedgerFull "the ledger holds 512 records"
    26 NoTableOpen "no table is open, and the call is feed or end"
    27 TableOpen "a table is open, and the call is begin, forward or back"
    28 CardTooWide "a wide card has a p below 65,536"
    29 CatalogueTooLarge "p^n is above 65,536, and a catalogue is asked for"
}

impl std::error::Error for Refusal {}
