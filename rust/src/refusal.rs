//! What a call refuses with.
use std::fmt;

macro_rules! refusals {
    ($($name:ident = $number:literal, $text:literal;)*) => {
        /// Why a call refused: a variant for each number of the specification's table.
        #[derive(Clone, Copy, Debug, Eq, Hash, PartialEq)]
        #[non_exhaustive]
        pub enum Refusal {
            $(#[doc = concat!($number, ": ", $text, ".")] $name,)*
        }

        impl Refusal {
            /// Every refusal, by rising number.
            pub const ALL: &'static [Refusal] = &[$(Refusal::$name),*];

            /// The number in the specification's table.
            pub fn number(self) -> usize {
                match self { $(Refusal::$name => $number,)* }
            }

            fn text(self) -> &'static str {
                match self { $(Refusal::$name => $text,)* }
            }
        }
    };
}

refusals! {
    TextTooLong = 1, "the text has more than 1,048,576 bytes";
    NotAscii = 2, "a byte of the text is 128 or more";
    NoRoom = 3, "more records than the library takes";
    DefinedBefore = 4, "a name is defined twice";
    NoDriver = 5, "a gate input or an output has no driver";
    WrongCount = 6, "wrong number of inputs, outputs or declared names";
    BadRow = 7, "a bad row of a BLIF cover";
    Unknown = 8, "unknown directive, operation or declaration";
    Malformed = 9, "malformed line";
    NoOutputs = 10, "the circuit has no outputs";
    HeaderMismatch = 11, "the Bristol header disagrees with the content";
    NotNumber = 12, "a word is not an unsigned 64-bit number";
    OutputOutside = 13, "a Bristol output wire is not below the wire count";
    DrivenTwice = 14, "a Bristol wire is driven twice";
    Broken = 15, "a record breaks the circuit rules";
    NotEarlier = 16, "a node reads itself or a later one";
    Circle = 17, "cells read in a circle";
    NoWindow = 18, "the window is 0";
    WrongValues = 19, "an assignment has a wrong length or value, or its number is too large";
    UnfitOrder = 20, "the order does not have each cell once after those that it reads";
    TooManyInputs = 21, "more than 20 inputs to number the assignments of";
}

impl Refusal {
    /// The refusal of a number that the library answered.
    pub(crate) fn of(number: usize) -> Self {
        match Self::ALL.iter().find(|refusal| refusal.number() == number) {
            Some(refusal) => *refusal,
            None => panic!("the static library answers {number}, which this crate has no refusal for: build both from one checkout"),
        }
    }
}

impl fmt::Display for Refusal {
    fn fmt(&self, f: &mut fmt::Formatter<'_>) -> fmt::Result {
        write!(f, "refused {}: {}", self.number(), self.text())
    }
}

impl std::error::Error for Refusal {}

/// For callers whose errors are strings.
impl From<Refusal> for String {
    fn from(refusal: Refusal) -> Self {
        refusal.to_string()
    }
}
