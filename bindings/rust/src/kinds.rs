//! The kinds of types and of rows.

macro_rules! kinds {
    ($($name:ident = $number:literal $says:literal,)*) => {
        /// The kind of a type in a book; a row's kind is one of them too.
        #[derive(Clone, Copy, Debug, PartialEq, Eq, Hash)]
        #[repr(u8)]
        pub enum Kind {
            $(#[doc = $says] $name = $number,)*
        }

        impl Kind {
            /// The kind with a number; none where there is no such kind.
            pub fn of_number(number: u64) -> Option<Kind> {
                match number {
                    $($number => Some(Kind::$name),)*
                    _ => None,
                }
            }
        }
    };
}

kinds! {
    None = 0 "Nothing: a member of it has no row.",
    Boolean = 1 "False or true.",
    Byte = 2 "A byte, whose rows have the kind `UInt8`.",
    Int16 = 3 "A signed number of 16 bits.",
    Int32 = 4 "A signed number of 32 bits.",
    Int64 = 5 "A signed number of 64 bits.",
    UInt16 = 6 "An unsigned number of 16 bits.",
    UInt32 = 7 "An unsigned number of 32 bits.",
    UInt64 = 8 "An unsigned number of 64 bits.",
    Float32 = 9 "A float of 32 bits.",
    Float64 = 10 "A float of 64 bits.",
    Float128 = 11 "A float of 128 bits.",
    Int8 = 12 "A signed number of 8 bits.",
    UInt8 = 13 "An unsigned number of 8 bits.",
    Char8 = 14 "A character of 8 bits.",
    Char16 = 15 "A character of 16 bits: not supported.",
    String8 = 16 "A text in UTF-8.",
    String16 = 17 "A text in UTF-16.",
    Alias = 18 "Another name: not supported.",
    Bitmask = 19 "Bits, whose rows have the kind of the number that holds them.",
    Annotation = 20 "An annotation: not supported.",
    Enum = 21 "An enum.",
    Structure = 22 "A structure.",
    Union = 23 "A union.",
    Bitset = 24 "Fields of bits: not supported.",
    Sequence = 25 "A list; the rows of arrays have this kind too.",
    Array = 26 "An array.",
    Map = 27 "A map: not supported.",
}

/// How a type in a book may change.
#[derive(Clone, Copy, Debug, PartialEq, Eq, Hash)]
#[repr(u8)]
pub enum Extensibility {
    /// Not at all.
    Final = 0,
    /// Members may be added at its end.
    Appendable = 1,
    /// Members may come, go and change places: each is found by its id.
    Mutable = 2,
}

/// What is done with a member whose value cannot be made, in a book.
#[derive(Clone, Copy, Debug, PartialEq, Eq, Hash)]
#[repr(u8)]
pub enum TryConstruct {
    /// Where the data ends before the member, the structure ends there.
    UseDefault = 0,
    /// The reading is refused.
    Discard = 1,
    /// Read as `Discard`.
    Trim = 2,
}

/// A member's flag in a book: it may be left out.
pub const OPTIONAL: u8 = 1;

/// A member's flag in a book: the one for discriminators that no label names, or an enum's default literal.
pub const DEFAULT: u8 = 2;

/// No type, in a book: an element's or a literal's, where there is none.
pub const NO_TYPE: u16 = 65535;
