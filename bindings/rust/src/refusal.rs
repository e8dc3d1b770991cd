//! Why there are no rows, in sentences.
use core::fmt;

/// Why a book is not right, by the numbers 17 to 23.
#[derive(Clone, Copy, Debug, PartialEq, Eq, Hash)]
#[repr(u8)]
pub enum Reason {
    /// The book's head, or bytes after its last record.
    Head = 17,
    /// A record's length.
    RecordLength = 18,
    /// A code out of range.
    CodeRange = 19,
    /// A link to another type.
    TypeLink = 20,
    /// A bound.
    Bound = 21,
    /// The list of members.
    MemberList = 22,
    /// A union's first member.
    FirstMember = 23,
}

impl Reason {
    /// The reason with a number; none where there is no such reason.
    pub fn of_number(number: u8) -> Option<Reason> {
        use Reason::*;
        [Head, RecordLength, CodeRange, TypeLink, Bound, MemberList, FirstMember].into_iter().find(|r| *r as u8 == number)
    }
}

impl fmt::Display for Reason {
    fn fmt(&self, f: &mut fmt::Formatter<'_>) -> fmt::Result {
        f.write_str(match self {
            Reason::Head => "head: its length is not the book's or over 65,536, its version is not 1, its types are not 1 to 64, or bytes are left after the last record",
            Reason::RecordLength => "record length: below 14, past the book's end, or its members do not fill it",
            Reason::CodeRange => "code out of range: its kind, extensibility, enum base or bound flag, or a member's flags or try-construct",
            Reason::TypeLink => "type link: its element, or a member's type, is not below its own record, or there is one where none may be",
            Reason::Bound => "bound: an array has none, or there is one without its flag",
            Reason::MemberList => "member list: too many members or none, members where its kind has none, two of one id, or over 16 labels",
            Reason::FirstMember => "union's first member: its id is not 0, its type is no discriminator's, or it is a default or has a label",
        })
    }
}

/// What is wrong with a book: the first broken rule in reading order.
#[derive(Clone, Copy, Debug, PartialEq, Eq, Hash)]
pub struct Fault {
    /// The record's number; none for the book's head, and for bytes after the last record.
    pub record: Option<u16>,
    /// Which rule it breaks.
    pub reason: Reason,
}

impl fmt::Display for Fault {
    fn fmt(&self, f: &mut fmt::Formatter<'_>) -> fmt::Result {
        match self.record {
            Some(record) => write!(f, "record {record}: {}", self.reason),
            None => write!(f, "the book's {}", self.reason),
        }
    }
}

impl core::error::Error for Fault {}

/// Why there are no rows.
#[derive(Clone, Copy, Debug, PartialEq, Eq, Hash)]
pub enum Refusal {
    /// 1: the data ends before the type does.
    NotEnoughData {
        /// Where the read that ran short began, in the data.
        position: u64,
        /// How many bytes more it needed.
        need: u64,
    },
    /// 2: a boolean that is neither 0 nor 1, a text that is none, a union that selects nothing, an unknown identifier, or a wrong end.
    InvalidData,
    /// 3: the root is no structure, enum or union, or a discriminator is of a kind that selects nothing.
    InvalidType,
    /// 8: the index of the prepared book holds no types.
    NotPrepared,
    /// 9: the book has no type of the root's number.
    BadRoot,
    /// 10: the message has more than 65,536 bytes.
    TooLong,
    /// 11: a type that is not supported was to be read.
    Unsupported,
    /// 12: a seventeenth structure, enum or union would open inside the others.
    TooDeep,
    /// 13: the table has no place for the next row.
    NoRoom,
    /// 14: a union's discriminator is not in the message.
    NoDiscriminator,
    /// 16: the type does not pass the check.
    Unfit,
    /// 17 to 23: the book breaks a rule.
    BadBook(Fault),
    /// A number that this crate does not know: nothing was read.
    Unknown(u8),
}

impl Refusal {
    /// The number that was given back.
    pub fn number(&self) -> u8 {
        match self {
            Refusal::NotEnoughData { .. } => 1,
            Refusal::InvalidData => 2,
            Refusal::InvalidType => 3,
            Refusal::NotPrepared => 8,
            Refusal::BadRoot => 9,
            Refusal::TooLong => 10,
            Refusal::Unsupported => 11,
            Refusal::TooDeep => 12,
            Refusal::NoRoom => 13,
            Refusal::NoDiscriminator => 14,
            Refusal::Unfit => 16,
            Refusal::BadBook(fault) => fault.reason as u8,
            Refusal::Unknown(number) => *number,
        }
    }
}

impl fmt::Display for Refusal {
    fn fmt(&self, f: &mut fmt::Formatter<'_>) -> fmt::Result {
        f.write_str(match self {
            Refusal::NotEnoughData { position, need } => return write!(f, "the data ends before the type does: at byte {position} {need} more were needed"),
            Refusal::InvalidData => "bad data: a boolean, a text, a union's choice, an identifier or an end that no value of the type has",
            Refusal::InvalidType => "the root is no structure, enum or union, or a union's discriminator is of a kind that selects nothing",
            Refusal::NotPrepared => "the prepared book holds no types",
            Refusal::BadRoot => "the book has no type of the root's number",
            Refusal::TooLong => "the message has more than 65,536 bytes",
            Refusal::Unsupported => "a type that is not supported was to be read",
            Refusal::TooDeep => "a seventeenth structure, enum or union would open inside the others",
            Refusal::NoRoom => "the table has no place for the next row",
            Refusal::NoDiscriminator => "a union's discriminator is not in the message",
            Refusal::Unfit => "the type does not pass the check",
            Refusal::BadBook(fault) => return write!(f, "the book breaks a rule: {fault}"),
            Refusal::Unknown(number) => return write!(f, "the library gave back the number {number}, which is not known here"),
        })
    }
}

impl core::error::Error for Refusal {}
