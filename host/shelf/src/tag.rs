//! Tags of data elements: their classes and their key.
use crate::raw;
use std::fmt;

/// The tag of a data element: group and element.
///
/// ```
/// use shelf::{Class, Tag};
/// let dose_curve = Tag { group: 0x3005, element: 0x1042 };
/// assert_eq!(dose_curve.class(), Class::Private { block: 0x10, low: 0x42 });
/// assert_eq!(dose_curve.key(), 0x3005_1042);
/// assert_eq!(dose_curve.to_string(), "(3005,1042)");
/// ```
#[derive(Clone, Copy, Debug, PartialEq, Eq, Hash, PartialOrd, Ord)]
pub struct Tag {
    /// The group.
    pub group: u16,
    /// The element.
    pub element: u16,
}

/// What a tag is.
#[derive(Clone, Copy, Debug, PartialEq, Eq, Hash)]
pub enum Class {
    /// The group is even.
    Public,
    /// The creator of a block of a private group.
    Creator {
        /// The block.
        block: u8,
    },
    /// An element of a block of a private group.
    Private {
        /// The block.
        block: u8,
        /// The element's number in the block.
        low: u8,
    },
    /// A private group's element that belongs to no block.
    Unassigned,
}

impl Tag {
    /// The class of the tag.
    pub fn class(self) -> Class {
        let answer = raw::tag_class(self.group, self.element);
        match answer.a {
            0 => Class::Public,
            1 => Class::Creator { block: answer.b as u8 },
            2 => Class::Private { block: answer.b as u8, low: answer.c as u8 },
            _ => Class::Unassigned,
        }
    }

    /// The key of the tag by rule 1, which no other tag has.
    pub fn key(self) -> u64 {
        raw::key_1(self.group, self.element).a
    }
}

impl fmt::Display for Tag {
    fn fmt(&self, out: &mut fmt::Formatter<'_>) -> fmt::Result {
        write!(out, "({:04x},{:04x})", self.group, self.element)
    }
}

impl fmt::Display for Class {
    fn fmt(&self, out: &mut fmt::Formatter<'_>) -> fmt::Result {
        match self {
            Class::Public => write!(out, "public"),
            Class::Creator { block } => write!(out, "creator of block {block:02x}"),
            Class::Private { block, low } => write!(out, "private element {low:02x} of block {block:02x}"),
            Class::Unassigned => write!(out, "private, unassigned"),
        }
    }
}
