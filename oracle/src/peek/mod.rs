//! What the original keeps private, as traits. They are implemented in dictionary.rs and tree.rs, which build.rs mounts
//! inside the original's own modules.

use crate::bitwise::{BitString, SparseOneNnd};

/// The content of a dictionary.
pub trait Content {
    fn bytes(&self) -> &[u8];
    /// Byte position and rank of each middle entry.
    fn middles(&self) -> Vec<(u64, u64)>;
    /// Byte position and rank of each large entry.
    fn larges(&self) -> Vec<(u64, u64)>;
}

/// A pioneer level of a tree.
pub struct Level<'a> {
    pub flags: BitString,
    pub dictionary: &'a SparseOneNnd,
    pub string: &'a BitString,
}

/// The inside of a tree.
pub trait Inside {
    type Node<'a>
    where
        Self: 'a;
    fn string(&self) -> &BitString;
    fn levels(&self) -> Vec<Level<'_>>;
    /// `Parens::get_close` of the tree's string.
    fn close(&self, place: u64) -> Option<u64>;
    fn node(&self, place: u32, id: u32) -> Self::Node<'_>;
}

/// A node's place in the string.
pub trait Place {
    fn place(&self) -> u32;
}
