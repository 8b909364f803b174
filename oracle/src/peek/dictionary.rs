//! Mounted inside the original `bitwise::sparse_one_nnd`: reads the dictionary's private fields.

use super::{Base, SparseOneNnd};
use crate::peek::Content;

fn pairs<T: Copy + Into<u64>>(entries: &[Base<T>]) -> Vec<(u64, u64)> {
    entries
        .iter()
        .map(|e| (e.small_index.into(), e.rank.into()))
        .collect()
}

impl Content for SparseOneNnd {
    fn bytes(&self) -> &[u8] {
        &self.smalles
    }
    fn middles(&self) -> Vec<(u64, u64)> {
        pairs(&self.middles)
    }
    fn larges(&self) -> Vec<(u64, u64)> {
        pairs(&self.larges)
    }
}
