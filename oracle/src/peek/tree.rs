//! Mounted inside the original `tree::balanced_parens::parentheses`: reads the private fields of the tree, its nodes and
//! its pioneer levels.

use super::super::{BalancedParensTree, Node};
use super::{extract_pioneers, Parens};
use crate::bitwise::{BitString, SparseOneNnd};
use crate::peek::{Inside, Level, Place};
use crate::tree::LabelVec;

type Tree = BalancedParensTree<LabelVec<u32>, SparseOneNnd>;

impl Inside for Tree {
    type Node<'a> = Node<LabelVec<u32>, SparseOneNnd, &'a Tree>;

    fn string(&self) -> &BitString {
        &self.parens.bits
    }
    fn levels(&self) -> Vec<Level<'_>> {
        let mut found = Vec::new();
        let mut string: &Parens<SparseOneNnd> = &self.parens;
        while let Some(family) = &string.pioneers {
            let (flags, _) = extract_pioneers(&string.bits);
            found.push(Level {
                flags,
                dictionary: &family.nnd,
                string: &family.parens.bits,
            });
            string = &family.parens;
        }
        found
    }
    fn close(&self, place: u64) -> Option<u64> {
        self.parens.get_close(place)
    }
    fn node(&self, place: u32, id: u32) -> Self::Node<'_> {
        Node::new(place, id, self)
    }
}

impl<L, N, T> Place for Node<L, N, T> {
    fn place(&self) -> u32 {
        self.inner_id
    }
}
