//! The original as a static library for C, declared in ../../bench/original.h. A panic of the original ends the program.

use std::slice;

#[allow(dead_code)]
mod peek;

// The original: `crate::bitwise` and `crate::tree`.
include!(concat!(env!("OUT_DIR"), "/succparen/mount.rs"));

use bitwise::BitString;
use peek::{Content, Inside, Place};
use tree::balanced_parens::BalancedParensTree;
use tree::traversal::{DepthFirstTraverse, VisitNode};
use tree::{Edge, LabelVec, Node};

type Tree = BalancedParensTree<LabelVec<u32>>;

/// A level list and its labels, as the original's builder takes them.
struct Listed<'a> {
    levels: &'a [u32],
    labels: &'a [u32],
    next: usize,
}
impl DepthFirstTraverse for Listed<'_> {
    type Label = u32;
    fn next(&mut self) -> Option<VisitNode<u32>> {
        let level = *self.levels.get(self.next)?;
        let label = self.labels[self.next];
        self.next += 1;
        Some(VisitNode::new(label, level as usize, 0))
    }
}

#[no_mangle]
pub extern "C" fn original_here() -> u64 {
    1
}

/// # Safety
/// `levels` and `labels` have n elements each. The tree is given back to `original_free`.
#[no_mangle]
pub unsafe extern "C" fn original_build(
    levels: *const u32,
    labels: *const u32,
    n: usize,
) -> *mut Tree {
    let list = Listed {
        levels: slice::from_raw_parts(levels, n),
        labels: slice::from_raw_parts(labels, n),
        next: 0,
    };
    Box::into_raw(Box::new(Tree::new(list)))
}

/// # Safety
/// The tree comes from `original_build`, and is not used again.
#[no_mangle]
pub unsafe extern "C" fn original_free(tree: *mut Tree) {
    drop(Box::from_raw(tree));
}

#[no_mangle]
pub extern "C" fn original_byte_size(tree: &Tree) -> u64 {
    tree.external_byte_size()
}

/// The close of an open.
#[no_mangle]
pub extern "C" fn original_close(tree: &Tree, place: u64) -> u64 {
    tree.close(place).unwrap()
}

/// Place, id and label into out, and 1; or 0 if there is no such node.
fn told<N: Node<u32> + Place>(edge: Option<Edge<u32, N>>, out: &mut [u64; 3]) -> u64 {
    let Some(e) = edge else { return 0 };
    *out = [e.node.place() as u64, e.node.id() as u64, e.label as u64];
    1
}

#[no_mangle]
pub extern "C" fn original_first_child(
    tree: &Tree,
    place: u64,
    id: u64,
    out: &mut [u64; 3],
) -> u64 {
    told(tree.node(place as u32, id as u32).first_child(), out)
}

#[no_mangle]
pub extern "C" fn original_next_sibling(
    tree: &Tree,
    place: u64,
    id: u64,
    out: &mut [u64; 3],
) -> u64 {
    told(tree.node(place as u32, id as u32).next_sibling(), out)
}

/// The first child, else the next sibling of the nearest node on the way back that has one.
fn step<N: Node<u32>>(way: &mut Vec<N>) -> Option<u32> {
    if let Some(child) = way.last()?.first_child() {
        way.push(child.node);
        return Some(child.label);
    }
    while let Some(last) = way.pop() {
        if let Some(sibling) = last.next_sibling() {
            way.push(sibling.node);
            return Some(sibling.label);
        }
    }
    None
}

/// Levels and labels from the root into two lists; answers how many nodes it met.
///
/// # Safety
/// The lists have n elements each.
#[no_mangle]
pub unsafe extern "C" fn original_walk(
    tree: &Tree,
    levels: *mut u32,
    labels: *mut u32,
    n: usize,
) -> u64 {
    let levels = slice::from_raw_parts_mut(levels, n);
    let labels = slice::from_raw_parts_mut(labels, n);
    let mut way = vec![tree.root()];
    let mut met = 0;
    while let Some(label) = step(&mut way) {
        levels[met] = way.len() as u32 - 2;
        labels[met] = label;
        met += 1;
    }
    met as u64
}

/// The content of all levels, each kind one after another as document 01's areas have it.
#[derive(Default)]
struct Areas {
    bits: Vec<u64>,
    words: Vec<u64>,
    bytes: Vec<u64>,
    middles: Vec<u64>,
    larges: Vec<u64>,
}
impl Areas {
    fn add(&mut self, string: &BitString) {
        self.bits.push(string.len());
        self.words
            .extend(string.as_fixnums().iter().map(|w| w.to_inner()));
    }
    fn of(tree: &Tree) -> Self {
        let pair = |(position, rank)| [position, rank];
        let mut areas = Areas::default();
        areas.add(tree.string());
        for level in tree.levels() {
            let d = level.dictionary;
            areas.add(level.string);
            areas.bytes.extend(d.bytes().iter().map(|&b| b as u64));
            areas.middles.extend(d.middles().into_iter().flat_map(pair));
            areas.larges.extend(d.larges().into_iter().flat_map(pair));
        }
        areas
    }
}

/// The elements of an area (0 words, 1 bytes, 2 middle entries, 3 large entries, each as u64; 9 the bits of each string),
/// as many as there is room for; answers how many there are.
///
/// # Safety
/// `out` has `room` elements.
#[no_mangle]
pub unsafe extern "C" fn original_area(
    tree: &Tree,
    area: u64,
    out: *mut u64,
    room: usize,
) -> u64 {
    let areas = Areas::of(tree);
    let all = match area {
        0 => areas.words,
        1 => areas.bytes,
        2 => areas.middles,
        3 => areas.larges,
        _ => areas.bits,
    };
    let out = slice::from_raw_parts_mut(out, room);
    for (to, from) in out.iter_mut().zip(&all) {
        *to = *from;
    }
    all.len() as u64
}
