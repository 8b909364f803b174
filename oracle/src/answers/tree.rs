//! A tree built from levels and labels, `tree/balanced_parens`.

use std::panic::{catch_unwind, AssertUnwindSafe};

use super::dictionary::content;
use crate::peek::{Inside, Place};
use crate::text::{ask, bits, each, list, number, numbers, Bad};
use crate::tree::balanced_parens::BalancedParensTree;
use crate::tree::traversal::{DepthFirstTraverse, VisitNode};
use crate::tree::{Edge, LabelVec, Node};

type Tree = BalancedParensTree<LabelVec<u32>>;

/// Number of fields when the build panics: all but those of the pioneer levels.
const FIELDS: usize = 8;

/// The level list as the original's builder takes it.
struct Listed {
    nodes: std::vec::IntoIter<(usize, u32)>,
}
impl DepthFirstTraverse for Listed {
    type Label = u32;
    fn next(&mut self) -> Option<VisitNode<u32>> {
        let (level, label) = self.nodes.next()?;
        Some(VisitNode::new(label, level, 0))
    }
}

fn build(levels: &[u64], labels: &[u64]) -> Option<Tree> {
    let nodes: Vec<(usize, u32)> = levels
        .iter()
        .zip(labels)
        .map(|(&v, &l)| (v as usize, l as u32))
        .collect();
    catch_unwind(AssertUnwindSafe(|| {
        Tree::new(Listed {
            nodes: nodes.into_iter(),
        })
    }))
    .ok()
}

/// Fields: number of nodes, levels, labels.
pub fn by_levels(fields: &[&str]) -> Result<Vec<String>, Bad> {
    let [n, levels, labels] = fields else {
        return Err("number of nodes, levels and labels wanted".to_string());
    };
    asked(number(n)?, numbers(levels)?, numbers(labels)?)
}

/// Fields: number of nodes, words of the parenthesis string, labels.
pub fn by_words(fields: &[&str]) -> Result<Vec<String>, Bad> {
    let [n, words, labels] = fields else {
        return Err("number of nodes, words and labels wanted".to_string());
    };
    let n = number(n)?;
    asked(n, levels_of(n, &numbers(words)?)?, numbers(labels)?)
}

/// The level list of a balanced string of 2n + 2 bits, given in words of 64, lowest bit first.
fn levels_of(n: u64, words: &[u64]) -> Result<Vec<u64>, Bad> {
    let mut levels = Vec::new();
    let mut depth = 0u64;
    for place in 0..2 * n + 2 {
        let word = words.get((place / 64) as usize).ok_or("too few words")?;
        if word >> (place % 64) & 1 == 1 {
            if depth > 0 {
                levels.push(depth - 1);
            }
            depth += 1;
        } else {
            depth = depth.checked_sub(1).ok_or("not balanced")?;
        }
    }
    Ok(levels)
}

fn asked(n: u64, levels: Vec<u64>, labels: Vec<u64>) -> Result<Vec<String>, Bad> {
    if levels.len() as u64 != n || labels.len() as u64 != n {
        return Err(format!("{n} levels and labels wanted"));
    }
    if levels.iter().chain(&labels).any(|&v| v > u32::MAX as u64) {
        return Err("a level or label past u32".to_string());
    }
    Ok(match build(&levels, &labels) {
        Some(tree) => described(&tree),
        None => vec!["!".to_string(); FIELDS],
    })
}

fn described(tree: &Tree) -> Vec<String> {
    let opens: Vec<u64> = opens(tree);
    let ids: Vec<u64> = (0..opens.len() as u64).collect();
    let node = |id: u64| tree.node(opens[id as usize] as u32, id as u32);
    let levels = tree.levels();
    let (walked_levels, walked_labels) = walk(tree);
    let mut fields = vec![
        bits(tree.string().iter()),
        ask(|| tree.external_byte_size()),
        levels.len().to_string(),
        each(&opens, |p| tree.close(p)),
        each(&ids, |id| node(id).first_child().map(edge)),
        each(&ids, |id| node(id).next_sibling().map(edge)),
        walked_levels,
        walked_labels,
    ];
    for level in levels {
        fields.push(bits(level.string.iter()));
        fields.push(list(level.flags.one_indices()));
        fields.extend(content(level.dictionary));
    }
    fields
}

fn opens(tree: &Tree) -> Vec<u64> {
    let string = tree.string();
    (0..string.len())
        .filter(|&i| string.get(i) == Some(true))
        .collect()
}

/// Place, id and label.
fn edge<N: Node<u32> + Place>(e: Edge<u32, N>) -> (u64, u64, u64) {
    (e.node.place() as u64, e.node.id() as u64, e.label as u64)
}

/// Levels and labels from the root: the first child, else the next sibling of the nearest node on the way back that has
/// one. A panic ends it.
fn walk(tree: &Tree) -> (String, String) {
    let mut levels = Vec::new();
    let mut labels = Vec::new();
    let mut way = vec![tree.root()];
    loop {
        match catch_unwind(AssertUnwindSafe(|| step(&mut way))) {
            Ok(Some(label)) => {
                levels.push((way.len() as u64 - 2).to_string());
                labels.push(label.to_string());
            }
            Ok(None) => break,
            Err(_) => {
                levels.push("!".to_string());
                labels.push("!".to_string());
                break;
            }
        }
    }
    (levels.join(" "), labels.join(" "))
}

fn step<N: Node<u32>>(way: &mut Vec<N>) -> Option<u32> {
    if let Some(child) = way.last()?.first_child() {
        way.push(child.node);
        return Some(child.label);
    }
    while let Some(last) = way.pop() {
        if let Some(sibling) = last.next_sibling() {
            way.push(sibling.node);
            return Some(sibling.label);
        }
    }
    None
}

/// Fields: levels, places. `Parens::get_close` at each place, whatever it holds.
pub fn closes(fields: &[&str]) -> Result<Vec<String>, Bad> {
    let [levels, places] = fields else {
        return Err("levels and places wanted".to_string());
    };
    let (levels, places) = (numbers(levels)?, numbers(places)?);
    Ok(vec![match build(&levels, &levels) {
        Some(tree) => each(&places, |p| tree.close(p)),
        None => vec!["!"; places.len()].join(" "),
    }])
}
