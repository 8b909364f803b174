//! Level lists by shape, and their parenthesis strings.

use crate::random::Random;

/// The parenthesis string of a level list.
pub fn string(levels: &[u64]) -> Vec<bool> {
    let mut bits = vec![true];
    let mut open = 0;
    for &level in levels {
        while open > level {
            bits.push(false);
            open -= 1;
        }
        bits.push(true);
        open = level + 1;
    }
    bits.extend((0..=open).map(|_| false));
    bits
}

/// The level list of a balanced string under one root.
pub fn levels(bits: &[bool]) -> Vec<u64> {
    let mut found = Vec::new();
    let mut depth = 0;
    for &open in bits {
        if open {
            found.push(depth);
            depth += 1;
        } else {
            depth -= 1;
        }
    }
    found.iter().skip(1).map(|depth| depth - 1).collect()
}

/// Bits in words of 64, the lowest bit first.
pub fn packed(bits: &[bool]) -> Vec<u64> {
    bits.chunks(64)
        .map(|block| block.iter().rev().fold(0, |w, &b| w << 1 | b as u64))
        .collect()
}

pub fn wide(n: u64) -> Vec<u64> {
    vec![0; n as usize]
}

pub fn deep(n: u64) -> Vec<u64> {
    (0..n).collect()
}

/// A way down on which each node has a leaf before the next one.
pub fn comb(n: u64) -> Vec<u64> {
    (0..n).map(|k| k.div_ceil(2)).collect()
}

/// A way down with a leaf after each node's subtree: all the way down, then a leaf at each level on the way up.
pub fn rake(n: u64) -> Vec<u64> {
    let down = n.div_ceil(2);
    (0..down).chain((1..=n - down).map(|k| down - k)).collect()
}

/// Nodes and leaves in turn under the root.
pub fn teeth(n: u64) -> Vec<u64> {
    (0..n).map(|k| k % 2).collect()
}

/// One level deeper `up` times in 100, else back to a level not far above.
pub fn walk(random: &mut Random, n: u64, up: u64) -> Vec<u64> {
    let mut found: Vec<u64> = Vec::new();
    for _ in 0..n {
        let next = match found.last() {
            None => 0,
            Some(&last) if random.percent(up) => last + 1,
            Some(&last) => {
                let back = 1 + random.below(3).min(random.below(8));
                (last + 1).saturating_sub(back)
            }
        };
        found.push(next);
    }
    found
}

/// Any accepted level at each node.
pub fn jumps(random: &mut Random, n: u64) -> Vec<u64> {
    let mut found: Vec<u64> = Vec::new();
    for _ in 0..n {
        let next = found.last().map_or(0, |&last| random.below(last + 2));
        found.push(next);
    }
    found
}

/// All accepted lists of n nodes.
pub fn every(n: u64) -> Vec<Vec<u64>> {
    if n == 0 {
        return vec![Vec::new()];
    }
    let mut found = Vec::new();
    for shorter in every(n - 1) {
        for level in 0..=shorter.last().map_or(0, |last| last + 1) {
            let mut longer = shorter.clone();
            longer.push(level);
            found.push(longer);
        }
    }
    found
}

/// 01's list that fills a block with flags from `top` = 254: levels 0 to top, then 32 nodes of each down to 0.
pub fn pyramid(top: u64) -> Vec<u64> {
    let down = (0..=top).rev().flat_map(|level| vec![level; 32]);
    (0..=top).chain(down).collect()
}

/// A list with the given number of pioneer levels in about as few nodes as there can be.
///
/// In a binary tree (two children or none) whose string is cut wherever a close follows an open, no two pairs lie in the
/// same two pieces. So each string is a binary tree, and the one below it has a block for each piece.
pub fn many_flags(random: &mut Random, pioneers: u64) -> Vec<u64> {
    let mut bits = Vec::new();
    binary(random, 17, &mut bits);
    for _ in 1..pioneers {
        bits = below(random, &bits);
    }
    levels(&bits)
}

/// A binary tree with the given leaves, of 4 bits for each leaf less 2.
fn binary(random: &mut Random, leaves: u64, bits: &mut Vec<bool>) {
    bits.push(true);
    if leaves > 1 {
        let left = 1 + random.below(leaves - 1);
        binary(random, left, bits);
        binary(random, leaves - left, bits);
    }
    bits.push(false);
}

/// A string whose flagged bits are the string given, where that is a binary tree's.
fn below(random: &mut Random, above: &[bool]) -> Vec<bool> {
    let mut bits = Vec::new();
    for (at, &bit) in above.iter().enumerate() {
        bits.push(bit);
        if bit && !above[at + 1] {
            fill(random, &mut bits);
        }
    }
    bits
}

/// Fills the block inside a pair that has just been opened. Two trees keep the whole a binary tree; one or three stand
/// where two do not fit, and a last pair may close at the start of the next block.
fn fill(random: &mut Random, bits: &mut Vec<bool>) {
    let room = (64 - bits.len() as u64 % 64) % 64;
    let (odd, even) = (room % 2, room - room % 2);
    let trees = match (even, even % 4, odd) {
        (0, _, _) => 0,
        (_, 0, _) => 2,
        (2, _, _) | (_, _, 1) => 1,
        _ => 3,
    };
    let mut leaves = (even + 2 * trees) / 4;
    for left in (1..=trees).rev() {
        let one = if left == 1 {
            leaves
        } else {
            1 + random.below(leaves - left + 1)
        };
        binary(random, one, bits);
        leaves -= one;
    }
    if odd == 1 {
        bits.extend([true, false]);
    }
}
