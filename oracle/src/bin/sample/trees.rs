//! Trees: accepted lists, and one that is FULL.

use crate::lists::*;
use crate::random::{list, Random};
use crate::Cases;

/// A list of more nodes than this is given by the words of its string.
const MANY: usize = 1_500;

fn case(levels: &[u64], labels: &str) -> String {
    let n = levels.len();
    if n > MANY {
        format!("treew\t{n}\t{}\t{labels}", list(&packed(&string(levels))))
    } else {
        format!("tree\t{n}\t{}\t{labels}", list(levels))
    }
}

/// With labels in a row.
fn counted(levels: &[u64]) -> String {
    let labels: Vec<u64> = (101..).take(levels.len()).collect();
    case(levels, &list(&labels))
}

/// With labels of all sizes, some of them equal.
fn labelled(random: &mut Random, levels: &[u64]) -> String {
    let labels: Vec<u64> = levels.iter().map(|_| label(random)).collect();
    case(levels, &list(&labels))
}

fn label(random: &mut Random) -> u64 {
    match random.below(20) {
        0 => 0,
        1 => u32::MAX as u64,
        2 => random.below(1 << 32),
        _ => random.below(100),
    }
}

fn shapes(n: u64) -> [Vec<u64>; 5] {
    [wide(n), deep(n), comb(n), rake(n), teeth(n)]
}

pub fn cases() -> Cases {
    let mut random = Random::new();
    let mut found = Vec::new();
    small(&mut found);
    word_edges(&mut random, &mut found);
    dictionary_edges(&mut random, &mut found);
    random_lists(&mut random, &mut found);
    levels_of_pioneers(&mut random, &mut found);
    for top in [0, 1, 30, 31, 32, 100, 253, 254] {
        found.push(counted(&pyramid(top)));
    }
    found
}

/// 01's list, and every accepted list of up to six nodes.
fn small(found: &mut Cases) {
    found.push(case(&[0, 1, 1, 0], "10 20 30 40"));
    for n in 0..=6 {
        found.extend(every(n).iter().map(|levels| counted(levels)));
    }
}

/// Strings about 64, 128, 192 and 256 bits.
fn word_edges(random: &mut Random, found: &mut Cases) {
    for n in [
        30, 31, 32, 33, 34, 62, 63, 64, 65, 94, 95, 96, 97, 126, 127, 128,
    ] {
        found.extend(shapes(n).iter().map(|levels| counted(levels)));
        for up in [35, 50, 65] {
            let levels = walk(random, n, up);
            found.push(labelled(random, &levels));
        }
        let levels = jumps(random, n);
        found.push(labelled(random, &levels));
    }
}

/// Strings about 2,048 and 65,536 places.
fn dictionary_edges(random: &mut Random, found: &mut Cases) {
    for n in [1_022, 1_023, 1_024, 1_025] {
        found.extend(shapes(n).iter().map(|levels| counted(levels)));
        found.push(counted(&walk(random, n, 50)));
    }
    for n in [32_766, 32_767, 32_768] {
        found.extend(shapes(n).iter().map(|levels| counted(levels)));
        found.push(counted(&walk(random, n, 50)));
    }
}

fn random_lists(random: &mut Random, found: &mut Cases) {
    for _ in 0..120 {
        let (n, up) = (1 + random.below(150), 20 + random.below(60));
        let levels = walk(random, n, up);
        found.push(labelled(random, &levels));
    }
    for _ in 0..40 {
        let n = 30 + random.below(400);
        let levels = jumps(random, n);
        found.push(labelled(random, &levels));
    }
    for _ in 0..24 {
        let (n, up) = (1_500 + random.below(7_000), 40 + random.below(20));
        found.push(counted(&walk(random, n, up)));
    }
}

/// Two and three pioneer levels in few nodes.
fn levels_of_pioneers(random: &mut Random, found: &mut Cases) {
    for _ in 0..12 {
        found.push(counted(&many_flags(random, 2)));
    }
    for _ in 0..6 {
        found.push(counted(&many_flags(random, 3)));
    }
}

/// More than 40,000 nodes: four pioneer levels, and the most nodes there can be.
pub fn large() -> Cases {
    let mut random = Random::new();
    vec![
        counted(&many_flags(&mut random, 4)),
        counted(&walk(&mut random, 60_000, 50)),
        counted(&wide(1_048_575)),
        counted(&deep(1_048_575)),
    ]
}
