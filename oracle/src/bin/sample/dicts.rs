//! Dictionaries built directly.

use crate::random::{list, Random};
use crate::Cases;

/// A dictionary of the places, asked about the layout's edges and the ends, and at some of its places and ranks.
fn case(random: &mut Random, length: u64, places: &[u64]) -> String {
    let mut at: Vec<u64> = vec![
        0,
        1,
        2,
        length.saturating_sub(1),
        length,
        length + 1,
        length + 256,
    ];
    let count = places.len() as u64;
    at.extend(count.saturating_sub(1)..count + 3);
    for edge in [
        255, 256, 512, 2_047, 2_048, 4_096, 65_535, 65_536, 67_584, 131_072,
    ] {
        at.extend((edge - 1..edge + 2).filter(|&a| a <= length + 1));
    }
    let near: Vec<u64> = match places.len() {
        0 => Vec::new(),
        1..=12 => places.to_vec(),
        _ => (0..12)
            .map(|_| places[random.below(count) as usize])
            .collect(),
    };
    at.extend(near.iter().flat_map(|&p| p.saturating_sub(1)..p + 2));
    at.extend((0..20).map(|_| random.below(length + 1)));
    at.extend((0..12).map(|_| random.below(count + 1)));
    if let Some(&last) = places.last() {
        let end = last - last % 256 + 256;
        at.extend(end - 2..end + 2);
    }
    at.sort();
    at.dedup();
    format!("dict\t{length}\t{}\t{}", list(places), list(&at))
}

pub fn cases() -> Cases {
    let mut random = Random::new();
    let mut found = Vec::new();
    for length in [0, 1, 255, 256, 257, 2_048, 65_537] {
        found.push(case(&mut random, length, &[]));
    }
    edges(&mut random, &mut found);
    dense(&mut random, &mut found);
    sparse(&mut random, &mut found);
    full(&mut random, &mut found);
    found
}

/// Sets of one to four places about each edge.
fn edges(random: &mut Random, found: &mut Cases) {
    let single = [
        0, 1, 254, 255, 256, 257, 511, 512, 2_046, 2_047, 2_048, 2_049, 65_534, 65_535, 65_536,
        65_537, 131_071, 131_072,
    ];
    for place in single {
        found.push(case(random, place + 1, &[place]));
    }
    let some: [&[u64]; 12] = [
        &[0, 255],
        &[0, 256],
        &[255, 256],
        &[255, 511, 512],
        &[2_047, 2_048],
        &[0, 2_047, 2_048, 4_095],
        &[2_048, 4_096],
        &[65_535, 65_536],
        &[0, 65_535, 65_536, 131_071],
        &[65_536, 131_072],
        &[5, 131_075],
        &[7, 196_609, 262_143],
    ];
    for places in some {
        let last = places[places.len() - 1];
        found.push(case(random, last + 1, places));
        found.push(case(random, last + 300, places));
    }
}

/// Up to 255 ones in a block.
fn dense(random: &mut Random, found: &mut Cases) {
    found.push(case(random, 255, &(0..255).collect::<Vec<_>>()));
    found.push(case(random, 256, &(1..256).collect::<Vec<_>>()));
    found.push(case(random, 512, &(256..511).collect::<Vec<_>>()));
    found.push(case(
        random,
        511,
        &(1..511).filter(|p| p % 256 != 0).collect::<Vec<_>>(),
    ));
    // a middle of eight blocks of 255, and 65,536 places and more of them: the largest u16 entries
    for length in [2_048, 2_305, 70_000] {
        found.push(case(
            random,
            length,
            &(0..length).filter(|p| p % 256 != 37).collect::<Vec<_>>(),
        ));
    }
    for percent in [50, 90] {
        let places: Vec<u64> = (0..2_600)
            .filter(|p| p % 256 != 0 && random.percent(percent))
            .collect();
        found.push(case(random, 2_600, &places));
    }
}

/// Few ones over many blocks, and bursts of ones far from each other.
fn sparse(random: &mut Random, found: &mut Cases) {
    for (length, ones) in [
        (300, 4),
        (700, 9),
        (2_100, 12),
        (5_000, 40),
        (9_000, 5),
        (66_000, 30),
        (70_000, 200),
        (140_000, 60),
        (200_000, 12),
    ] {
        for _ in 0..3 {
            let mut places: Vec<u64> = (0..ones).map(|_| random.below(length)).collect();
            places.sort();
            places.dedup();
            found.push(case(random, length, &places));
        }
    }
    for length in [3_000, 68_000, 150_000] {
        let mut places: Vec<u64> = Vec::new();
        for _ in 0..6 {
            let start = random.below(length - 200);
            places.extend((start..start + 150).filter(|_| random.percent(70)));
        }
        places.sort();
        places.dedup();
        found.push(case(random, length, &places));
    }
}

/// 256 ones in an aligned block.
fn full(random: &mut Random, found: &mut Cases) {
    found.push(case(random, 256, &(0..256).collect::<Vec<_>>()));
    found.push(case(random, 600, &(200..560).collect::<Vec<_>>()));
    found.push(case(random, 2_304, &(2_048..2_304).collect::<Vec<_>>()));
}
