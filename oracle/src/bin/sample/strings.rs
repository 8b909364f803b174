//! Bit strings with edits.

use crate::random::Random;
use crate::Cases;

/// All places, and some past the end.
fn everywhere(length: u64) -> String {
    format!("0:{}", length + 3)
}

/// Places about the word boundaries that matter and about the end, and some others.
fn about(random: &mut Random, length: u64) -> String {
    let mut at: Vec<u64> = vec![0, 1, 2];
    for edge in [64, 128, length / 2, length - length % 64, length] {
        at.extend(edge.saturating_sub(2)..edge + 3);
    }
    at.extend((0..24).map(|_| random.below(length + 1)));
    at.sort();
    at.dedup();
    crate::random::list(&at)
}

fn text(random: &mut Random, length: u64, ones: u64) -> String {
    (0..length)
        .map(|_| if random.percent(ones) { '1' } else { '0' })
        .collect()
}

fn case(text: &str, edits: &[String], arguments: &str) -> String {
    format!("bits\t{text}\t{}\t{arguments}", edits.join(" "))
}

/// Short strings for the plain scan, which has no edits.
pub fn scanned() -> Cases {
    let mut random = Random::new();
    let mut found = Vec::new();
    let lengths = (0..=20).chain([31, 32, 33, 63, 64, 65, 66, 100, 127, 128, 129, 200]);
    for length in lengths {
        for ones in [0, 10, 50, 90, 100] {
            let text = text(&mut random, length, ones);
            found.push(format!("scan\t{text}\t{}", everywhere(length)));
        }
    }
    found
}

pub fn cases() -> Cases {
    let mut random = Random::new();
    let mut found = Vec::new();
    plain(&mut random, &mut found);
    long(&mut random, &mut found);
    pushed(&mut random, &mut found);
    grown(&mut random, &mut found);
    shrunk(&mut random, &mut found);
    edited(&mut random, &mut found);
    found
}

/// Every length to 67, lengths about 128 and 192, and some to 200, without edits.
fn plain(random: &mut Random, found: &mut Cases) {
    for length in 0..=67 {
        found.push(case(&text(random, length, 50), &[], &everywhere(length)));
    }
    for length in [
        1, 2, 62, 63, 64, 65, 66, 126, 127, 128, 129, 191, 192, 193, 200,
    ] {
        for ones in [0, 3, 97, 100] {
            found.push(case(&text(random, length, ones), &[], &everywhere(length)));
        }
    }
    for _ in 0..20 {
        let (length, ones) = (68 + random.below(133), random.below(101));
        found.push(case(&text(random, length, ones), &[], &everywhere(length)));
    }
}

/// Lengths about 4,096, with the ones many, few and none at all in the first words.
fn long(random: &mut Random, found: &mut Cases) {
    for length in [4094, 4095, 4096, 4097, 4098] {
        for ones in [50, 1, 99] {
            let at = about(random, length);
            found.push(case(&text(random, length, ones), &[], &at));
        }
        let late = "0".repeat(length as usize - 2) + "11";
        found.push(case(&late, &[], &about(random, length)));
    }
}

/// Strings made by push alone, from nothing and across a word's end.
fn pushed(random: &mut Random, found: &mut Cases) {
    for length in [0, 1, 60, 63, 64, 127, 128] {
        let start = text(random, length, 50);
        let edits: Vec<String> = (0..8).map(|_| push(random)).collect();
        found.push(case(&start, &edits, &everywhere(length + 8)));
    }
}

fn push(random: &mut Random) -> String {
    format!("p{}", random.below(2))
}

/// A longer string by resize, then set at its ends and a push. Not to a multiple of 64: see the strays.
fn grown(random: &mut Random, found: &mut Cases) {
    for (from, to) in [
        (0, 1),
        (0, 63),
        (1, 65),
        (63, 66),
        (64, 65),
        (60, 130),
        (100, 127),
        (64, 129),
        (128, 193),
    ] {
        let mut edits = vec![format!("r{to}"), format!("s{}:1", to - 1)];
        edits.push(format!("s{}:1", random.below(to)));
        edits.push(format!("s{}:0", random.below(to)));
        edits.push(push(random));
        found.push(case(&text(random, from, 50), &edits, &everywhere(to + 1)));
    }
}

/// A shorter string by resize, where the bits that go are zeros. Where they are not: see the strays.
fn shrunk(random: &mut Random, found: &mut Cases) {
    for (kept, gone) in [
        (1, 1),
        (3, 60),
        (63, 1),
        (63, 70),
        (65, 63),
        (130, 61),
        (5, 190),
    ] {
        let start = text(random, kept, 50) + &"0".repeat(gone as usize);
        let edits = vec![
            format!("r{kept}"),
            push(random),
            push(random),
            format!("s{}:1", kept + 7),
        ];
        found.push(case(&start, &edits, &everywhere(kept + 2)));
    }
}

/// Many sets, one in four of them past the end, and pushes between.
fn edited(random: &mut Random, found: &mut Cases) {
    for length in [0, 1, 5, 31, 62, 64, 65, 100, 127, 128, 150, 190] {
        let mut now = length;
        let mut edits = Vec::new();
        for _ in 0..24 {
            if random.percent(30) {
                edits.push(push(random));
                now += 1;
            } else {
                let place = random.below(now + now / 3 + 1);
                edits.push(format!("s{place}:{}", random.below(2)));
            }
        }
        found.push(case(&text(random, length, 40), &edits, &everywhere(now)));
    }
}
