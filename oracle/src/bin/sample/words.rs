//! Words of 8 and 64 bits.

use crate::lists::{packed, string, walk};
use crate::random::Random;
use crate::Cases;

pub fn eight() -> Cases {
    (0..=255).map(|value| format!("all8\t{value}")).collect()
}

pub fn sixty_four() -> Cases {
    let mut words = patterns();
    let mut random = Random::new();
    for _ in 0..60 {
        words.push(random.word());
    }
    for _ in 0..35 {
        words.push(random.word() & random.word() & random.word());
        words.push(random.word() | random.word() | random.word());
    }
    for _ in 0..40 {
        // a balanced word, and one that a balanced string passes through
        words.push(packed(&string(&walk(&mut random, 31, 50)))[0]);
        words.push(packed(&string(&walk(&mut random, 200, 50)))[2]);
    }
    words
        .iter()
        .map(|value| format!("all64\t{value}"))
        .collect()
}

/// Zero, all ones, single bits, all but one, the low and the high ones, alternating groups.
fn patterns() -> Vec<u64> {
    let mut words = vec![0, u64::MAX];
    words.extend((0..64).map(|k| 1 << k));
    words.extend((0..64).step_by(3).map(|k| !(1u64 << k)));
    words.extend((2..64).map(|k| (1u64 << k) - 1));
    words.extend((1..63).step_by(2).map(|k| !((1u64 << k) - 1)));
    for k in [1, 2, 4, 8, 16, 32] {
        let group = u64::MAX / ((1u64 << k) + 1);
        words.extend([group, !group]);
    }
    words
}
