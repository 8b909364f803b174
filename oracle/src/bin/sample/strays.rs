//! Small cases in which the original does not answer as document 01 has it: the rows of docs/DIFFERENCES.md.

use crate::lists::pyramid;
use crate::random::list;
use crate::Cases;

// A bar stands for a tab.
const SHORT: [&str; 19] = [
    "scan|0101|3 4 9",
    "scan|0|18446744073709551615",
    "bits|0101||3 4 9",
    "bits|0||18446744073709551615",
    "bits|1|s1:0|0 1",
    "bits||r0|0",
    "bits||r64|63 64",
    "bits|1|r0|0 1",
    "bits|1|r0 p0|0 1",
    "bits|11|r1|0 1 2",
    "bits|11|r1 r2|0 1 2",
    "dict|0||0 1",
    "dict|1|0|255 256",
    "dict|256|0:255|0 1 2 255",
    "tree|1|1|7",
    "tree|2|0 2|7 8",
    "tree|1|60|7",
    "tree|1|61|7",
    "close|0 0 1|2 7 8 64",
];

pub fn cases() -> Cases {
    let mut found = Vec::new();
    for (width, value) in [(8, 1), (64, 1)] {
        found.extend(past_the_width(width, value));
    }
    found.push("word8\t6\tget_close\t0".to_string());
    found.extend(SHORT.iter().map(|case| case.replace('|', "\t")));
    found.push(format!("close\t{}\t574 575 830 831", list(&pyramid(254))));
    found
}

/// Each operation at the index that is the width.
fn past_the_width(width: u64, value: u64) -> Cases {
    let asked = [
        "get",
        "rank_one",
        "rank_zero",
        "pred_one",
        "pred_zero",
        "succ_one",
        "succ_zero",
        "get_close",
    ];
    let mut found: Cases = asked
        .iter()
        .map(|name| format!("word{width}\t{value}\t{name}\t{width}"))
        .collect();
    for bit in [0, 1] {
        found.push(format!("word{width}\t{value}\tset\t{width}\t{bit}"));
    }
    found
}
