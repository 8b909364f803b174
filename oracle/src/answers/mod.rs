//! The kinds of case, and who answers each.

mod dictionary;
mod scan;
mod string;
mod tree;
mod word;

use crate::text::{short, Bad};

/// The answer line of a case: the case itself, then its answers.
pub fn line(case: &str, full: bool) -> Result<String, Bad> {
    let fields: Vec<&str> = case.split('\t').collect();
    let rest = &fields[1..];
    let answers = match fields[0] {
        "word8" => word::one::<u8>(rest),
        "word64" => word::one::<u64>(rest),
        "all8" => word::all::<u8>(rest),
        "all64" => word::all::<u64>(rest),
        "scan" => scan::answers(rest),
        "bits" => string::answers(rest),
        "dict" => dictionary::answers(rest),
        "tree" => tree::by_levels(rest),
        "treew" => tree::by_words(rest),
        "close" => tree::closes(rest),
        kind => Err(format!("no such kind: {kind:?}")),
    }?;
    let mut out = case.to_string();
    for answer in answers {
        out.push('\t');
        out.push_str(&short(answer, full));
    }
    Ok(out)
}
