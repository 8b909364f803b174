//! A bit string with edits and questions, `bitwise/string.rs`.

use crate::bitwise::ops::{
    ExternalByteSize, PredOne, PredZero, RankBit, SelectOne, SelectZero, SuccOne, SuccZero,
};
use crate::bitwise::BitString;
use crate::text::{ask, bit, bits_of, each, list, number, numbers, Bad};

/// Fields: text, edits, arguments.
pub fn answers(fields: &[&str]) -> Result<Vec<String>, Bad> {
    let [text, edits, arguments] = fields else {
        return Err("text, edits and arguments wanted".to_string());
    };
    let mut string: BitString = bits_of(text)?.into_iter().collect();
    let outcomes = edit_all(&mut string, edits)?;
    let s = &string;
    let at = numbers(arguments)?;
    Ok(vec![
        outcomes,
        s.len().to_string(),
        list(s.as_fixnums().iter().map(|w| w.to_inner())),
        ask(|| s.external_byte_size()),
        each(&at, |i| s.get(i)),
        each(&at, |i| s.rank_one(i)),
        each(&at, |i| s.rank_zero(i)),
        each(&at, |r| s.select_one(r)),
        each(&at, |r| s.select_zero(r)),
        each(&at, |i| s.pred_one(i)),
        each(&at, |i| s.pred_zero(i)),
        each(&at, |i| s.succ_one(i)),
        each(&at, |i| s.succ_zero(i)),
        ask(|| list(s.one_indices())),
    ])
}

fn edit_all(string: &mut BitString, edits: &str) -> Result<String, Bad> {
    let mut outcomes = Vec::new();
    for token in edits.split(' ').filter(|t| !t.is_empty()) {
        outcomes.push(edit(string, token)?);
    }
    Ok(outcomes.join(" "))
}

/// `pB` pushes the bit B, `sI:B` sets bit I to B, `rN` resizes to N.
fn edit(string: &mut BitString, token: &str) -> Result<String, Bad> {
    let wrong = || format!("no edit: {token:?}");
    let (name, rest) = token.split_at_checked(1).ok_or_else(wrong)?;
    match name {
        "p" => {
            let b = bit(rest)?;
            Ok(ask(|| string.push(b)))
        }
        "s" => {
            let (index, b) = rest.split_once(':').ok_or_else(wrong)?;
            let (index, b) = (number(index)?, bit(b)?);
            Ok(ask(|| string.set(index, b)))
        }
        "r" => {
            let size = number(rest)?;
            Ok(ask(|| string.resize(size)))
        }
        _ => Err(wrong()),
    }
}
