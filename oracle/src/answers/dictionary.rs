//! A dictionary built directly, `bitwise/sparse_one_nnd.rs`.

use std::panic::{catch_unwind, AssertUnwindSafe};

use crate::bitwise::ops::{ExternalByteSize, PredOne, RankBit, SelectOne, SuccOne};
use crate::bitwise::{BitString, SparseOneNnd};
use crate::peek::Content;
use crate::text::{ask, each, list, number, numbers, Bad};

/// Fields: length, places of the ones, arguments.
pub fn answers(fields: &[&str]) -> Result<Vec<String>, Bad> {
    let [length, places, arguments] = fields else {
        return Err("length, places and arguments wanted".to_string());
    };
    let length = number(length)?;
    let mut string = BitString::new();
    string.resize(length);
    for place in numbers(places)? {
        if place >= length {
            return Err(format!("place {place} is past the length"));
        }
        string.set(place, true);
    }
    let at = numbers(arguments)?;
    let built = catch_unwind(AssertUnwindSafe(|| SparseOneNnd::from(string)));
    Ok(match built {
        Ok(dictionary) => asked(&dictionary, &at),
        Err(_) => unbuilt(at.len()),
    })
}

/// Bytes, middle entries and large entries.
pub fn content(dictionary: &SparseOneNnd) -> Vec<String> {
    vec![
        list(dictionary.bytes().iter().map(|&b| b as u64)),
        list(dictionary.middles()),
        list(dictionary.larges()),
    ]
}

fn asked(d: &SparseOneNnd, at: &[u64]) -> Vec<String> {
    let mut fields = content(d);
    fields.extend([
        ask(|| d.external_byte_size()),
        each(at, |i| d.rank_one(i)),
        each(at, |r| d.select_one(r)),
        each(at, |i| d.pred_one(i)),
        each(at, |i| d.succ_one(i)),
    ]);
    fields
}

/// The build panicked: so does all that was to be asked.
fn unbuilt(arguments: usize) -> Vec<String> {
    let mut fields = vec!["!".to_string(); 4];
    fields.extend(vec![vec!["!"; arguments].join(" "); 4]);
    fields
}
