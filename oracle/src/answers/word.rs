//! Questions to one word, `bitwise/fixnum.rs`.

use crate::bitwise::fixnum::{Fixnum, FixnumLike};
use crate::bitwise::ops::{
    GetClose, PredOne, PredZero, RankBit, SelectOne, SelectZero, SuccOne, SuccZero,
};
use crate::text::{ask, bit, each, number, Bad};

fn set<T: FixnumLike>(word: Fixnum<T>, index: u64, bit: bool) -> u64 {
    let mut changed = word;
    changed.set(index, bit);
    changed.to_inner().to_u64()
}

fn word<T: FixnumLike>(value: &str) -> Result<Fixnum<T>, Bad> {
    let value = number(value)?;
    let inner = T::from_u64(value);
    if inner.to_u64() == value {
        Ok(Fixnum::new(inner))
    } else {
        Err(format!("{value} does not fit"))
    }
}

/// One question: value, operation, arguments.
pub fn one<T: FixnumLike>(fields: &[&str]) -> Result<Vec<String>, Bad> {
    let (w, name) = match fields {
        [value, name, ..] => (word::<T>(value)?, *name),
        _ => return Err("value and operation wanted".to_string()),
    };
    let answer = match (name, &fields[2..]) {
        ("pop_count", []) => ask(|| w.pop_count() as u64),
        ("set", [index, b]) => {
            let (index, b) = (number(index)?, bit(b)?);
            ask(|| set(w, index, b))
        }
        (_, [argument]) => at(w, name, number(argument)?)?,
        _ => return Err(format!("no such question: {name}")),
    };
    Ok(vec![answer])
}

fn at<T: FixnumLike>(w: Fixnum<T>, name: &str, a: u64) -> Result<String, Bad> {
    Ok(match name {
        "get" => ask(|| w.get(a)),
        "rank_one" => ask(|| w.rank_one(a)),
        "rank_zero" => ask(|| w.rank_zero(a)),
        "select_one" => ask(|| w.select_one(a)),
        "select_zero" => ask(|| w.select_zero(a)),
        "pred_one" => ask(|| w.pred_one(a)),
        "pred_zero" => ask(|| w.pred_zero(a)),
        "succ_one" => ask(|| w.succ_one(a)),
        "succ_zero" => ask(|| w.succ_zero(a)),
        "get_close" => ask(|| w.get_close(a)),
        _ => return Err(format!("no such question: {name}")),
    })
}

/// Every question at every index up to the width and every rank up to one more.
pub fn all<T: FixnumLike>(fields: &[&str]) -> Result<Vec<String>, Bad> {
    let w = match fields {
        [value] => word::<T>(value)?,
        _ => return Err("one value wanted".to_string()),
    };
    let width = Fixnum::<T>::bitwidth() as u64;
    let indices: Vec<u64> = (0..=width).collect();
    let ranks: Vec<u64> = (0..=width + 1).collect();
    let eighths: Vec<u64> = (0..=8).map(|k| k * (width / 8)).collect();
    Ok(vec![
        ask(|| w.pop_count() as u64),
        each(&indices, |i| w.get(i)),
        each(&eighths, |i| set(w, i, false)),
        each(&eighths, |i| set(w, i, true)),
        each(&indices, |i| w.rank_one(i)),
        each(&indices, |i| w.rank_zero(i)),
        each(&ranks, |r| w.select_one(r)),
        each(&ranks, |r| w.select_zero(r)),
        each(&indices, |i| w.pred_one(i)),
        each(&indices, |i| w.pred_zero(i)),
        each(&indices, |i| w.succ_one(i)),
        each(&indices, |i| w.succ_zero(i)),
        each(&indices, |i| w.get_close(i)),
    ])
}
