//! The plain scan, `LinearFid` of `bitwise/ops.rs`.

use crate::bitwise::ops::{
    LinearFid, PredOne, PredZero, RankBit, SelectOne, SelectZero, SuccOne, SuccZero,
};
use crate::text::{bits_of, each, numbers, Bad};

/// Fields: text, arguments.
pub fn answers(fields: &[&str]) -> Result<Vec<String>, Bad> {
    let [text, arguments] = fields else {
        return Err("text and arguments wanted".to_string());
    };
    let bits = bits_of(text)?;
    let s = LinearFid::new(bits.iter().copied());
    let at = numbers(arguments)?;
    Ok(vec![
        each(&at, |i| s.rank_one(i)),
        each(&at, |i| s.rank_zero(i)),
        each(&at, |r| s.select_one(r)),
        each(&at, |r| s.select_zero(r)),
        each(&at, |i| s.pred_one(i)),
        each(&at, |i| s.pred_zero(i)),
        each(&at, |i| s.succ_one(i)),
        each(&at, |i| s.succ_zero(i)),
    ])
}
