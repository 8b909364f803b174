//! The text of cases and answers: numbers, lists, marks and digests.

use std::panic::{catch_unwind, AssertUnwindSafe};

/// Why a line is no case.
pub type Bad = String;

/// A field of more bytes than this is written as its length and digest.
const LONG: usize = 2_000;

const MODULUS: u64 = 4_294_967_291;
const FACTOR: u64 = 1_000_003;

/// Answers are made of these: a value, `-` for nothing, `.` for done.
pub trait Show {
    fn show(&self) -> String;
}
impl Show for u64 {
    fn show(&self) -> String {
        self.to_string()
    }
}
impl Show for bool {
    fn show(&self) -> String {
        if *self { "1" } else { "0" }.to_string()
    }
}
impl Show for () {
    fn show(&self) -> String {
        ".".to_string()
    }
}
impl Show for (u64, u64) {
    fn show(&self) -> String {
        format!("{}:{}", self.0, self.1)
    }
}
impl Show for (u64, u64, u64) {
    fn show(&self) -> String {
        format!("{}:{}:{}", self.0, self.1, self.2)
    }
}
impl<T: Show> Show for Option<T> {
    fn show(&self) -> String {
        self.as_ref().map_or("-".to_string(), Show::show)
    }
}
impl Show for String {
    fn show(&self) -> String {
        self.clone()
    }
}

/// The answer to one question; a panic is the answer `!`.
pub fn ask<T: Show>(question: impl FnOnce() -> T) -> String {
    catch_unwind(AssertUnwindSafe(question)).map_or("!".to_string(), |v| v.show())
}

/// One question put to each argument: a list of answers.
pub fn each<T: Show>(arguments: &[u64], question: impl Fn(u64) -> T) -> String {
    let answers: Vec<String> = arguments.iter().map(|&a| ask(|| question(a))).collect();
    answers.join(" ")
}

/// A list as text.
pub fn list<T: Show>(items: impl IntoIterator<Item = T>) -> String {
    let shown: Vec<String> = items.into_iter().map(|v| v.show()).collect();
    shown.join(" ")
}

/// Bits as text, the first one first.
pub fn bits(items: impl Iterator<Item = bool>) -> String {
    items.map(|b| if b { '1' } else { '0' }).collect()
}

/// A field as it is written: itself, or `#`, its length, `:` and its digest.
pub fn short(field: String, full: bool) -> String {
    if full || field.len() <= LONG {
        return field;
    }
    let digest = field
        .bytes()
        .fold(1, |h, b| (h * FACTOR + b as u64) % MODULUS);
    format!("#{}:{digest}", field.len())
}

pub fn number(text: &str) -> Result<u64, Bad> {
    text.parse().map_err(|_| format!("no number: {text:?}"))
}

/// A list of numbers: `a`, `a:b` for each from a to b, up or down, `a*k` for k times a.
pub fn numbers(field: &str) -> Result<Vec<u64>, Bad> {
    let mut found = Vec::new();
    for token in field.split(' ').filter(|t| !t.is_empty()) {
        if let Some((from, to)) = token.split_once(':') {
            let (from, to) = (number(from)?, number(to)?);
            if from <= to {
                found.extend(from..=to);
            } else {
                found.extend((to..=from).rev());
            }
        } else if let Some((value, times)) = token.split_once('*') {
            let (value, times) = (number(value)?, number(times)?);
            found.extend((0..times).map(|_| value));
        } else {
            found.push(number(token)?);
        }
    }
    Ok(found)
}

/// The bits of a text of 0 and 1.
pub fn bits_of(text: &str) -> Result<Vec<bool>, Bad> {
    text.split("").filter(|b| !b.is_empty()).map(bit).collect()
}

pub fn bit(text: &str) -> Result<bool, Bad> {
    match text {
        "0" => Ok(false),
        "1" => Ok(true),
        _ => Err(format!("no bit: {text:?}")),
    }
}
