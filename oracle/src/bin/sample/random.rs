//! A fixed-seed generator (xorshift, 64 bits: 13, 7, 17) and lists as text.

/// The seed of every file.
pub const SEED: u64 = 88_172_645_463_325_252;

pub struct Random(u64);

impl Random {
    pub fn new() -> Self {
        Random(SEED)
    }
    pub fn word(&mut self) -> u64 {
        self.0 ^= self.0 << 13;
        self.0 ^= self.0 >> 7;
        self.0 ^= self.0 << 17;
        self.0
    }
    /// A number below `end`, which is above 0. The low bits of a xorshift are its weaker ones.
    pub fn below(&mut self, end: u64) -> u64 {
        (self.word() >> 11) % end
    }
    /// True `of` times in 100.
    pub fn percent(&mut self, of: u64) -> bool {
        self.below(100) < of
    }
}

/// A list in the shortest of the forms that cases have: `a`, `a:b`, `a*k`.
pub fn list(numbers: &[u64]) -> String {
    let mut tokens = Vec::new();
    let mut at = 0;
    while at < numbers.len() {
        let rest = &numbers[at..];
        let same = run(rest, |a, b| a == b);
        let up = run(rest, |a, b| a.checked_add(1) == Some(b));
        let down = run(rest, |a, b| b.checked_add(1) == Some(a));
        let (first, longest) = (rest[0], same.max(up).max(down));
        if longest < 3 {
            tokens.push(first.to_string());
            at += 1;
            continue;
        }
        tokens.push(if same == longest {
            format!("{first}*{same}")
        } else {
            format!("{first}:{}", rest[longest - 1])
        });
        at += longest;
    }
    tokens.join(" ")
}

/// How many numbers from the first on follow each other by the rule.
fn run(numbers: &[u64], follows: impl Fn(u64, u64) -> bool) -> usize {
    1 + numbers
        .windows(2)
        .take_while(|w| follows(w[0], w[1]))
        .count()
}
