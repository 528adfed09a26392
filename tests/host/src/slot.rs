//! A second reading of a one-slot queue's words, written from hosts/c/fernmoldew.h and docs/RULES.md, section 6, alone.

/// How a record's words are told in a line of replay's.
pub fn told(words: &[u64]) -> String {
    let (a, b) = (words[1], words[2]);
    let one = |name: &str| format!("{name}({a})");
    match words[0] {
        0..=10 => crate::told(words),
        11 => one("A1"),
        12 => one("A2"),
        13 => one("B2"),
        14 => one("B4"),
        15 => one("B5"),
        16 => one("C1"),
        17 => one("C3"),
        18 => format!("B1({a},{b})"),
        19 => "A3".into(),
        20 => "B3".into(),
        21 => "C2".into(),
        22 => "len1".into(),
        23 => "empty1".into(),
        24 => "full1".into(),
        25 => "close1".into(),
        26 => "isclosed1".into(),
        code => format!("code {code}"),
    }
}

/// Whether a code holds a first and a second word; what is not held is 0.
pub fn holds(code: u64) -> (bool, bool) {
    ((6..=18).contains(&code), code == 18)
}
