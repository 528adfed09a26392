//! A second reading of an unbounded queue's words, written from hosts/c/fernmoldew.h and docs/RULES.md, section 7, alone.

/// Code 11 on: a place's name, and what its words are: a block b, a number n.
const PLACES: [(&str, &str); 38] = [
    ("U1", "bn"),
    ("U2", "bnn"),
    ("U3", "nbn"),
    ("U4", "bnn"),
    ("U5", "bnbn"),
    ("U6", "bnbn"),
    ("U7", "bnbn"),
    ("U8", "bnn"),
    ("U9", "bnbn"),
    ("U10", "bnbn"),
    ("U11", "bnbn"),
    ("U12", "bnbn"),
    ("U13", "bnb"),
    ("U14", "b"),
    ("U15", "bbn"),
    ("V1", ""),
    ("V2", "n"),
    ("V3", "nb"),
    ("V4", "nbn"),
    ("V5", "n"),
    ("V6", "nbn"),
    ("V7", "nbnb"),
    ("V8", "nbbn"),
    ("V9", "nbn"),
    ("V10", "nb"),
    ("V11", "nb"),
    ("V12", "nbn"),
    ("V13", "bnn"),
    ("V14", "bnn"),
    ("V15", "bn"),
    ("len1", ""),
    ("len2", "n"),
    ("len3", "nn"),
    ("empty1", ""),
    ("empty2", "n"),
    ("full1", ""),
    ("close1", ""),
    ("isclosed1", ""),
];

const U14: u64 = 24;

fn place(code: u64) -> Option<&'static (&'static str, &'static str)> {
    code.checked_sub(11).and_then(|n| PLACES.get(n as usize))
}

/// A block's number; - for none.
pub fn block(number: u64) -> String {
    if number == 64 { "-".into() } else { number.to_string() }
}

/// How a record's words are told in a line of replay's.
pub fn told(words: &[u64]) -> String {
    let Some((name, kinds)) = place(words[0]) else { return crate::told(words) };
    let mut held: Vec<String> = kinds.chars().zip(&words[1..]).map(|(kind, &word)| if kind == 'b' { block(word) } else { word.to_string() }).collect();
    if words[0] == U14 {
        held.push(crate::told(&[words[2], words[3], 0]).replace("idle:", ""));
    }
    if held.is_empty() { (*name).into() } else { format!("{name}({})", held.join(",")) }
}

fn answers(code: u64) -> bool {
    code <= 10 && code != 6 && code != 8
}

/// How many words a record's code holds; none where there is no such code. What is not held is 0.
pub fn holds(words: &[u64]) -> Option<usize> {
    let valued = |code: u64| usize::from(code >= 7);
    match words[0] {
        code if answers(code) => Some(valued(code)),
        U14 if answers(words[2]) => Some(2 + valued(words[2])),
        U14 => None,
        code => place(code).map(|(_, kinds)| kinds.len()),
    }
}
