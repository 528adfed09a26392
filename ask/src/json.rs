//! JSON, written.

/// A text as JSON has it.
pub fn text(said: &str) -> String {
    let mut out = String::from("\"");
    for c in said.chars() {
        match c {
            '"' => out.push_str("\\\""),
            '\\' => out.push_str("\\\\"),
            '\n' => out.push_str("\\n"),
            c if c < ' ' => out.push_str(&format!("\\u{:04x}", c as u32)),
            c => out.push(c),
        }
    }
    out.push('"');
    out
}

/// A list of what is JSON already.
pub fn list<T: AsRef<str>>(parts: impl IntoIterator<Item = T>) -> String {
    let mut out = String::from("[");
    for (at, part) in parts.into_iter().enumerate() {
        if at > 0 {
            out.push_str(", ");
        }
        out.push_str(part.as_ref());
    }
    out.push(']');
    out
}
