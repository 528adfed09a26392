//! Makes the copies of bounded.rs for edition 2 and for sixteen bits: the source with src/edition_2.patch, src/sixteen_bits.patch or both applied;
//! and, for the tests, one for each slip of src/slips.rs.

include!("src/slips.rs");

use std::path::Path;
use std::{env, fs};

const SOURCE: &str = "src/bounded.rs";
const EDITION_2: &str = "src/edition_2.patch";
const SIXTEEN_BITS: &str = "src/sixteen_bits.patch";
const SLIPS_FILE: &str = "src/slips.rs";

fn main() {
    for file in ["build.rs", SOURCE, EDITION_2, SIXTEEN_BITS, SLIPS_FILE] {
        println!("cargo::rerun-if-changed={file}");
    }
    let read = |file| fs::read_to_string(file).unwrap_or_else(|error| panic!("{file}: {error}"));
    let out = env::var_os("OUT_DIR").expect("cargo sets it");
    let copies: [(&str, &[&str]); 3] = [
        ("edition_2.rs", &[EDITION_2]),
        ("sixteen_bits.rs", &[SIXTEEN_BITS]),
        ("edition_2_sixteen_bits.rs", &[EDITION_2, SIXTEEN_BITS]),
    ];
    for (name, patches) in copies {
        let copy = patches.iter().fold(read(SOURCE), |source, patch| patched(&source, &read(patch)));
        fs::write(Path::new(&out).join(name), copy).expect("cargo's own place");
    }
    fs::write(Path::new(&out).join("slips.rs"), planted(&read(SOURCE))).expect("cargo's own place");
}

/// A module for each slip, with the source in which it is planted, and a list of their rings.
fn planted(source: &str) -> String {
    let mut modules = String::new();
    let mut rings = String::from("fn slipped(capacity: usize) -> Vec<(&'static str, Box<dyn Bounded>)> {\n    vec![\n");
    for (number, (name, old, new)) in SLIPS.iter().enumerate() {
        assert_eq!(source.matches(old).count(), 1, "{name}: {old}");
        let slipped = source.replace(old, new);
        modules +=
            &format!("#[allow(dead_code, unused, clippy::all)]\nmod slip_{number} {{\n{slipped}\nbounded!();\n}}\n");
        rings += &format!("        ({name:?}, Box::new(slip_{number}::Bounded::new(capacity))),\n");
    }
    modules + &rings + "    ]\n}\n"
}

/// The source with a unified diff applied: what stays and what goes must stand in the source where the diff says.
fn patched(source: &str, patch: &str) -> String {
    let mut lines = source.lines();
    let (mut done, mut out) = (0, String::new());
    for line in patch.lines().skip_while(|line| !line.starts_with("@@")) {
        if let Some(hunk) = line.strip_prefix("@@ -") {
            let first: usize =
                hunk.split(',').next().and_then(|first| first.parse().ok()).expect("a hunk's first line");
            let before = lines.by_ref().take(first - 1 - done);
            done = first - 1;
            out.extend(before.flat_map(|line| [line, "\n"]));
            continue;
        }
        let (sign, text) = line.split_at(1);
        if sign != "+" {
            assert_eq!(lines.next(), Some(text), "line {} of {SOURCE}", done + 1);
            done += 1;
        }
        if sign != "-" {
            out.extend([text, "\n"]);
        }
    }
    out.extend(lines.flat_map(|line| [line, "\n"]));
    out
}
