//! Plants each slip of src/slips.rs in a copy of bounded.rs.

include!("src/slips.rs");

use std::path::Path;
use std::{env, fs};

const SOURCE: &str = "../src/bounded.rs";

fn main() {
    for file in ["build.rs", "src/slips.rs", SOURCE] {
        println!("cargo::rerun-if-changed={file}");
    }
    let source = fs::read_to_string(SOURCE).unwrap_or_else(|error| panic!("{SOURCE}: {error}"));
    let mut modules = String::new();
    let mut queues = String::from("fn slipped(slip: usize, capacity: usize) -> Box<dyn Queue> {\n    match slip {\n");
    for (number, (name, old, new)) in SLIPS.iter().enumerate() {
        assert_eq!(source.matches(old).count(), 1, "{name}: {old}");
        modules += &format!(
            "#[allow(dead_code, unused, clippy::all)]\nmod slip_{number} {{\n{}\n}}\n",
            source.replace(old, new)
        );
        modules += &format!("bounded!(slip_{number});\n");
        queues += &format!("        {number} => Box::new(slip_{number}::Bounded::new(capacity)),\n");
    }
    queues += "        _ => unreachable!(\"a slip of the list\"),\n    }\n}\n";
    let out = env::var_os("OUT_DIR").expect("cargo sets it");
    fs::write(Path::new(&out).join("slips.rs"), modules + &queues).expect("cargo's own place");
}
