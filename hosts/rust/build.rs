//! Links the library of the folder that FERNMOLDEW_LIB names; where it is not set, the proved one of target/native, if hosts/library has made it of what stands here; else one that is compiled from the sources with no
//! proof, in half a minute, into OUT_DIR, with a warning. Nothing is proved here, and nothing written elsewhere: `cargo check` and an editor come this way too. With FERNMOLDEW_PROVED=only nothing that is not proved is linked.

use std::path::{Path, PathBuf};
use std::process::{Command, Output};
use std::{env, process};

const LIBRARIES: [&str; 5] = ["bounded_host", "bounded_host_step", "single_host", "unbounded_host", "tapes_host"];

fn fail(why: &str) -> ! {
    eprintln!("fernmoldew: {why}");
    process::exit(1)
}

fn library(root: &Path, words: &[&str], room: &Path) -> Output {
    // temporary files stand in OUT_DIR too
    let done = Command::new(root.join("hosts/library")).args(words).env("TMPDIR", room).output();
    done.unwrap_or_else(|error| fail(&format!("hosts/library: {error}")))
}

/// What the library is made of, so that a change has this run again.
fn watch(root: &Path) {
    let made_of = LIBRARIES.map(|name| format!("{name}_c"));
    let reached = Command::new(root.join("tools/reached")).args(&made_of).output();
    let reached = reached.unwrap_or_else(|error| fail(&format!("tools/reached: {error}"))).stdout;
    let crates = String::from_utf8(reached).expect("names of crates");
    for part in crates.split_whitespace().chain(made_of.iter().map(String::as_str)) {
        for folder in ["src", "specs"] {
            let folder = root.join("crates").join(part).join(folder);
            if folder.is_dir() {
                println!("cargo:rerun-if-changed={}", folder.display());
            }
        }
    }
    for file in ["crates.txt", "hosts/library", "tools/unproved", "tools/made-of"] {
        println!("cargo:rerun-if-changed={}", root.join(file).display());
    }
}

fn folder() -> PathBuf {
    if let Some(named) = env::var_os("FERNMOLDEW_LIB") {
        return named.into();
    }
    let root = PathBuf::from(env::var_os("CARGO_MANIFEST_DIR").expect("cargo sets it")).join("../..");
    let room = PathBuf::from(env::var_os("OUT_DIR").expect("cargo sets it"));
    watch(&root);
    let proved = root.join("target/native");
    // as long as they are not there cargo runs this each time, so that they are linked once they are
    for name in LIBRARIES {
        println!("cargo:rerun-if-changed={}", proved.join(format!("lib{name}.a")).display());
    }
    let machine = env::var("CARGO_CFG_TARGET_ARCH").expect("cargo sets it");
    let here = machine == env::consts::ARCH;
    if here && library(&root, &["--look"], &room).status.success() {
        return proved;
    }
    if env::var_os("FERNMOLDEW_PROVED").map_or(false, |asked| asked == "only") {
        fail("the library is not proved here, or not of these sources: hosts/library proves it (minutes), or FERNMOLDEW_LIB names the folder of one");
    }
    let made = room.join("native");
    let into = made.to_str().unwrap_or_else(|| fail("OUT_DIR is no UTF-8"));
    let words = ["--unproved", "--into", into, &machine];
    let done = library(&root, if here { &words[..3] } else { &words }, &room);
    let said = String::from_utf8_lossy(&done.stderr);
    if done.status.success() {
        println!("cargo:warning=built from the sources, not proved on this machine: hosts/library proves it (minutes)");
    } else {
        // enough to check and to document; what is to be linked ends with an error of rustc's
        println!("cargo:warning=there is no library to link: {}", said.lines().last().unwrap_or("hosts/library failed"));
    }
    made
}

fn main() {
    println!("cargo:rerun-if-env-changed=FERNMOLDEW_LIB");
    println!("cargo:rerun-if-env-changed=FERNMOLDEW_PROVED");
    let folder = folder();
    println!("cargo:rustc-link-search=native={}", folder.display());
    for library in LIBRARIES {
        if env::var_os("FERNMOLDEW_LIB").is_some() {
            println!("cargo:rerun-if-changed={}", folder.join(format!("lib{library}.a")).display());
        }
        println!("cargo:rustc-link-lib=static={library}");
    }
}
