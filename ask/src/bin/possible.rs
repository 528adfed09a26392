//! possible: whether a log can have happened.

use ask::{manners, possible};
use std::process::ExitCode;

fn main() -> ExitCode {
    manners::run("possible", possible::program)
}
