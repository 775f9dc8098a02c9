//! Measures the proved block kernel beside the ordinary version.

use bench::{blocks::report, program};
use std::process::ExitCode;

fn main() -> ExitCode {
    let words = "The judge is the verdict of a memory. The number before a tree's name is that of its KiB.";
    program::run("blocks", report::measure, words)
}
