//! Measures the proved page kernel beside the ordinary version.

use bench::{program, report::Report};
use std::process::ExitCode;

fn main() -> ExitCode {
    let words = "The judge is the verdict of a memory. Pages are of 256 bytes, large ones of 4,096.";
    program::run("bench", Report::measure, words)
}
