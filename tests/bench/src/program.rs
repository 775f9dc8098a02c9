//! What the measuring programs share: options, the tables' text and the exit status.

use crate::report::bar::Bar;
use crate::report::Report;
use std::process::ExitCode;
use std::time::Duration;

const SECONDS: u64 = 60;

/// Measures and prints, with a line on what the words of the tables mean. Exit status 1 where a bar is missed.
pub fn run(name: &str, measure: fn(Duration) -> Report, words: &str) -> ExitCode {
    let Some((markdown, seconds)) = options() else {
        eprintln!("usage: {name} [--markdown] [--seconds SECONDS]");
        return ExitCode::from(2);
    };
    let report = measure(Duration::from_secs(seconds));
    println!("{}. Times are in nanoseconds: the least of many single calls, the two versions in turn.", processor());
    println!("{words}\n");
    if markdown {
        report.short.iter().for_each(|table| print!("{}", table.markdown()));
    } else {
        let all = report.calls.iter().chain(&report.stack).chain(&report.short);
        all.for_each(|table| print!("{}", table.text()));
    }
    if report.bars.iter().all(Bar::holds) {
        ExitCode::SUCCESS
    } else {
        ExitCode::FAILURE
    }
}

/// Whether Markdown is asked for, and how many seconds to measure.
fn options() -> Option<(bool, u64)> {
    let (mut markdown, mut seconds) = (false, SECONDS);
    let mut arguments = std::env::args().skip(1);
    while let Some(argument) = arguments.next() {
        match argument.as_str() {
            "--markdown" => markdown = true,
            "--seconds" => seconds = arguments.next()?.parse().ok()?,
            _ => return None,
        }
    }
    Some((markdown, seconds))
}

/// The processor's name, where the system tells it.
fn processor() -> String {
    let text = std::fs::read_to_string("/proc/cpuinfo").unwrap_or_default();
    let name = text.lines().find_map(|line| line.strip_prefix("model name")?.split_once(": "));
    name.map_or("Processor not known".to_string(), |(_, name)| name.to_string())
}
