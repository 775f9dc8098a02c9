//! Scripts, good and bad, replayed by the proved program replay and by the second program.

use crate::tally::Tally;
use second::geometry::SMALL;
use second::make::make;
use second::random::Random;
use second::replay::{replay, CALLS, MOST_BYTES};
use std::io::{self, Write};
use std::path::Path;
use std::process::{Command, Stdio};

const PROGRAM: &str = concat!(env!("CARGO_MANIFEST_DIR"), "/../../crates/replay/out/replay");
const HEADER: usize = 12;

/// Whether the program is there; without it no script is compared.
pub fn built() -> bool {
    Path::new(PROGRAM).exists()
}

pub fn compare(pages: usize, random: &mut Random, tally: &mut Tally) -> Result<(), String> {
    if !built() {
        return Ok(());
    }
    let good = script(pages, random);
    let changed: Vec<_> = (0..3).map(|_| changed(&good, random)).collect();
    for script in [vec![good], changed].concat() {
        let said = proved(&script).map_err(|error| format!("{PROGRAM}: {error}"))?;
        let expected = replay(&script);
        let count = if expected == b"bad script\n" { &mut tally.bad_scripts } else { &mut tally.good_scripts };
        *count += 1;
        if said != expected {
            let [said, expected] = [said, expected].map(|text| String::from_utf8_lossy(&text).into_owned());
            return Err(format!("script {script:?}:\nproved:\n{said}second:\n{expected}"));
        }
    }
    Ok(())
}

fn proved(script: &[u8]) -> io::Result<Vec<u8>> {
    let mut child = Command::new(PROGRAM).stdin(Stdio::piped()).stdout(Stdio::piped()).spawn()?;
    if let Some(mut stdin) = child.stdin.take() {
        // A script that is too long need not be read to its end.
        let _ = stdin.write_all(script);
    }
    let output = child.wait_with_output()?;
    output.status.code().map(|_| output.stdout).ok_or(io::Error::other(output.status.to_string()))
}

/// A good script of guided calls, up to as many as it has room for.
fn script(pages: usize, random: &mut Random) -> Vec<u8> {
    let gap = if random.once_in(3) { random.below(9) } else { 0 };
    let room = MOST_BYTES - gap - if random.once_in(2) { 0 } else { random.below(MOST_BYTES - HEADER - gap) };
    let (mut script, mut count) = (vec![0; HEADER + gap], 0u32);
    let made = make(SMALL, random.draw() as u32, 400, pages);
    for line in made.iter().filter(|line| (1..=CALLS).contains(&(line[0] as usize))) {
        if script.len() + 4 * line.len() > room {
            break;
        }
        script.extend(line.iter().flat_map(|word| word.to_le_bytes()));
        count += 1;
    }
    for (place, word) in [pages as u32, count, (HEADER + gap) as u32].into_iter().enumerate() {
        put(&mut script, 4 * place, word);
    }
    script
}

fn put(script: &mut [u8], at: usize, word: u32) {
    script[at..at + 4].copy_from_slice(&word.to_le_bytes());
}

/// The script with a change that may make it bad.
fn changed(good: &[u8], random: &mut Random) -> Vec<u8> {
    let mut script = good.to_vec();
    let length = script.len() as u32;
    let count = u32::from_le_bytes([good[4], good[5], good[6], good[7]]);
    let mut any = |words: &[u32]| random.pick(words).unwrap_or(0);
    let (pages, records, offset) = (
        any(&[0, 15, 16, 17, 256, 257, u32::MAX]),
        any(&[0, count.wrapping_sub(1), count + 1, u32::MAX]),
        any(&[0, 8, 11, 13, 16, length, length + 1, u32::MAX]),
    );
    let word = any(&[0, 1, 7, 10, 13, 256, 1 << 20, u32::MAX]);
    match random.below(11) {
        0 => script.truncate(random.below(good.len() + 1)),
        1 => script.extend(vec![0; 1 + random.below(8)]),
        2 => put(&mut script, 0, pages),
        3 => put(&mut script, 4, records),
        4 => put(&mut script, 8, offset),
        5 => {
            // A gap before the records, up to the most bytes or one more.
            let gap = MOST_BYTES + random.below(2) - good.len();
            let offset = u32::from_le_bytes([good[8], good[9], good[10], good[11]]) as usize;
            script.splice(offset..offset, (0..gap).map(|_| 0xA5));
            put(&mut script, 8, (offset + gap) as u32);
        }
        6..=8 if good.len() > HEADER + 4 => put(&mut script, HEADER + random.below(good.len() - HEADER - 3), word),
        9 => script = (0..random.below(5000)).map(|_| random.draw() as u8).collect(),
        _ => {
            let at = random.below(good.len());
            script[at] ^= 1 << random.below(8);
        }
    }
    script
}
