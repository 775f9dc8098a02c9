//! Replay: a script of call records becomes a transcript, one line for each record. Its memory has small pages.

use crate::calls::{call, format, ARGUMENTS};
use crate::geometry::{Sizes, SMALL};

pub const MOST_BYTES: usize = 4096;
/// The calls that a record may name: document 01's.
pub const CALLS: usize = 12;

struct Script {
    sizes: Sizes,
    /// Call number, then its arguments.
    records: Vec<Vec<u32>>,
}

/// The transcript; `bad script` alone when the script can't be read to its end.
pub fn replay(script: &[u8]) -> Vec<u8> {
    match read(script) {
        Some(script) => run(&script).into_bytes(),
        None => b"bad script\n".to_vec(),
    }
}

fn read(bytes: &[u8]) -> Option<Script> {
    if bytes.len() > MOST_BYTES {
        return None;
    }
    let mut rest = bytes;
    let (pages, count, offset) = (next(&mut rest)?, next(&mut rest)?, next(&mut rest)? as usize);
    let sizes = Sizes::of_pages(SMALL, pages as usize)?;
    if offset < 12 {
        return None;
    }
    rest = bytes.get(offset..)?;
    let mut records = Vec::new();
    for _ in 0..count {
        let number = next(&mut rest)?;
        let arguments = *ARGUMENTS[..CALLS].get((number as usize).checked_sub(1)?)?;
        let mut record = vec![number];
        for _ in 0..arguments {
            record.push(next(&mut rest)?);
        }
        records.push(record);
    }
    rest.is_empty().then_some(Script { sizes, records })
}

/// Takes one little-endian word off the front.
fn next(rest: &mut &[u8]) -> Option<u32> {
    let (word, after) = rest.split_first_chunk::<4>()?;
    *rest = after;
    Some(u32::from_le_bytes(*word))
}

fn run(script: &Script) -> String {
    let mut mem = vec![0; script.sizes.pages as usize * SMALL.page_words()];
    let mut transcript = format!("{} {}\n", script.sizes.pages, script.sizes.free);
    // Never refuses: the page count was checked with the script.
    let _ = format(&mut mem, SMALL.number);
    for (place, record) in script.records.iter().enumerate() {
        match call(&mut mem, record[0], &record[1..]) {
            Some(Ok(answer)) => transcript += &format!("{} ok {answer}\n", place + 1),
            Some(Err(refusal)) => transcript += &format!("{} no {refusal}\n", place + 1),
            None => {}
        }
    }
    transcript
}
