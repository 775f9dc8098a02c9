//! Start-up records: written on both sides, and read back changed. The writer's verdict is asked alone, too.

use crate::both::verdict;
use crate::proved;
use crate::tally::Tally;
use second::calls::Answer;
use second::cover::{READER, WRITER};
use second::random::Random;
use second::record::{read, revision, write, LENGTH, REVISION};
use tumashqin::{read_record, record_begin, record_end, Refusal};

pub fn compare(words: &mut [u32], random: &mut Random, tally: &mut Tally) -> Result<(), String> {
    verdict(words, tally)?;
    let (given, mut out) = (bytes(REVISION, random), bytes(LENGTH, random));
    let mut expected = out.clone();
    let answer = write(words, &given, &mut expected);
    tally.of(words).cover.count(WRITER, answer);
    let said = proved::write_record(words, &given, &mut out);
    if (said, &out) != (answer, &expected) {
        return Err(format!("record of {given:?}:\n  proved {said:?} {out:?}\n  second {answer:?} {expected:?}"));
    }
    // Single bytes changed, mostly in magic, begin and end.
    for _ in 0..random.below(3) {
        let (most, bit) = (if random.once_in(4) { LENGTH } else { 12 }, 1 << random.below(8));
        if let Some(byte) = out.get_mut(random.below(most)) {
            *byte = random.pick(&[0, 1, 255, *byte ^ bit]).unwrap_or(0);
        }
    }
    let (said, extent) = (proved_reading(&out), read(&out));
    tally.of(words).cover.count(READER, extent.answer);
    let expected = (extent.answer, extent.begin, extent.end, revision(&out));
    (said == expected).then_some(()).ok_or(format!("record {out:?} read:\n  proved {said:?}\n  second {expected:?}"))
}

/// Answer, begin, end and the revision as a part of the bytes.
fn proved_reading(bytes: &[u8]) -> (Answer, u32, u32, &[u8]) {
    let answer = read_record(bytes).map(|_| 0).map_err(Refusal::number);
    (answer, record_begin(bytes), record_end(bytes), tumashqin::revision(bytes))
}

/// Random bytes, about as many as are needed.
fn bytes(needed: usize, random: &mut Random) -> Vec<u8> {
    let length = match random.below(6) {
        0 => random.below(needed),
        1 => needed - 1,
        2 => needed,
        _ => needed + random.below(16),
    };
    (0..length).map(|_| random.draw() as u8).collect()
}
