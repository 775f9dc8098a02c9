//! The example scripts, called here, print what the proved replay program prints.
use std::{fmt::Write, fs, path::Path};
use tumashqin::{read_record, Edition, Memory, Refusal, PAGE_WORDS, RECORD_BYTES};

const ARGUMENTS: [usize; 12] = [5, 1, 4, 2, 2, 3, 2, 1, 1, 0, 1, 2];

fn call(memory: &mut Memory, number: u32, a: [u32; 5]) -> Result<u32, Refusal> {
    match number {
        1 => memory.create_partition(a),
        2 => memory.delete_partition(a[0]),
        3 => memory.add_vaddr(a[0], a[1], a[2], a[3]),
        4 => memory.remove_vaddr(a[0], a[1]),
        5 => memory.page_count(a[0], a[1]),
        6 => memory.prepare(a[0], a[1], a[2]),
        7 => memory.collect(a[0], a[1]),
        8 => memory.mapped_in_child(a[0]),
        9 => memory.enter(a[0]),
        10 => memory.leave(),
        11 => memory.load(a[0]),
        12 => memory.store(a[0], a[1]),
        _ => panic!("{number} is no call"),
    }
}

fn replay(script: &[u8]) -> String {
    let word = |at: usize| u32::from_le_bytes(script[at..at + 4].try_into().unwrap());
    let mut words = vec![0; word(0) as usize * PAGE_WORDS];
    let mut memory = Memory::format(&mut words, Edition::Pages256).unwrap();
    let mut record = [0; RECORD_BYTES];
    memory.write_record(&[0; 64], &mut record).unwrap();
    let mut text = format!("{} {}\n", word(0), read_record(&record).unwrap().end / 256 - 1);
    let mut at = word(8) as usize;
    for place in 1..=word(4) {
        let number = word(at);
        let mut arguments = [0; 5];
        for argument in &mut arguments[..ARGUMENTS[number as usize - 1]] {
            at += 4;
            *argument = word(at);
        }
        at += 4;
        match call(&mut memory, number, arguments) {
            Ok(word) => writeln!(text, "{place} ok {word}").unwrap(),
            Err(refusal) => writeln!(text, "{place} no {}", refusal.number()).unwrap(),
        }
    }
    text
}

#[test]
fn as_the_replay_program() {
    let repository = Path::new(env!("CARGO_MANIFEST_DIR")).join("../..");
    let mut text = String::new();
    for name in ["morning", "deep", "eleventh", "refusals"] {
        let script = fs::read(repository.join("examples").join(name).with_extension("script")).unwrap();
        text += &format!("{name} same\n{}", replay(&script));
    }
    // What the program `examples` writes begins with their transcripts.
    assert!(fs::read_to_string(repository.join("crates/examples/stdout")).unwrap().starts_with(&text));
}
