//! The block kernel: the worked case of docs/BLOCKS.md, and what its words are.
use tumashqin::block::{Block, Memory, Refusal, HAS_DESCRIPTOR, HAS_STRUCTURE, IN_HAND, KIB_WORDS, LENT};
use tumashqin::{EXECUTE, READ, WRITE};

const WORDS: usize = 16 * KIB_WORDS;
const ALL: u32 = READ | WRITE | EXECUTE;

#[test]
fn the_worked_case() {
    let mut words = [0; WORDS];
    let mut memory = Memory::format(&mut words).unwrap();
    let formatted = memory.words().to_vec();
    assert_eq!(memory.cut(8, 1096), Ok(9));
    assert_eq!(memory.create(8), Ok(0));
    assert_eq!(memory.cut(9, 1392), Ok(10));
    assert_eq!(memory.prepare(8, 9), Ok(0));
    assert_eq!(memory.cut(10, 5488), Ok(11));
    assert_eq!(memory.add(8, 10, READ | WRITE), Ok(8));
    // "the root's slot of block 10 .. and the child's slot of block 8; the child stands at 242 and its structure at 274": slots have nine words, the root's
    // first structure is at word 168, and slot i is from word 2 + 9i on.
    assert_eq!(memory.words()[168 + 2 + 9 * 2..][..9], [1392, 5488, 7, 2, 8, 8, 0, 9, 11]);
    assert_eq!(memory.words()[274 + 2..][..9], [1392, 5488, 3, 1, 0, 0, 10, 0, 0]);
    assert_eq!((memory.words()[8 + 242 / 32], memory.words()[242 + 16]), (242, 274));
    assert_eq!(memory.create(10), Err(Refusal::Block));
    assert_eq!(memory.add(8, 11, 8), Err(Refusal::Rights));
    assert_eq!(memory.enable(8, 8, 1), Ok(1));
    assert_eq!(memory.enter(8), Ok(0));
    assert_eq!(memory.cut(8, 3440), Ok(9));
    assert_eq!(memory.cut(9, 3471), Err(Refusal::Piece));
    let enabled = Block { number: 8, start: 1392, end: 3440, rights: READ | WRITE, usage: IN_HAND, child: 0 };
    assert_eq!(memory.read_enabled(0, 1), Ok(Some(enabled)));
    assert_eq!(memory.leave(), Ok(0));
    assert_eq!(memory.remove(8, 10), Err(Refusal::Unmerged));
    assert_eq!(memory.enter(8), Ok(0));
    assert_eq!(memory.merge(9, 8), Ok(8));
    assert_eq!(memory.leave(), Ok(0));
    assert_eq!(memory.remove(8, 10), Ok(0));
    assert_eq!(memory.collect(8), Ok(9));
    assert_eq!(memory.delete(8), Ok(0));
    assert_eq!(memory.merge(8, 9), Ok(8));
    assert_eq!(memory.merge(8, 11), Err(Refusal::Apart));
    assert_eq!(memory.merge(8, 10), Ok(8));
    assert_eq!(memory.merge(8, 11), Ok(8));
    assert_eq!(memory.enable(0, 8, 1), Ok(1));
    assert_eq!(memory.words(), formatted);
    let whole = Block { number: 8, start: 968, end: 16384, rights: ALL, usage: IN_HAND, child: 0 };
    assert_eq!(memory.find(0, 5000), Ok(Some(whole)));
    assert_eq!(memory.find(0, 900), Ok(None));
    assert_eq!(memory.read_enabled(0, 2), Ok(None));
    assert_eq!(memory.leave(), Err(Refusal::Root));
    assert_eq!(memory.verdict(), Ok(()));
}

/// A block of each use, as find tells it: the child's descriptor, its structure, one that is lent to it and one in hand.
#[test]
fn a_block_of_each_use() {
    let mut words = [0; WORDS];
    let mut memory = Memory::format(&mut words).unwrap();
    for (block, address) in [(8, 1096), (9, 1392), (10, 5488)] {
        memory.cut(block, address).unwrap();
    }
    memory.create(8).unwrap();
    memory.prepare(8, 9).unwrap();
    memory.add(8, 10, READ).unwrap();
    for (number, start, end, usage, child) in [
        (8, 968, 1096, HAS_DESCRIPTOR, 0),
        (9, 1096, 1392, HAS_STRUCTURE, 8),
        (10, 1392, 5488, LENT, 8),
        (11, 5488, 16384, IN_HAND, 0),
    ] {
        let block = Block { number, start, end, rights: ALL, usage, child };
        assert_eq!(memory.find(0, start), Ok(Some(block)));
        assert_eq!(memory.find(0, end - 1), Ok(Some(block)));
    }
    assert_eq!(
        memory.find(8, 1392),
        Ok(Some(Block { number: 8, start: 1392, end: 5488, rights: READ, usage: IN_HAND, child: 0 }))
    );
    assert_eq!(memory.find(8, 1391), Ok(None));
    assert_eq!(memory.find(9, 1392), Err(Refusal::Child));
}

/// "W = 4,096 gives D = 136, first byte 968, F = 15,416; W = 16,384 gives 520, 2,504, 63,032"; each whole KiB from 16 to 64 is permitted.
#[test]
fn each_length_has_its_starting_block() {
    for kib in 16..=64 {
        let length = kib * KIB_WORDS;
        let mut words = vec![7; length];
        let memory = Memory::format(&mut words).unwrap();
        let (start, end) = (456 + length as u32 / 8, 4 * length as u32);
        match kib {
            16 => assert_eq!((start, end - start), (968, 15_416)),
            64 => assert_eq!((start, end - start), (2_504, 63_032)),
            _ => (),
        }
        assert_eq!(
            memory.read_enabled(0, 1),
            Ok(Some(Block { number: 8, start, end, rights: ALL, usage: IN_HAND, child: 0 }))
        );
        assert_eq!(memory.words()[..4], [length as u32, 8 + length as u32 / 32, start, 8 + length as u32 / 32]);
        assert_eq!(memory.verdict(), Ok(()));
    }
}
