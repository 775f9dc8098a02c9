//! The block kernel's refusals: their numbers, each once, and that a call which refuses changes no word.
use tumashqin::block::{verdict, Memory, Refusal, KIB_WORDS};

const WORDS: usize = 16 * KIB_WORDS;

/// What each call answers, with arguments that a sound memory would take.
fn all_calls(memory: &mut Memory) -> [Result<u32, Refusal>; 13] {
    [
        memory.create(8),
        memory.delete(8),
        memory.prepare(0, 9),
        memory.collect(0),
        memory.add(8, 9, 3),
        memory.remove(8, 9),
        memory.cut(8, 1096),
        memory.merge(8, 9),
        memory.enable(0, 8, 1),
        memory.read_enabled(0, 1).map(|_| 1),
        memory.find(0, 5000).map(|_| 1),
        memory.enter(8),
        memory.leave(),
    ]
}

/// The call is refused, and no word changes.
fn refused(memory: &mut Memory, expected: Refusal, call: impl FnOnce(&mut Memory) -> Result<u32, Refusal>) {
    let before = memory.words().to_vec();
    assert_eq!(call(memory), Err(expected));
    assert_eq!(memory.words(), before, "{expected}");
}

#[test]
fn every_number_is_its_refusals() {
    assert!(Refusal::ALL.into_iter().map(Refusal::number).eq(1..=13));
    for refusal in Refusal::ALL {
        assert_eq!(Refusal::from_number(refusal.number()), Some(refusal));
        assert!(!refusal.to_string().is_empty());
    }
    for number in [0, 14, u32::MAX] {
        assert_eq!(Refusal::from_number(number), None);
    }
}

#[test]
fn damaged_memory_changes_by_no_call() {
    let mut words = [0; WORDS];
    Memory::format(&mut words).unwrap();
    assert_eq!(verdict(&words), Ok(()));
    words[3] += 1;
    let before = words;
    assert_eq!(verdict(&words), Err(Refusal::Damaged));
    assert_eq!(all_calls(&mut Memory::over(&mut words)), [Err(Refusal::Damaged); 13]);
    assert_eq!(words, before);
}

#[test]
fn memory_of_a_wrong_length_changes_by_no_call() {
    for length in [0, 1, 3_840, 4_095, 4_097, 16_640] {
        let mut words = vec![7; length];
        assert_eq!(Memory::format(&mut words).unwrap_err(), Refusal::Length);
        assert_eq!(Memory::over(&mut words).verdict(), Err(Refusal::Damaged));
        assert_eq!(all_calls(&mut Memory::over(&mut words)), [Err(Refusal::Damaged); 13]);
        assert_eq!(words, vec![7; length]);
    }
}

/// With a child 8, whose structure stands in block 9 and which has cut block 10; blocks 11 to 15 are in the root's hand, and it has no slot more.
#[test]
fn each_refusal_that_sound_memory_has() {
    let mut words = [0; WORDS];
    let mut memory = Memory::format(&mut words).unwrap();
    refused(&mut memory, Refusal::Empty, |memory| memory.collect(0));
    refused(&mut memory, Refusal::Root, |memory| memory.leave());
    for (block, address) in [(8, 1096), (9, 1392), (10, 5488), (11, 5520), (12, 5816), (13, 6112), (14, 6408)] {
        assert_eq!(memory.cut(block, address), Ok(block + 1));
    }
    memory.create(8).unwrap();
    memory.prepare(8, 9).unwrap();
    memory.add(8, 10, 3).unwrap();
    memory.enter(8).unwrap();
    memory.cut(8, 3440).unwrap();
    memory.leave().unwrap();
    refused(&mut memory, Refusal::Child, |memory| memory.enter(9));
    refused(&mut memory, Refusal::Child, |memory| memory.find(9, 5000).map(|_| 1));
    refused(&mut memory, Refusal::Block, |memory| memory.create(10));
    refused(&mut memory, Refusal::Block, |memory| memory.remove(8, 11));
    refused(&mut memory, Refusal::Rights, |memory| memory.add(8, 11, 8));
    refused(&mut memory, Refusal::Piece, |memory| memory.cut(15, 6408 + 31));
    refused(&mut memory, Refusal::Apart, |memory| memory.merge(11, 13));
    refused(&mut memory, Refusal::Unmerged, |memory| memory.remove(8, 10));
    refused(&mut memory, Refusal::Slot, |memory| memory.cut(15, 6408 + 32));
    // Block 11 has 32 bytes: no room for a descriptor of 128, nor for a structure of 296.
    refused(&mut memory, Refusal::Structure, |memory| memory.create(11));
    refused(&mut memory, Refusal::Structure, |memory| memory.prepare(0, 11));
    // A second structure of the root's own: with its slots there are nine blocks in hand.
    memory.prepare(0, 12).unwrap();
    for (number, address) in (16..=20).zip((7000..).step_by(100)) {
        assert_eq!(memory.cut(number - 1, address), Ok(number));
    }
    for (entry, block) in (1..).zip([11, 13, 14, 15, 16, 17, 18, 19]) {
        assert_eq!(memory.enable(0, block, 1), Ok(entry));
    }
    refused(&mut memory, Refusal::Enabled, |memory| memory.enable(0, 20, 1));
    assert_eq!(memory.enable(0, 11, 0), Ok(0));
    assert_eq!(memory.enable(0, 20, 1), Ok(1));
    assert_eq!(memory.verdict(), Ok(()));
}
