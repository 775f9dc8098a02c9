//! Refusals: their numbers, and that a call which refuses changes no word.
use tumashqin::{verdict, Context, Edition, Memory, Refusal, EXECUTE, PAGE_WORDS, READ, WRITE};

/// What each call answers, with arguments that a sound memory would take.
fn all_calls(memory: &mut Memory) -> [Result<u32, Refusal>; 15] {
    [
        memory.create_partition([256, 512, 768, 1024, 1280]),
        memory.delete_partition(256),
        memory.add_vaddr(2304, 256, 4096, 3),
        memory.remove_vaddr(256, 4096),
        memory.page_count(256, 4096),
        memory.prepare(256, 4096, 1536),
        memory.collect(256, 4096),
        memory.mapped_in_child(2304),
        memory.enter(256),
        memory.leave(),
        memory.load(2308),
        memory.store(1536, 1),
        memory.notify(256, &Context::default()),
        memory.dispatch(256),
        memory.resume(256, 0).map(|context| context.eip),
    ]
}

#[test]
fn every_number_is_its_refusals() {
    assert!(Refusal::ALL.into_iter().map(Refusal::number).eq((1..=18).chain([20, 21, 22, 24])));
    for refusal in Refusal::ALL {
        assert_eq!(Refusal::from_number(refusal.number()), Some(refusal));
        assert!(!refusal.to_string().is_empty());
    }
    for number in [0, 19, 23, 25] {
        assert_eq!(Refusal::from_number(number), None);
    }
}

#[test]
fn damaged_memory_changes_by_no_call() {
    let mut words = [0; 20 * PAGE_WORDS];
    Memory::format(&mut words, Edition::Pages256).unwrap();
    assert_eq!(verdict(&words), Ok(()));
    words[0] = 21;
    let before = words;
    assert_eq!(verdict(&words), Err(Refusal::Damaged));
    assert_eq!(all_calls(&mut Memory::over(&mut words)), [Err(Refusal::Damaged); 15]);
    assert_eq!(words, before);
}

#[test]
fn no_child_has_a_page_to_write_and_execute() {
    let mut words = [0; 20 * PAGE_WORDS];
    let mut memory = Memory::format(&mut words, Edition::Pages256).unwrap();
    memory.create_partition([256, 512, 768, 1024, 1280]).unwrap();
    memory.store(1536, 1792).unwrap();
    memory.store(1792, 2048).unwrap();
    memory.prepare(256, 4096, 1536).unwrap();
    for rights in [WRITE | EXECUTE, READ | WRITE | EXECUTE] {
        assert_eq!(memory.add_vaddr(2304, 256, 4096, rights), Err(Refusal::Rights));
        assert_eq!(memory.add_vaddr(2304, 512, 4096, rights), Err(Refusal::Rights));
    }
    assert_eq!(memory.add_vaddr(2304, 256, 4096, READ | EXECUTE), Ok(0));
    // An older version lent both: the child's page table is page 14, and the page stands at its place 16.
    words[14 * PAGE_WORDS + 16] |= 4 * WRITE;
    let before = words;
    assert_eq!(verdict(&words), Err(Refusal::Damaged));
    assert_eq!(all_calls(&mut Memory::over(&mut words)), [Err(Refusal::Damaged); 15]);
    assert_eq!(words, before);
}

#[test]
fn memory_of_a_wrong_length_changes_by_no_call() {
    for length in [0, 1, 15 * PAGE_WORDS, 16 * PAGE_WORDS + 1, 257 * PAGE_WORDS] {
        let mut words = vec![7; length];
        assert_eq!(Memory::format(&mut words, Edition::Pages256).unwrap_err(), Refusal::Size);
        assert_eq!(Memory::over(&mut words).verdict(), Err(Refusal::Damaged));
        assert_eq!(all_calls(&mut Memory::over(&mut words)), [Err(Refusal::Damaged); 15]);
        assert_eq!(words, vec![7; length]);
    }
}

#[test]
fn every_other_refusal_changes_no_word() {
    let mut words = [0; 20 * PAGE_WORDS];
    let mut memory = Memory::format(&mut words, Edition::Pages256).unwrap();
    let before = memory.words().to_vec();
    assert_eq!(memory.load(1 << 20), Err(Refusal::Address));
    assert_eq!(memory.load((1 << 20) - 256), Err(Refusal::Unmapped));
    assert_eq!(memory.create_partition([256, 512, 768, 1024, 256]), Err(Refusal::Twice));
    assert_eq!(memory.create_partition([256, 512, 768, 1024, 4096]), Err(Refusal::Hand));
    assert_eq!(memory.enter(256), Err(Refusal::Child));
    assert_eq!(memory.add_vaddr(256, 512, 768, 8), Err(Refusal::Rights));
    assert_eq!(memory.leave(), Err(Refusal::Root));
    assert_eq!(memory.verdict(), Ok(()));
    assert_eq!(memory.words(), before);
}
