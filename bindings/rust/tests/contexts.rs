//! Document 02, L8: notify, dispatch and resume, with 40 pages and one child that has a slot page.
use tumashqin::{
    Context, Edition, Memory, Refusal, INT_CTX, ISR_CTX, NOTIF_CHILD_CTX, NOTIF_PARENT_CTX, PAGE_WORDS, READ, SLOTS_AT,
    SLOT_WORDS, WRITE,
};

const CHILD: u32 = 256;
const PARENT: u32 = 0;
/// The page lent to the child as its slot page, and the root's slot page, its last.
const CHILD_SLOTS: u32 = 2304;
const ROOT_SLOTS: u32 = 256 * 31;
/// The same pages and the two descriptors, by their numbers in memory.
const CHILD_PAGE: usize = 17;
const ROOT_PAGE: usize = 39;
const DESCRIPTORS: [usize; 2] = [1, 9];

const TO_CHILD: Context = Context { eip: 100, pipflags: 0, eflags: 200, registers: [1, 2, 3, 4, 5, 6, 7, 8] };
const TO_PARENT: Context = Context { eip: 7, pipflags: 1, eflags: 8, registers: [11, 12, 13, 14, 15, 16, 17, 18] };

/// A child with tables for its last virtual page.
fn child(words: &mut [u32]) -> Memory<'_> {
    let mut memory = Memory::format(words, Edition::Pages256).unwrap();
    memory.create_partition([CHILD, 512, 768, 1024, 1280]).unwrap();
    memory.store(1536, 1792).unwrap();
    memory.store(1792, 2048).unwrap();
    memory.prepare(CHILD, SLOTS_AT, 1536).unwrap();
    memory
}

/// The same with a slot page.
fn with_slots(words: &mut [u32]) -> Memory<'_> {
    let mut memory = child(words);
    memory.add_vaddr(CHILD_SLOTS, CHILD, SLOTS_AT, READ | WRITE).unwrap();
    memory
}

fn slot<'a>(memory: &'a Memory, page: usize, slot: u32) -> &'a [u32] {
    &memory.words()[page * PAGE_WORDS + slot as usize * SLOT_WORDS..][..SLOT_WORDS]
}

/// The flags of the root and the child, and the page of the current partition's descriptor.
fn state(memory: &Memory) -> ([u32; 2], u32) {
    (DESCRIPTORS.map(|page| memory.words()[page * PAGE_WORDS + 12]), memory.words()[4] / 256)
}

#[test]
fn there_and_back() {
    let mut words = [0; 40 * PAGE_WORDS];
    let mut memory = with_slots(&mut words);
    assert_eq!(state(&memory), ([0, 0], 1));
    assert_eq!(memory.notify(CHILD, &TO_CHILD), Ok(0));
    assert_eq!(state(&memory), ([0, 1], 9));
    assert_eq!(slot(&memory, ROOT_PAGE, NOTIF_CHILD_CTX), [100, 0, 200, 1, 2, 3, 4, 5, 6, 7, 8, 1, 0, 0, 0, 0]);
    // The child's own flag is saved, whatever is given.
    assert_eq!(memory.notify(PARENT, &Context { pipflags: 6, ..TO_PARENT }), Ok(0));
    assert_eq!(state(&memory), ([1, 1], 1));
    assert_eq!(slot(&memory, CHILD_PAGE, NOTIF_PARENT_CTX), [7, 1, 8, 11, 12, 13, 14, 15, 16, 17, 18, 1, 0, 0, 0, 0]);
    assert_eq!(memory.resume(CHILD, NOTIF_PARENT_CTX), Ok(TO_PARENT));
    assert_eq!(state(&memory), ([0, 1], 9));
    assert_eq!(slot(&memory, CHILD_PAGE, NOTIF_PARENT_CTX)[11], 0);
    assert_eq!(memory.resume(PARENT, NOTIF_CHILD_CTX), Ok(TO_CHILD));
    assert_eq!(state(&memory), ([0, 0], 1));
    assert_eq!(slot(&memory, ROOT_PAGE, NOTIF_CHILD_CTX)[11], 0);
    // The parent's slot has no context any more: the root becomes current with flag 1.
    memory.enter(CHILD).unwrap();
    assert_eq!(memory.resume(PARENT, NOTIF_CHILD_CTX), Ok(Context::default()));
    assert_eq!(state(&memory), ([1, 0], 1));
    assert_eq!(memory.dispatch(CHILD), Ok(0));
    assert_eq!(state(&memory), ([0, 1], 9));
    assert_eq!(memory.dispatch(PARENT), Ok(0));
    assert_eq!(state(&memory), ([1, 1], 1));
    assert_eq!(memory.verdict(), Ok(()));
}

/// The root fills a slot of the child by store, in its own page before it lends it: the words count as they stand.
#[test]
fn what_a_parent_wrote() {
    for (number, saved, valid) in [(INT_CTX, 7, 1), (ISR_CTX, 6, 1), (NOTIF_CHILD_CTX, 1, 2), (NOTIF_PARENT_CTX, 1, 0)]
    {
        let mut words = [0; 40 * PAGE_WORDS];
        let mut memory = child(&mut words);
        let context: [u32; 11] = Context { pipflags: saved, ..TO_PARENT }.into();
        for (word, at) in context.into_iter().chain([valid, 9]).zip((CHILD_SLOTS + 64 * number..).step_by(4)) {
            memory.store(at, word).unwrap();
        }
        memory.add_vaddr(CHILD_SLOTS, CHILD, SLOTS_AT, READ | WRITE).unwrap();
        let before = slot(&memory, CHILD_PAGE, number).to_vec();
        let answer = memory.resume(CHILD, number);
        if valid == 1 {
            assert_eq!(answer, Ok(Context::from(context)));
            assert_eq!(state(&memory), ([0, saved & 1], 9));
            let words = slot(&memory, CHILD_PAGE, number);
            assert_eq!((&words[..11], &words[11..13]), (&before[..11], &[0, 9][..]));
        } else {
            assert_eq!(answer, Err(Refusal::EmptySlot));
            assert_eq!(state(&memory), ([0, 0], 1));
            assert_eq!(slot(&memory, CHILD_PAGE, number), before);
        }
    }
}

/// Asks the three calls of a copy of the memory, and that no word changes. Resume is asked for a slot.
fn refused(memory: &Memory, target: u32, number: u32, expected: [Refusal; 3]) {
    let mut words = memory.words().to_vec();
    let mut copy = Memory::over(&mut words);
    let answers =
        [copy.notify(target, &TO_CHILD), copy.dispatch(target), copy.resume(target, number).map(|context| context.eip)];
    assert_eq!(answers, expected.map(Err), "target {target}, slot {number}");
    assert_eq!(copy.words(), memory.words());
}

#[test]
fn each_target_that_is_none() {
    let mut words = [0; 40 * PAGE_WORDS];
    let mut memory = with_slots(&mut words);
    for target in [4, 255, 257, 1 << 20, (1 << 20) + 256, u32::MAX] {
        refused(&memory, target, 4, [Refusal::Address; 3]);
    }
    for target in [512, CHILD_SLOTS, 2560, 256 * 32, SLOTS_AT] {
        refused(&memory, target, 4, [Refusal::Child; 3]);
    }
    refused(&memory, PARENT, 4, [Refusal::Root; 3]);
    memory.enter(CHILD).unwrap();
    refused(&memory, CHILD, 4, [Refusal::Child; 3]);
}

#[test]
fn each_slot_that_is_none() {
    let mut words = [0; 40 * PAGE_WORDS];
    let mut memory = child(&mut words);
    // The child has no slot page: its number is asked first.
    for number in [4, 5, 1 << 28, u32::MAX] {
        assert_eq!(memory.resume(CHILD, number), Err(Refusal::Slot));
    }
    for number in 0..4 {
        assert_eq!(memory.resume(CHILD, number), Err(Refusal::SlotPage));
    }
    memory.add_vaddr(CHILD_SLOTS, CHILD, SLOTS_AT, READ | WRITE).unwrap();
    for number in 0..4 {
        assert_eq!(memory.resume(CHILD, number), Err(Refusal::EmptySlot));
    }
    memory.enter(CHILD).unwrap();
    for number in [INT_CTX, ISR_CTX, NOTIF_PARENT_CTX, 4, u32::MAX] {
        assert_eq!(memory.resume(PARENT, number), Err(Refusal::Slot));
    }
    assert_eq!(state(&memory), ([0, 0], 9));
}

/// Not lent, without read, without write; then the root's, lent away. The caller's counts for notify, the target's for resume, neither for dispatch.
#[test]
fn each_slot_page_that_is_none() {
    for rights in [None, Some(WRITE), Some(READ), Some(0)] {
        let mut words = [0; 40 * PAGE_WORDS];
        let mut memory = child(&mut words);
        if let Some(rights) = rights {
            memory.add_vaddr(CHILD_SLOTS, CHILD, SLOTS_AT, rights).unwrap();
        }
        assert_eq!(memory.resume(CHILD, INT_CTX), Err(Refusal::SlotPage));
        assert_eq!(memory.notify(CHILD, &TO_CHILD), Ok(0));
        assert_eq!(memory.notify(PARENT, &TO_PARENT), Err(Refusal::SlotPage));
        assert_eq!(memory.dispatch(PARENT), Ok(0));
        if rights.is_some() {
            memory.remove_vaddr(CHILD, SLOTS_AT).unwrap();
        }
        memory.add_vaddr(ROOT_SLOTS, CHILD, SLOTS_AT, READ | WRITE).unwrap();
        assert_eq!(memory.notify(CHILD, &TO_CHILD), Err(Refusal::SlotPage));
        // The page is the child's slot page by then, and the context that the root saved there is the child's.
        assert_eq!(memory.resume(CHILD, NOTIF_CHILD_CTX), Ok(TO_CHILD));
        assert_eq!(memory.resume(PARENT, NOTIF_CHILD_CTX), Err(Refusal::SlotPage));
        assert_eq!(memory.notify(PARENT, &TO_PARENT), Ok(0));
        assert_eq!(state(&memory), ([1, 0], 1));
    }
}

/// With large pages they answer Edition before all but Damaged.
#[test]
fn not_with_large_pages() {
    let mut words = vec![0; 40 * Edition::Pages4096.page_words()];
    let mut memory = Memory::format(&mut words, Edition::Pages4096).unwrap();
    memory.create_partition([1, 2, 3, 4, 5].map(|page| page * 4096)).unwrap();
    for target in [PARENT, 4, 256, 4096, 8192] {
        refused(&memory, target, 4, [Refusal::Edition; 3]);
    }
    words[1024 + 12] = 1;
    refused(&Memory::over(&mut words), 4096, 0, [Refusal::Damaged; 3]);
}

/// Word 12 of a descriptor may be 0 or 1, and the words after it are 0.
#[test]
fn what_the_verdict_allows() {
    let mut words = [0; 40 * PAGE_WORDS];
    with_slots(&mut words);
    for page in DESCRIPTORS {
        for (word, value, expected) in [(12, 1, Ok(())), (12, 2, Err(Refusal::Damaged)), (13, 1, Err(Refusal::Damaged))]
        {
            let mut changed = words;
            changed[page * PAGE_WORDS + word] = value;
            assert_eq!(tumashqin::verdict(&changed), expected, "page {page}, word {word}");
            if expected.is_err() {
                refused(&Memory::over(&mut changed), CHILD, 0, [Refusal::Damaged; 3]);
            }
        }
    }
}
