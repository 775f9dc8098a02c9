//! "A bench morning, whole" of document 01: fifteen calls and their answers.
use tumashqin::{Edition, Memory, Refusal, PAGE_WORDS, READ, WRITE};

#[test]
fn a_bench_morning() {
    let mut words = [0; 20 * PAGE_WORDS];
    let mut memory = Memory::format(&mut words, Edition::Pages256).unwrap();
    assert_eq!(memory.create_partition([256, 512, 768, 1024, 1280]), Ok(0));
    assert_eq!(memory.page_count(256, 4096), Ok(3));
    assert_eq!(memory.store(1536, 1792), Ok(0));
    assert_eq!(memory.store(1792, 2048), Ok(0));
    assert_eq!(memory.prepare(256, 4096, 1536), Ok(0));
    assert_eq!(memory.add_vaddr(2304, 256, 4096, READ | WRITE), Ok(0));
    assert_eq!(memory.mapped_in_child(2304), Ok(256));
    assert_eq!(memory.store(256, 1), Err(Refusal::Kernel));
    assert_eq!(memory.enter(256), Ok(0));
    assert_eq!(memory.store(4100, 77), Ok(0));
    assert_eq!(memory.leave(), Ok(0));
    assert_eq!(memory.load(2308), Ok(77));
    assert_eq!(memory.remove_vaddr(256, 4096), Ok(2304));
    assert_eq!(memory.collect(256, 4096), Ok(1536));
    assert_eq!(memory.delete_partition(256), Ok(0));
}

/// The morning as far as the page that is lent.
fn page_lent(words: &mut [u32]) -> Memory<'_> {
    let mut memory = Memory::format(words, Edition::Pages256).unwrap();
    memory.create_partition([256, 512, 768, 1024, 1280]).unwrap();
    memory.store(1536, 1792).unwrap();
    memory.store(1792, 2048).unwrap();
    memory.prepare(256, 4096, 1536).unwrap();
    memory.add_vaddr(2304, 256, 4096, READ | WRITE).unwrap();
    memory
}

/// The child's page table word for 4096 is 4367 once the page is lent: the words are those of document 01.
#[test]
fn the_words_of_the_morning() {
    let mut words = [0; 20 * PAGE_WORDS];
    let memory = page_lent(&mut words);
    // Page 1536 of the root is page 14 of the memory, the child's page table; virtual page 16 is its word 16.
    assert_eq!(memory.words()[14 * PAGE_WORDS + 16], 4367);
}

/// Document 02, L2: the child's five pages and three tables, the page lent to it, two in hand, and none.
#[test]
fn what_mapped_in_child_tells() {
    let mut words = [0; 20 * PAGE_WORDS];
    let memory = page_lent(&mut words);
    let before = memory.words().to_vec();
    for page in 1..=8 {
        assert_eq!(memory.mapped_in_child(256 * page), Err(Refusal::Kernel));
    }
    assert_eq!(memory.mapped_in_child(2304), Ok(256));
    assert_eq!(memory.mapped_in_child(2560), Ok(0));
    assert_eq!(memory.mapped_in_child(2816), Ok(0));
    assert_eq!(memory.mapped_in_child(3072), Err(Refusal::Unmapped));
    assert_eq!(memory.words(), before);
}
