//! Both editions: the page sizes, a change of edition, and the morning with pages of 4,096 bytes.
use tumashqin::{read_record, verdict, Edition, Memory, Refusal, READ, RECORD_BYTES, WRITE};

const BOTH: usize = 16_384;

#[test]
fn each_has_its_lengths() {
    for (edition, page, most) in [(Edition::Pages256, 64, 256), (Edition::Pages4096, 1024, 4096)] {
        assert_eq!((edition.page_words(), edition.page_bytes()), (page, 4 * page));
        for pages in [16, most] {
            let mut words = vec![7; pages * page];
            assert!(Memory::format(&mut words, edition).is_ok());
            assert_eq!((words[0] as usize, words[5]), (pages, edition as u32));
        }
        for length in [15 * page, 16 * page + 1, (most + 1) * page] {
            let mut words = vec![7; length];
            assert_eq!(Memory::format(&mut words, edition).unwrap_err(), Refusal::Size);
            assert_eq!(words, vec![7; length]);
        }
    }
}

#[test]
fn a_later_format_changes_the_edition() {
    let mut words = vec![0; BOTH];
    for (edition, end) in
        [(Edition::Pages256, 256 * 239), (Edition::Pages4096, 4096 * 8), (Edition::Pages256, 256 * 239)]
    {
        let memory = Memory::format(&mut words, edition).unwrap();
        let mut bytes = [0; RECORD_BYTES];
        memory.write_record(&[0; 64], &mut bytes).unwrap();
        let record = read_record(&bytes).unwrap();
        assert_eq!((record.begin, record.end), (edition.page_bytes() as u32, end));
    }
    words[5] = 1;
    assert_eq!(verdict(&words), Err(Refusal::Damaged));
    words[5] = 2;
    assert_eq!(verdict(&words), Err(Refusal::Damaged));
}

#[test]
fn a_morning_with_large_pages() {
    const PAGE: u32 = 4096;
    let mut words = vec![0; 20 * Edition::Pages4096.page_words()];
    let mut memory = Memory::format(&mut words, Edition::Pages4096).unwrap();
    assert_eq!(memory.create_partition([1, 2, 3, 4, 5].map(|page| page * PAGE)), Ok(0));
    assert_eq!(memory.page_count(PAGE, 16 * PAGE), Ok(3));
    assert_eq!(memory.store(6 * PAGE, 7 * PAGE), Ok(0));
    assert_eq!(memory.store(7 * PAGE, 8 * PAGE), Ok(0));
    assert_eq!(memory.prepare(PAGE, 16 * PAGE, 6 * PAGE), Ok(0));
    assert_eq!(memory.add_vaddr(9 * PAGE, PAGE, 16 * PAGE, READ | WRITE), Ok(0));
    assert_eq!(memory.mapped_in_child(9 * PAGE), Ok(PAGE));
    assert_eq!(memory.store(PAGE, 1), Err(Refusal::Kernel));
    assert_eq!(memory.enter(PAGE), Ok(0));
    assert_eq!(memory.store(16 * PAGE + 4, 77), Ok(0));
    assert_eq!(memory.leave(), Ok(0));
    assert_eq!(memory.load(9 * PAGE + 4), Ok(77));
    assert_eq!(memory.remove_vaddr(PAGE, 16 * PAGE), Ok(9 * PAGE));
    assert_eq!(memory.collect(PAGE, 16 * PAGE), Ok(6 * PAGE));
    assert_eq!(memory.delete_partition(PAGE), Ok(0));
}

#[test]
fn no_32_bit_address_is_too_large() {
    let mut words = vec![0; 16 * Edition::Pages4096.page_words()];
    let memory = Memory::format(&mut words, Edition::Pages4096).unwrap();
    assert_eq!(memory.load(u32::MAX - 3), Err(Refusal::Unmapped));
    assert_eq!(memory.mapped_in_child(0u32.wrapping_sub(4096)), Err(Refusal::Unmapped));
    assert_eq!(memory.load(4092), Err(Refusal::Address));
    assert_eq!(memory.mapped_in_child(4352), Err(Refusal::Address));
}
