//! The start-up record, written and read back.
use tumashqin::{
    read_record, record_begin, record_end, revision, Edition, Memory, Record, Refusal, PAGE_WORDS, RECORD_BYTES,
};

/// 1 to 65: the first 64 count.
const REVISION: [u8; 65] = {
    let mut bytes = [0; 65];
    let mut i = 0;
    while i < 65 {
        bytes[i] = i as u8 + 1;
        i += 1;
    }
    bytes
};

/// A record of 20 pages, of which 11 are the root's, with 4 bytes behind it.
fn written() -> [u8; RECORD_BYTES + 4] {
    let mut words = [0; 20 * PAGE_WORDS];
    let mut bytes = [9; RECORD_BYTES + 4];
    Memory::format(&mut words, Edition::Pages256).unwrap().write_record(&REVISION, &mut bytes).unwrap();
    bytes
}

#[test]
fn a_record_is_read_back() {
    let bytes = written();
    assert_eq!(bytes[..4], [0xFE, 0xCA, 0xAD, 0xDE]);
    assert_eq!(bytes[RECORD_BYTES..], [9; 4]);
    assert_eq!(read_record(&bytes), Ok(Record { begin: 256, end: 256 * 12, revision: &REVISION[..64] }));
    assert_eq!((record_begin(&bytes), record_end(&bytes), revision(&bytes)), (256, 256 * 12, &REVISION[..64]));
}

#[test]
fn the_revision_is_a_part_of_the_bytes() {
    let bytes = written();
    assert_eq!(revision(&bytes).as_ptr_range(), bytes[12..76].as_ptr_range());
}

#[test]
fn the_writer_refuses_and_writes_nothing() {
    let mut words = [0; 20 * PAGE_WORDS];
    let mut bytes = [9; RECORD_BYTES];
    assert_eq!(Memory::over(&mut words).write_record(&[], &mut bytes), Err(Refusal::Damaged));
    let memory = Memory::format(&mut words, Edition::Pages256).unwrap();
    assert_eq!(memory.write_record(&REVISION[..63], &mut bytes), Err(Refusal::Short));
    assert_eq!(memory.write_record(&REVISION, &mut bytes[..75]), Err(Refusal::Short));
    assert_eq!(bytes, [9; RECORD_BYTES]);
}

#[test]
fn the_reader_refuses_and_answers_zeros() {
    let good = written();
    let mut wrong_magic = good;
    wrong_magic[3] = 0;
    let mut begin_above_end = good;
    begin_above_end[7] = 1;
    for (bytes, refusal) in
        [(&good[..75], Refusal::Short), (&wrong_magic, Refusal::Magic), (&begin_above_end, Refusal::Magic)]
    {
        assert_eq!(read_record(bytes), Err(refusal));
        assert_eq!((record_begin(bytes), record_end(bytes), revision(bytes)), (0, 0, &[][..]));
    }
}
