//! The start-up record's writer and reader.

mod common;
use common::*;
use second::record::*;

fn revision_bytes() -> Vec<u8> {
    (0..70).map(|k| k ^ 0x5A).collect()
}

#[test]
fn writer() {
    let mem = formatted(20);
    let mut buffer = [0xEE; 80];
    assert_eq!(write(&mem, &revision_bytes(), &mut buffer), Ok(0));
    assert_eq!(buffer[..12], [0xFE, 0xCA, 0xAD, 0xDE, 0, 1, 0, 0, 0, 12, 0, 0]);
    assert_eq!(buffer[12..76], revision_bytes()[..64]);
    assert_eq!(buffer[76..], [0xEE; 4]);
}

#[test]
fn writer_refusals() {
    let mut mem = formatted(20);
    let mut buffer = [0xEE; 76];
    assert_eq!(write(&mem, &[0; 63], &mut buffer), Err(17));
    assert_eq!(write(&mem, &[0; 64], &mut buffer[..75]), Err(17));
    mem[5] = 1;
    assert_eq!(write(&mem, &[0; 63], &mut buffer), Err(1));
    assert_eq!(buffer, [0xEE; 76]);
}

#[test]
fn reader() {
    let mut record = [0; 90];
    write(&formatted(256), &revision_bytes(), &mut record).unwrap();
    for bytes in [&record[..], &record[..76]] {
        assert_eq!(read(bytes), Extent { answer: Ok(0), begin: 256, end: 256 * 239 });
        assert_eq!(revision(bytes).as_ptr_range(), record[12..76].as_ptr_range());
    }
    // Equal begin and end pass.
    record[4..8].copy_from_slice(&(256 * 239u32).to_le_bytes());
    assert_eq!(read(&record), Extent { answer: Ok(0), begin: 256 * 239, end: 256 * 239 });
}

#[test]
fn reader_refusals() {
    let refused = |refusal| Extent { answer: Err(refusal), begin: 0, end: 0 };
    let mut record = [0; 76];
    write(&formatted(16), &revision_bytes(), &mut record).unwrap();
    for (length, refusal) in [(0, 17), (75, 17)] {
        assert_eq!(read(&record[..length]), refused(refusal));
        assert!(revision(&record[..length]).is_empty());
    }
    for (at, value) in [(0, 0xFF), (1, 0), (2, 0), (3, 0), (7, 1)] {
        let mut wrong = record;
        wrong[at] = value;
        assert_eq!(read(&wrong), refused(18));
        assert!(revision(&wrong).is_empty());
        assert_eq!(read(&wrong[..75]), refused(17));
    }
}
