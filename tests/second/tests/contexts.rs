//! Document 02, L8: notify, dispatch and resume by hand, with every refusal and every row of flags.

mod common;
use common::*;
use second::calls::{perform, Answer, Said};
use second::contexts::{Context, CONTEXT_WORDS};
use second::geometry::{Edition, LARGE, SMALL};
use second::memory::{CURRENT, FLAG};
use second::sound::{broken, sound};

/// The address of a child's slot page.
const SLOTS: u32 = 0xFFF00;
const NONE: Context = [0; CONTEXT_WORDS];

/// The root of 40 pages, whose slot page is 39, with a child at 256 (page 9) that has its slot page (17) at 0xFFF00.
fn with_child() -> Vec<u32> {
    let mut mem = formatted(40);
    pass(&mut mem, &[&[1, 256, 512, 768, 1024, 1280]]);
    assert_eq!(furnish(&mut mem, 256, SLOTS, [1536, 1792, 2048]), Ok(0));
    pass(&mut mem, &[&[3, 2304, 256, SLOTS, 3]]);
    mem
}

/// The same, and the child's own child at 0xFE000 (page 18) with its slot page (26); the child (page 9) is current.
fn with_grandchild() -> Vec<u32> {
    let mut mem = with_child();
    for place in 0..12 {
        pass(&mut mem, &[&[3, 2560 + 256 * place, 256, 0xFE000 + 256 * place, 3]]);
    }
    pass(&mut mem, &[&[9, 256], &[1, 0xFE000, 0xFE100, 0xFE200, 0xFE300, 0xFE400]]);
    assert_eq!(furnish(&mut mem, 0xFE000, SLOTS, [0xFE500, 0xFE600, 0xFE700]), Ok(0));
    pass(&mut mem, &[&[3, 0xFE800, 0xFE000, SLOTS, 3]]);
    mem
}

fn notify(mem: &mut [u32], target: u32, eip: u32, eflags: u32, first: u32) -> Answer {
    let mut line = vec![13, target, eip, eflags];
    line.extend(first..first + 8);
    say(mem, &line)
}

fn resume(mem: &mut [u32], target: u32, slot: u32) -> Result<Context, u32> {
    let Said { answer, context } = perform(mem, 15, &[target, slot]).unwrap();
    let context = context.unwrap();
    assert!(answer.is_ok() || context == NONE);
    answer.map(|zero| {
        assert_eq!(zero, 0);
        context
    })
}

fn context(eip: u32, pipflags: u32, eflags: u32, first: u32) -> Context {
    std::array::from_fn(|index| match index {
        0 => eip,
        1 => pipflags,
        2 => eflags,
        _ => first + index as u32 - 3,
    })
}

/// The flags of these descriptor pages.
fn flags<const K: usize>(mem: &[u32], pages: [usize; K]) -> [u32; K] {
    pages.map(|page| mem[64 * page + FLAG])
}

fn set_flags<const K: usize>(mem: &mut [u32], pages: [usize; K], flags: [u32; K]) {
    pages.into_iter().zip(flags).for_each(|(page, flag)| mem[64 * page + FLAG] = flag);
}

fn current(mem: &[u32]) -> usize {
    mem[CURRENT] as usize / 256
}

/// The sixteen words of a slot.
fn slot(mem: &[u32], page: usize, slot: usize) -> &[u32] {
    &mem[64 * page + 16 * slot..][..16]
}

#[test]
fn by_hand() {
    let mut mem = with_child();
    assert_eq!(notify(&mut mem, 256, 100, 200, 1), Ok(0));
    assert_eq!(mem[64 * 39 + 32..64 * 39 + 44], [100, 0, 200, 1, 2, 3, 4, 5, 6, 7, 8, 1]);
    assert_eq!((flags(&mem, [1, 9]), current(&mem)), ([0, 1], 9));
    assert_eq!(notify(&mut mem, 0, 7, 8, 11), Ok(0));
    assert_eq!(mem[64 * 17 + 48..64 * 17 + 60], [7, 1, 8, 11, 12, 13, 14, 15, 16, 17, 18, 1]);
    assert_eq!((flags(&mem, [1, 9]), current(&mem)), ([1, 1], 1));
    assert_eq!(resume(&mut mem, 256, 3), Ok([7, 1, 8, 11, 12, 13, 14, 15, 16, 17, 18]));
    assert_eq!((flags(&mem, [1, 9]), current(&mem)), ([0, 1], 9));
    assert_eq!(slot(&mem, 17, 3)[11], 0);
    assert_eq!(resume(&mut mem, 0, 2), Ok([100, 0, 200, 1, 2, 3, 4, 5, 6, 7, 8]));
    assert_eq!((flags(&mem, [1, 9]), current(&mem)), ([0, 0], 1));
    assert_eq!(slot(&mem, 39, 2)[11], 0);
    pass(&mut mem, &[&[9, 256]]);
    assert_eq!(resume(&mut mem, 0, 2), Ok(NONE));
    assert_eq!((flags(&mem, [1, 9]), current(&mem)), ([1, 0], 1));
    pass(&mut mem, &[&[14, 256]]);
    assert_eq!((flags(&mem, [1, 9]), current(&mem)), ([0, 1], 9));
    pass(&mut mem, &[&[14, 0]]);
    assert_eq!((flags(&mem, [1, 9]), current(&mem)), ([1, 1], 1));
    assert_eq!(sound(&mem), Ok(()));
}

/// A call of the child of `with_grandchild`, from each setting of the flags of the root, the child and the grandchild (pages 1, 9 and 18): what it leaves of
/// these, and who is current.
fn row(prepared: &dyn Fn(&mut [u32]), line: &[u32], after: impl Fn([u32; 3]) -> ([u32; 3], usize)) {
    let mut mem = with_grandchild();
    prepared(&mut mem);
    for setting in 0..8u32 {
        let before = [setting & 1, setting >> 1 & 1, setting >> 2];
        let mut mem = mem.clone();
        set_flags(&mut mem, [1, 9, 18], before);
        assert!(say(&mut mem, line).is_ok(), "{line:?}");
        assert_eq!((flags(&mem, [1, 9, 18]), current(&mem)), after(before), "{line:?}");
        assert_eq!(sound(&mem), Ok(()));
    }
}

#[test]
fn every_row_of_flags() {
    const CHILD: u32 = 0xFE000;
    let plain = |_: &mut [u32]| ();
    let to_child = [13, CHILD, 1, 2, 3, 4, 5, 6, 7, 8, 9, 10];
    let to_parent = [13, 0, 1, 2, 3, 4, 5, 6, 7, 8, 9, 10];
    row(&plain, &[14, CHILD], |[root, _, _]| ([root, 0, 1], 18));
    row(&plain, &[14, 0], |[_, own, below]| ([1, own, below], 1));
    row(&plain, &to_child, |[root, _, _]| ([root, 0, 1], 18));
    row(&plain, &to_parent, |[_, own, below]| ([1, own, below], 1));
    row(&plain, &[9, CHILD], |before| (before, 18));
    row(&plain, &[10], |before| (before, 1));
    // Saved pipflags of all bits but bit 0, and of bit 0 alone among others.
    for (pipflags, flag) in [(0, 0), (1, 1), (0xFFFF_FFFE, 0), (0x8000_0003, 1)] {
        for number in 0..4 {
            let saved = |mem: &mut [u32]| {
                mem[64 * 26 + 16 * number + 1] = pipflags;
                mem[64 * 26 + 16 * number + 11] = 1;
            };
            row(&saved, &[15, CHILD, number as u32], |[root, _, _]| ([root, 0, flag], 18));
        }
        let saved = |mem: &mut [u32]| {
            mem[64 * 39 + 33] = pipflags;
            mem[64 * 39 + 43] = 1;
        };
        row(&saved, &[15, 0, 2], |[_, _, below]| ([flag, 0, below], 1));
    }
    // The parent's slot isn't valid: of the root's child, and of the grandchild, whose parent's flag stays.
    for valid in [0, 2, 3] {
        row(&|mem: &mut [u32]| mem[64 * 39 + 43] = valid, &[15, 0, 2], |[_, _, below]| ([1, 0, below], 1));
        let within = |mem: &mut [u32]| {
            mem[64 * 17 + 43] = valid;
            mem[CURRENT] = 256 * 18;
        };
        row(&within, &[15, 0, 2], |[_, own, _]| ([1, own, 0], 1));
    }
}

#[test]
fn what_a_slot_keeps() {
    let mut mem = with_grandchild();
    for index in 0..64 {
        mem[64 * 17 + index] = 1000 + index as u32;
        mem[64 * 26 + index] = 2000 + index as u32;
    }
    set_flags(&mut mem, [9], [1]);
    let before = mem.clone();
    // Padding stays, and the other slots; an older valid context is overwritten, and the old flag saved.
    mem[64 * 17 + 43] = 1;
    assert_eq!(notify(&mut mem, 0xFE000, 5, 6, 70), Ok(0));
    assert_eq!(slot(&mem, 17, 2)[..11], context(5, 1, 6, 70));
    assert_eq!(slot(&mem, 17, 2)[11..], [1, 1044, 1045, 1046, 1047]);
    for other in [0, 1, 3] {
        assert_eq!(slot(&mem, 17, other), slot(&before, 17, other));
    }
    assert_eq!(mem[64 * 26..64 * 27], before[64 * 26..64 * 27]);
    // Resume of the grandchild's slots by its parent: 22 with any word but 1, and only valid changes.
    pass(&mut mem, &[&[10]]);
    for number in 0..4 {
        for valid in [0, 2, 3, u32::MAX] {
            mem[64 * 26 + 16 * number + 11] = valid;
            let same = mem.clone();
            assert_eq!(resume(&mut mem, 0xFE000, number as u32), Err(22));
            assert_eq!(mem, same);
        }
        mem[64 * 26 + 16 * number + 11] = 1;
        let first = 2000 + 16 * number as u32;
        let saved: Context = std::array::from_fn(|index| first + index as u32);
        assert_eq!(resume(&mut mem, 0xFE000, number as u32), Ok(saved));
        let mut slot_before = slot(&before, 26, number).to_vec();
        slot_before[11] = 0;
        assert_eq!(slot(&mem, 26, number), slot_before);
        pass(&mut mem, &[&[10]]);
    }
    // A valid slot of zeros is answered like a yield, but the parent is current.
    mem[64 * 17 + 32..64 * 17 + 43].fill(0);
    mem[64 * 17 + 43] = 1;
    pass(&mut mem, &[&[9, 0xFE000]]);
    assert_eq!(resume(&mut mem, 0, 2), Ok(NONE));
    assert_eq!((flags(&mem, [1, 9, 18]), current(&mem)), ([0, 0, 0], 9));
    // One that isn't valid stays as it is.
    mem[64 * 17 + 43] = 2;
    pass(&mut mem, &[&[9, 0xFE000]]);
    assert_eq!(resume(&mut mem, 0, 2), Ok(NONE));
    assert_eq!((flags(&mem, [1, 9, 18]), current(&mem)), ([1, 0, 0], 1));
    assert_eq!(mem[64 * 17 + 43], 2);
}

/// Each of the three calls, refused, leaves every word.
fn refused(mem: &[u32], line: &[u32], refusal: u32) {
    let mut copy = mem.to_vec();
    assert_eq!(say(&mut copy, line), Err(refusal), "{line:?}");
    assert_eq!(copy, mem, "{line:?}");
}

/// Notify, dispatch and resume of slot 2 to this target.
fn three_to(target: u32) -> [Vec<u32>; 3] {
    [vec![13, target, 1, 2, 3, 4, 5, 6, 7, 8, 9, 10], vec![14, target], vec![15, target, 2]]
}

#[test]
fn refusals_in_order() {
    let mem = with_grandchild();
    // 1 before all, 24 before 3 and 5.
    let mut damaged = mem.clone();
    damaged[64 * 9 + FLAG] = 2;
    let large = formatted_as(LARGE, 40);
    for line in [0, 4, 0xFE000, 300, 1 << 20].into_iter().flat_map(three_to) {
        refused(&damaged, &line, 1);
        refused(&large, &line, 24);
    }
    refused(&large, &[15, 4, 9], 24);
    // 3 for every bad address but 0: on page 0, beyond the end, no multiple of 256.
    for line in [4, 128, 255, 1 << 20, u32::MAX, 0xFFFF_FF00, 0xFE001, 0xFE080].into_iter().flat_map(three_to) {
        refused(&mem, &line, 3);
    }
    refused(&mem, &[15, 4, 9], 3);
    // 5 for what is no child's descriptor: a page in hand, one of the child's other pages, one that is not mapped, a descriptor of the caller's parent.
    for line in [0xFE900, 0xFE100, 0x40000, 256, SLOTS].into_iter().flat_map(three_to) {
        refused(&mem, &line, 5);
    }
    refused(&mem, &[15, 0xFE900, 9], 5);
    // 14 for the root's parent.
    let mut at_root = mem.clone();
    pass(&mut at_root, &[&[10]]);
    for line in three_to(0) {
        refused(&at_root, &line, 14);
    }
    refused(&at_root, &[15, 0, 9], 14);
    // 21 for slots above 3, and for the parent's but 2; before 20 and 22.
    let mut without = mem.clone();
    pass(&mut without, &[&[4, 0xFE000, SLOTS]]);
    for slot in [4, 5, 256, u32::MAX] {
        refused(&mem, &[15, 0xFE000, slot], 21);
        refused(&without, &[15, 0xFE000, slot], 21);
        refused(&mem, &[15, 0, slot], 21);
    }
    for slot in [0, 1, 3] {
        refused(&mem, &[15, 0, slot], 21);
    }
    // 20 before 22; and 22.
    for slot in 0..4 {
        refused(&without, &[15, 0xFE000, slot], 20);
        refused(&mem, &[15, 0xFE000, slot], 22);
    }
    // Notify and dispatch ask nothing of the target's slot page, nor does dispatch of the caller's.
    for line in &three_to(0xFE000)[..2] {
        pass(&mut without.clone(), &[line]);
    }
    pass(&mut without, &[&[9, 0xFE000]]);
    refused(&without, &three_to(0)[0], 20);
    pass(&mut without, &[&[14, 0]]);
}

#[test]
fn slot_pages() {
    // The slot page of page 9, asked for by its own notify, by its child's resume and by its parent's.
    let asked = |mem: &[u32], refusal: u32| {
        refused(mem, &three_to(0xFE000)[0], refusal);
        refused(mem, &three_to(0)[0], refusal);
        let mut from = mem.to_vec();
        pass(&mut from, &[&[9, 0xFE000]]);
        refused(&from, &[15, 0, 2], refusal);
        let mut from = mem.to_vec();
        pass(&mut from, &[&[10]]);
        refused(&from, &[15, 256, 1], refusal);
    };
    let mem = with_grandchild();
    // Lent away, at any address of the child.
    let mut lent = mem.clone();
    pass(&mut lent, &[&[3, SLOTS, 0xFE000, 0xFF000, 3]]);
    asked(&lent, 20);
    // Removed, and given with fewer rights.
    for rights in [None, Some(0), Some(1), Some(2), Some(4), Some(5)] {
        let mut other = mem.clone();
        pass(&mut other, &[&[10], &[4, 256, SLOTS]]);
        if let Some(rights) = rights {
            pass(&mut other, &[&[3, 2304, 256, SLOTS, rights]]);
        }
        pass(&mut other, &[&[9, 256]]);
        asked(&other, 20);
    }
    // Taken as one of five or of three, and wiped; given back by delete and collect.
    for place in 0..5 {
        let mut taken = mem.clone();
        pass(&mut taken, &[&[10], &[3, 0x1600, 256, 0xFEC00, 3], &[9, 256]]);
        pass(&mut taken, &[&[12, SLOTS + 4 * 27, 1]]);
        let mut five = [0xFE900, 0xFEA00, 0xFEB00, 0xFEC00, 0];
        five[4] = five[place];
        five[place] = SLOTS;
        pass(&mut taken, &[&[&[1][..], &five].concat()]);
        asked(&taken, 20);
        pass(&mut taken, &[&[2, five[0]]]);
        pass(&mut taken.clone(), &[&three_to(0)[0]]);
        pass(&mut taken, &[&[10]]);
        refused(&taken, &[15, 256, 1], 22);
    }
    for place in 0..3 {
        let mut taken = mem.clone();
        let mut three = [0xFE900, 0xFEA00, 0];
        three[2] = three[place.min(1)];
        three[place] = SLOTS;
        assert_eq!(furnish(&mut taken, 0xFE000, 0x4000, three), Ok(0));
        asked(&taken, 20);
        pass(&mut taken, &[&[7, 0xFE000, 0x4000]]);
        pass(&mut taken, &[&three_to(0)[0]]);
    }
    // What an ancestor holds does not matter, and execute is not asked.
    pass(&mut mem.clone(), &[&three_to(0xFE000)[0]]);
    // The root's is its last flat page.
    let mut root = mem;
    pass(&mut root, &[&[10], &[3, 0x1F00, 256, 0xFEC00, 3]]);
    refused(&root, &three_to(256)[0], 20);
    pass(&mut root, &[&[9, 256]]);
    refused(&root, &[15, 0, 2], 20);
}

#[test]
fn the_judge_allows_the_flag() {
    let (mem, large) = (with_child(), {
        let mut mem = formatted_as(LARGE, 40);
        down_with(LARGE, &mut mem, 4096, &[3]);
        mem
    });
    let changed = |mem: &[u32], page: usize, index: usize, value: u32| {
        let mut copy = mem.to_vec();
        copy[page * Edition::of(mem).page_words() + index] = value;
        broken(&copy)
    };
    for page in [1, 9] {
        assert!(changed(&mem, page, FLAG, 1).is_empty());
        for flag in [2, 3, u32::MAX, 256] {
            assert_eq!(changed(&mem, page, FLAG, flag), [1]);
        }
        for flag in [1, 2] {
            assert_eq!(changed(&large, page, FLAG, flag), [1]);
        }
    }
    for index in 13..64 {
        assert_eq!(changed(&mem, 9, index, 1), [1]);
        assert_eq!(changed(&mem, 1, index, 1), [1, 2]);
    }
    assert_eq!(changed(&large, 9, 1023, 1), [1]);
    // Create and delete leave no flag; format neither.
    let mut mem = mem;
    set_flags(&mut mem, [1, 9], [1, 1]);
    assert_eq!(sound(&mem), Ok(()));
    pass(&mut mem, &[&[2, 256], &[1, 256, 512, 768, 1024, 1280]]);
    assert_eq!(flags(&mem, [1, 9]), [1, 0]);
    pass(&mut mem, &[&[0, SMALL.number]]);
    assert_eq!(flags(&mem, [1]), [0]);
}
