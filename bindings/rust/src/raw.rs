//! The library's functions, as include/tumashqin.h declares them: a slice is a pointer and its number of elements.

extern "C" {
    pub fn tumashqin_format(words: *mut u32, length: usize, edition: u32) -> u32;
    pub fn tumashqin_create_partition(
        words: *mut u32,
        length: usize,
        descriptor: u32,
        directory: u32,
        shadow1: u32,
        shadow2: u32,
        list: u32,
    ) -> u64;
    pub fn tumashqin_delete_partition(words: *mut u32, length: usize, child: u32) -> u64;
    pub fn tumashqin_add_vaddr(words: *mut u32, length: usize, page: u32, child: u32, target: u32, rights: u32) -> u64;
    pub fn tumashqin_remove_vaddr(words: *mut u32, length: usize, child: u32, target: u32) -> u64;
    pub fn tumashqin_page_count(words: *const u32, length: usize, child: u32, target: u32) -> u64;
    pub fn tumashqin_prepare(words: *mut u32, length: usize, child: u32, target: u32, first: u32) -> u64;
    pub fn tumashqin_collect(words: *mut u32, length: usize, child: u32, target: u32) -> u64;
    pub fn tumashqin_mapped_in_child(words: *const u32, length: usize, page: u32) -> u64;
    pub fn tumashqin_enter(words: *mut u32, length: usize, child: u32) -> u64;
    pub fn tumashqin_leave(words: *mut u32, length: usize) -> u64;
    pub fn tumashqin_load(words: *const u32, length: usize, address: u32) -> u64;
    pub fn tumashqin_store(words: *mut u32, length: usize, address: u32, word: u32) -> u64;
    pub fn tumashqin_notify(
        words: *mut u32,
        length: usize,
        target: u32,
        eip: u32,
        eflags: u32,
        r0: u32,
        r1: u32,
        r2: u32,
        r3: u32,
        r4: u32,
        r5: u32,
        r6: u32,
        r7: u32,
    ) -> u64;
    pub fn tumashqin_dispatch(words: *mut u32, length: usize, target: u32) -> u64;
    pub fn tumashqin_resume(
        words: *mut u32,
        length: usize,
        target: u32,
        slot: u32,
        out: *mut u32,
        out_length: usize,
    ) -> u64;
    pub fn tumashqin_verdict(words: *const u32, length: usize) -> u32;
    pub fn tumashqin_write_record(
        words: *const u32,
        length: usize,
        revision: *const u8,
        revision_length: usize,
        out: *mut u8,
        out_length: usize,
    ) -> u32;
    pub fn tumashqin_record_refusal(bytes: *const u8, length: usize) -> u32;
    pub fn tumashqin_record_begin(bytes: *const u8, length: usize) -> u32;
    pub fn tumashqin_record_end(bytes: *const u8, length: usize) -> u32;
    pub fn tumashqin_record_revision_length(bytes: *const u8, length: usize) -> usize;
}
