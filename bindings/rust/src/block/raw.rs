//! The library's functions, as include/tumashqin_block.h declares them: a slice is a pointer and its number of elements.

extern "C" {
    pub fn tumashqin_block_format(words: *mut u32, length: usize) -> u64;
    pub fn tumashqin_block_create(words: *mut u32, length: usize, block: u32) -> u64;
    pub fn tumashqin_block_delete(words: *mut u32, length: usize, child: u32) -> u64;
    pub fn tumashqin_block_prepare(words: *mut u32, length: usize, partition: u32, block: u32) -> u64;
    pub fn tumashqin_block_collect(words: *mut u32, length: usize, partition: u32) -> u64;
    pub fn tumashqin_block_add(words: *mut u32, length: usize, child: u32, block: u32, rights: u32) -> u64;
    pub fn tumashqin_block_remove(words: *mut u32, length: usize, child: u32, block: u32) -> u64;
    pub fn tumashqin_block_cut(words: *mut u32, length: usize, block: u32, address: u32) -> u64;
    pub fn tumashqin_block_merge(words: *mut u32, length: usize, first: u32, second: u32) -> u64;
    pub fn tumashqin_block_enable(words: *mut u32, length: usize, partition: u32, block: u32, on: u32) -> u64;
    pub fn tumashqin_block_read_enabled(
        words: *const u32,
        length: usize,
        partition: u32,
        entry: u32,
        out: *mut u32,
        out_length: usize,
    ) -> u64;
    pub fn tumashqin_block_find(
        words: *const u32,
        length: usize,
        partition: u32,
        address: u32,
        out: *mut u32,
        out_length: usize,
    ) -> u64;
    pub fn tumashqin_block_enter(words: *mut u32, length: usize, child: u32) -> u64;
    pub fn tumashqin_block_leave(words: *mut u32, length: usize) -> u64;
    pub fn tumashqin_block_verdict(words: *const u32, length: usize) -> u64;
}
