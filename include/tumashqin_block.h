/* Tumashqin's block kernel, for small controllers: memory parted into blocks, which are runs of bytes, over lent memory of 32-bit words.
 *
 * The functions are those of the crate `block_exports`, which are proved against the kernel's rules, docs/BLOCKS.md; `rt lib` in crates/block_exports writes
 * the archive, crates/block_exports/out/libblock_exports.a, for x86-64. It calls memcpy and memset of the C library and nothing else. What tumashqin.h says
 * of slices and threads holds here too; the archive of that header is not needed, unless its functions are called.
 *
 * Stack. No call takes 4 KiB. The most measured is 2,984 bytes, by delete; it is the same on every tree, since no function calls itself. This was measured
 * for every call on trees of several shapes and on damaged memory (tests/bench), and is not proved.
 *
 * Memory. TUMASHQIN_BLOCK_KIB_WORDS words for each KiB, and each whole number of KiB from 16 to 64 is permitted. Byte x is in word x / 4, the lowest byte
 * first. An address is the number of a byte, and may be any.
 *
 * Blocks. A partition has blocks in its pool. It cuts them and merges what it cut, lends them to its children, and gives some to the kernel, in which a child's
 * descriptor or a structure then stands. A structure has slots for eight blocks, and a partition may have 16. A block has a number in its pool, 8 to 135, which
 * it keeps; 0 means none. A block is in hand where it is neither lent nor given to the kernel; only then it is accessible, and may be cut, merged, lent, given
 * to the kernel or enabled. A partition has eight entries, 1 to 8, for blocks that are enabled; a port copies them to the hardware's registers.
 *
 * Names. A block is named by its number in the caller's pool, unless said. A child is named by the number of the block that its descriptor stands in. A
 * partition is 0 for the caller itself, or a child.
 *
 * Answers. The caller of every call is the current partition; format makes the root current. Every function answers one number, which tumashqin_refusal_of and
 * tumashqin_word_of of tumashqin.h take apart: the refusal's number, and the word of a call that is done, 0 unless said. A call that refuses changes no word.
 */
#ifndef TUMASHQIN_BLOCK_H
#define TUMASHQIN_BLOCK_H

#include "tumashqin.h"

#ifdef __cplusplus
extern "C" {
#endif

/* Why a call was refused. A call gives the first that applies, in the order that its comment below names. */
enum tumashqin_block_refusal {
    TUMASHQIN_BLOCK_DONE = 0,      /* no refusal */
    TUMASHQIN_BLOCK_DAMAGED = 1,   /* memory not sound */
    TUMASHQIN_BLOCK_CHILD = 2,     /* no such child; a partition is 0 or a child */
    TUMASHQIN_BLOCK_BLOCK = 3,     /* no such block in the pool, or not in hand (remove: not lent to the child; then: not in the child's hand) */
    TUMASHQIN_BLOCK_RIGHTS = 4,    /* a right that the block has not, or a number above 7 */
    TUMASHQIN_BLOCK_PIECE = 5,     /* the address is outside the block, or leaves less than 32 bytes below or above it */
    TUMASHQIN_BLOCK_APART = 6,     /* not two pieces side by side that were cut apart */
    TUMASHQIN_BLOCK_UNMERGED = 7,  /* the child has cut the block and not merged it */
    TUMASHQIN_BLOCK_SLOT = 8,      /* no free slot in the child (add), in the caller (cut) */
    TUMASHQIN_BLOCK_STRUCTURE = 9, /* no room in the block for 32 words (create) or 74 (prepare), or the partition has 16 structures */
    TUMASHQIN_BLOCK_ENABLED = 10,  /* eight other blocks are enabled */
    TUMASHQIN_BLOCK_EMPTY = 11,    /* no structure of the partition has eight free slots */
    TUMASHQIN_BLOCK_ROOT = 12,     /* the root leaves */
    TUMASHQIN_BLOCK_LENGTH = 13    /* format: the length is not permitted */
};

/* The uses of a block. Its rights are TUMASHQIN_READ, TUMASHQIN_WRITE and TUMASHQIN_EXECUTE, added. */
enum { TUMASHQIN_BLOCK_IN_HAND = 1, TUMASHQIN_BLOCK_LENT = 2, TUMASHQIN_BLOCK_HAS_DESCRIPTOR = 3, TUMASHQIN_BLOCK_HAS_STRUCTURE = 4 };

/* Words of a KiB, and of a block that is told. */
enum { TUMASHQIN_BLOCK_KIB_WORDS = 256, TUMASHQIN_BLOCK_TOLD_WORDS = 6 };

/* A block as it is told, in the order of its six words. `end` is the byte after its last. `child` is the child that a lent block is lent to, or the child
 * whose structure stands in the block, and else 0. */
struct tumashqin_block {
    uint32_t number, start, end, rights, usage, child;
};

/* 0. Format: wipes all words, writes the header and the root partition, and leaves all other bytes in the root's hand as block 8, with all rights and enabled.
 * Root is current. It asks nothing of what the words held. Refusal: LENGTH. */
uint64_t tumashqin_block_format(uint32_t *words, size_t length);

/* 1. Makes a child, whose descriptor stands in the block and whose name is the block's number. Refusals: DAMAGED, BLOCK, STRUCTURE. */
uint64_t tumashqin_block_create(uint32_t *words, size_t length, uint32_t block);

/* 2. Ends a child, and all below it. The block that it stood in, the blocks lent to it and those given for its structures come back to the caller's hand. The
 * descriptors and structures of the partitions that end are wiped; all other bytes stay. Refusals: DAMAGED, CHILD. */
uint64_t tumashqin_block_delete(uint32_t *words, size_t length, uint32_t child);

/* 3. Takes a block of the caller for a structure of the partition: slots for eight blocks. Refusals: DAMAGED, CHILD, BLOCK, STRUCTURE. */
uint64_t tumashqin_block_prepare(uint32_t *words, size_t length, uint32_t partition, uint32_t block);

/* 4. Wipes the partition's first structure whose eight slots are free, and gives the block that it stood in back. Its word is the block's number if it is in
 * the caller's pool, else 0. Refusals: DAMAGED, CHILD, EMPTY. */
uint64_t tumashqin_block_collect(uint32_t *words, size_t length, uint32_t partition);

/* 5. Lends a block to a child, with these rights. Its word is the block's number in the child. Refusals: DAMAGED, CHILD, BLOCK, RIGHTS, SLOT. */
uint64_t tumashqin_block_add(uint32_t *words, size_t length, uint32_t child, uint32_t block, uint32_t rights);

/* 6. Takes a lent block back from a child, which has it whole and in hand.
 * Refusals: DAMAGED, CHILD, BLOCK (not lent to the child), UNMERGED, BLOCK (not in the child's hand). */
uint64_t tumashqin_block_remove(uint32_t *words, size_t length, uint32_t child, uint32_t block);

/* 7. Cuts a block in two at the address, which is the upper's first byte. The lower keeps the number; the call's word is the upper's.
 * Refusals: DAMAGED, BLOCK, PIECE, SLOT. */
uint64_t tumashqin_block_cut(uint32_t *words, size_t length, uint32_t block, uint32_t address);

/* 8. Makes one block of two that were cut apart and lie side by side, named in either order. Its word is the lower's number, which the block keeps.
 * Refusals: DAMAGED, BLOCK, APART. */
uint64_t tumashqin_block_merge(uint32_t *words, size_t length, uint32_t first, uint32_t second);

/* 9. Disables a block of the partition's pool where `on` is 0, else enables it in the lowest free entry, unless it is enabled. Its word is the block's entry,
 * or 0. Refusals: DAMAGED, CHILD, BLOCK, ENABLED. */
uint64_t tumashqin_block_enable(uint32_t *words, size_t length, uint32_t partition, uint32_t block, uint32_t on);

/* 10. Tells the block in an entry of the partition, which has none but 1 to 8. Its word is 1 where there is one, and 0 for none. The block's six words, in the
 * order of struct tumashqin_block, go to `out`; they are 0 for none and where the call is refused. An `out` of fewer words gets as many as it has; words past
 * the sixth stay. Refusals: DAMAGED, CHILD. */
uint64_t tumashqin_block_read_enabled(const uint32_t *words, size_t length, uint32_t partition, uint32_t entry, uint32_t *out, size_t out_length);

/* 11. Tells the block of the partition's pool that has the byte of the address, as read_enabled tells one. Refusals: DAMAGED, CHILD. */
uint64_t tumashqin_block_find(const uint32_t *words, size_t length, uint32_t partition, uint32_t address, uint32_t *out, size_t out_length);

/* 12. The child is current. Refusals: DAMAGED, CHILD. */
uint64_t tumashqin_block_enter(uint32_t *words, size_t length, uint32_t child);

/* 13. The parent is current. Refusals: DAMAGED, ROOT. */
uint64_t tumashqin_block_leave(uint32_t *words, size_t length);

/* The verdict of a memory: done where it is sound, else DAMAGED. Every call but format asks this first. */
uint64_t tumashqin_block_verdict(const uint32_t *words, size_t length);

/* The six words that a call told, as a block. */
static inline struct tumashqin_block tumashqin_block_of(const uint32_t *six)
{
    struct tumashqin_block block = {six[0], six[1], six[2], six[3], six[4], six[5]};
    return block;
}

/* Read enabled, with the six words as a block: all 0 for none and where it is refused. */
static inline uint64_t tumashqin_block_read_enabled_block(const uint32_t *words, size_t length, uint32_t partition, uint32_t entry,
                                                          struct tumashqin_block *block)
{
    uint32_t out[TUMASHQIN_BLOCK_TOLD_WORDS];
    uint64_t answer = tumashqin_block_read_enabled(words, length, partition, entry, out, TUMASHQIN_BLOCK_TOLD_WORDS);
    *block = tumashqin_block_of(out);
    return answer;
}

/* Find, with the six words as a block. */
static inline uint64_t tumashqin_block_find_block(const uint32_t *words, size_t length, uint32_t partition, uint32_t address,
                                                  struct tumashqin_block *block)
{
    uint32_t out[TUMASHQIN_BLOCK_TOLD_WORDS];
    uint64_t answer = tumashqin_block_find(words, length, partition, address, out, TUMASHQIN_BLOCK_TOLD_WORDS);
    *block = tumashqin_block_of(out);
    return answer;
}

#ifdef __cplusplus
}
#endif

#endif
