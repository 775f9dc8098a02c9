/* Tumashqin: a memory-partition kernel over lent memory of 32-bit words.
 *
 * The functions are those of the crate `exports`, which are proved against the kernel's rules; `rt lib` in crates/exports writes the archive,
 * crates/exports/out/libexports.a, for x86-64. It calls memcpy and memset of the C library and nothing else.
 *
 * Slices. A slice is two arguments: a pointer to its first element, and its number of elements (words for uint32_t, bytes for uint8_t). The
 * pointer is aligned for its type. Where the number is 0 the pointer is not looked at, and NULL will do; else it is not NULL.
 * A function reads and writes nothing outside the given elements, keeps no pointer, allocates nothing, has no state of its own, and returns on
 * any contents and any arguments. A slice that is written (`words` and `out` without const) overlaps no other slice of the call.
 *
 * Threads. One call at a time on the same words: while a call runs, no other thread writes its slices, nor reads those that it writes.
 * Calls on different memories are independent.
 *
 * Stack. No call takes 4 KiB. The most measured is 3,544 bytes, by delete_partition on a tree eight levels deep, so that 552 are left; a level less takes
 * 224 bytes less. This was measured for every call at every depth, at both editions and on damaged memory (tests/bench), and is not proved.
 *
 * Memory. Format chooses the edition: pages of 256 bytes (64 words), 16 to 256 of them, and addresses below 2^20; or pages of 4,096 bytes (1,024 words), 16
 * to 4,096 of them, and any 32-bit address. The memory's header names it, and every other call goes by that; what is said of 256 bytes below is said of 4,096
 * in the second. Addresses are virtual, of the current partition, as plain numbers. The caller of every call is the current partition; format makes the root
 * current. A call that refuses changes no word and no byte.
 */
#ifndef TUMASHQIN_H
#define TUMASHQIN_H

#include <stddef.h>
#include <stdint.h>

#ifdef __cplusplus
extern "C" {
#endif

/* Why a call was refused. A call gives the first that applies, in the order that its comment below names. */
enum tumashqin_refusal {
    TUMASHQIN_DONE = 0,        /* no refusal */
    TUMASHQIN_DAMAGED = 1,     /* memory not sound */
    TUMASHQIN_SIZE = 2,        /* format: no such edition, or the length is not N of its pages with N 16 to 256 (16 to 4,096) */
    TUMASHQIN_ADDRESS = 3,     /* an address on page 0, past the edition's last, or not a multiple of 256 (load, store: of 4); a target 0 is the parent */
    TUMASHQIN_TWICE = 4,       /* two of the five equal */
    TUMASHQIN_CHILD = 5,       /* no child of the caller has its descriptor there */
    TUMASHQIN_RIGHTS = 6,      /* add_vaddr: write and execute together, or a number above 7; any call: a right that is not held */
    TUMASHQIN_HAND = 7,        /* page not in the caller's hand (remove_vaddr: not in the child's) */
    TUMASHQIN_TABLE = 8,       /* the child has no three of tables for the target */
    TUMASHQIN_TAKEN = 9,       /* target mapped, or its three exists (prepare) */
    TUMASHQIN_LIST = 10,       /* three absent, and ten threes exist */
    TUMASHQIN_CHAIN = 11,      /* a link is no page address or repeats a page, or the chain is too long */
    TUMASHQIN_FULL_TABLE = 12, /* the page table has a mapping */
    TUMASHQIN_DEPTH = 13,      /* the caller is 8 below the root */
    TUMASHQIN_ROOT = 14,       /* the root leaves, or names its parent as a target */
    TUMASHQIN_UNMAPPED = 15,   /* no mapping there */
    TUMASHQIN_KERNEL = 16,     /* mapped, not accessible (mapped_in_child: and not lent) */
    TUMASHQIN_SHORT = 17,      /* record or revision buffer too short */
    TUMASHQIN_MAGIC = 18,      /* the record's magic is wrong, or its begin is above its end */
    TUMASHQIN_SLOT_PAGE = 20,  /* the slot page is not in its partition's hand with read and write */
    TUMASHQIN_SLOT = 21,       /* no such slot, or not one that the caller may resume */
    TUMASHQIN_EMPTY_SLOT = 22, /* the child's slot has no context */
    TUMASHQIN_EDITION = 24     /* not on pages of 4,096 bytes */
};

/* Rights of a page, to be added. */
enum { TUMASHQIN_READ = 1, TUMASHQIN_WRITE = 2, TUMASHQIN_EXECUTE = 4 };

/* The editions, by the bytes of a page. */
enum { TUMASHQIN_PAGES_256 = 0, TUMASHQIN_PAGES_4096 = 1 };

/* Words of a page of each edition. */
enum { TUMASHQIN_PAGE_WORDS = 64, TUMASHQIN_LARGE_PAGE_WORDS = 1024 };

/* Bytes of a record, and of its revision, which starts at byte 12 of a record. */
enum { TUMASHQIN_RECORD_BYTES = 76, TUMASHQIN_REVISION_BYTES = 64, TUMASHQIN_REVISION_AT = 12 };

/* A call answers its refusal's number times 2^32, plus its word: the refusal, and 0 where the call is done. */
static inline uint32_t tumashqin_refusal_of(uint64_t answer) { return (uint32_t)(answer >> 32); }

/* The word that a call answers: 0 unless its comment says another, and 0 where it is refused. */
static inline uint32_t tumashqin_word_of(uint64_t answer) { return (uint32_t)answer; }

/* Format: wipes all words, writes the header and the root partition, and maps every page left over in the root with all rights. Root is
 * current. It asks nothing of what the words held, and may change a memory's edition where both have the length (16,384 words). The edition is
 * TUMASHQIN_PAGES_256 or TUMASHQIN_PAGES_4096. Answers 0, or SIZE. */
uint32_t tumashqin_format(uint32_t *words, size_t length, uint32_t edition);

/* 1. Takes five pages of the caller and makes a child of them, whose name is the descriptor's address.
 * Refusals: DAMAGED, ADDRESS, TWICE, HAND, RIGHTS (write), DEPTH. */
uint64_t tumashqin_create_partition(uint32_t *words, size_t length, uint32_t descriptor, uint32_t directory, uint32_t shadow1,
                                    uint32_t shadow2, uint32_t list);

/* 2. Ends a child, and all below it. Its kernel pages and every page lent to it come back to the caller's hand. A lent page that the caller may not write
 * keeps its words, unless it was a kernel page of a partition below the child; the child's rights do not count. All others are wiped. The root may write
 * every page. Refusals: DAMAGED, ADDRESS, CHILD. */
uint64_t tumashqin_delete_partition(uint32_t *words, size_t length, uint32_t child);

/* 3. Lends a page to a child: maps it at target there, with these rights.
 * Write and execute can't be lent together: rights are 0 to 5. Memory in which an older version lent both is DAMAGED.
 * Refusals: DAMAGED, ADDRESS, RIGHTS (6 or above), CHILD, HAND, RIGHTS (not held), TABLE, TAKEN. */
uint64_t tumashqin_add_vaddr(uint32_t *words, size_t length, uint32_t page, uint32_t child, uint32_t target, uint32_t rights);

/* 4. Takes a lent page back from a child. Its word is the page's address in the caller. The page keeps its words.
 * Refusals: DAMAGED, ADDRESS, CHILD, TABLE, UNMAPPED, HAND. */
uint64_t tumashqin_remove_vaddr(uint32_t *words, size_t length, uint32_t child, uint32_t target);

/* 5. How many pages `prepare` wants for target. Its word is 0 if the child has the three, else 3.
 * Refusals: DAMAGED, ADDRESS, CHILD, LIST. */
uint64_t tumashqin_page_count(const uint32_t *words, size_t length, uint32_t child, uint32_t target);

/* 6. Takes three chained pages of the caller as the child's three of tables for target: word 0 of a page is the next page's address, the
 * third's is 0. Refusals: DAMAGED, ADDRESS, CHILD, TAKEN, LIST; then for each page in turn CHAIN, HAND, RIGHTS (read and write); then CHAIN. */
uint64_t tumashqin_prepare(uint32_t *words, size_t length, uint32_t child, uint32_t target, uint32_t first);

/* 7. Gives the child's three for target back, wiped and chained again. Its word is the first page's address.
 * Refusals: DAMAGED, ADDRESS, CHILD, TABLE, FULL_TABLE. */
uint64_t tumashqin_collect(uint32_t *words, size_t length, uint32_t child, uint32_t target);

/* 8. Its word is the descriptor address of the child that the page is lent to, or 0 if it is in the caller's hand.
 * Refusals: DAMAGED, ADDRESS, UNMAPPED, KERNEL (a child's kernel page; a lent page is answered even where it is inaccessible). */
uint64_t tumashqin_mapped_in_child(const uint32_t *words, size_t length, uint32_t page);

/* 9. The child is current. Refusals: DAMAGED, ADDRESS, CHILD. */
uint64_t tumashqin_enter(uint32_t *words, size_t length, uint32_t child);

/* 10. The parent is current. Refusals: DAMAGED, ROOT. */
uint64_t tumashqin_leave(uint32_t *words, size_t length);

/* 11. Its word is the word at the address. Refusals: DAMAGED, ADDRESS, UNMAPPED, KERNEL, RIGHTS (read). */
uint64_t tumashqin_load(const uint32_t *words, size_t length, uint32_t address);

/* 12. Writes the word at the address. Refusals: DAMAGED, ADDRESS, UNMAPPED, KERNEL, RIGHTS (write). */
uint64_t tumashqin_store(uint32_t *words, size_t length, uint32_t address, uint32_t word);

/* Saved contexts, on pages of 256 bytes; on pages of 4,096 the three calls below answer EDITION.
 *
 * Target. A child, by its descriptor's address, or 0 for the parent. It becomes current.
 *
 * Slots. A partition's slot page is the one at TUMASHQIN_SLOTS_AT in it; the root's is its last, at 256F: the start-up record's end less 256. It holds four
 * slots of 16 words: a context's eleven, then valid (1 where there is a context; any other word means none), then four that stay. It is an ordinary
 * page: it may be lent, taken, wiped, read and written. An ancestor can write it, so no saved context is promised to last.
 *
 * Flags. Each partition has a live flag (vcli), 0 or 1: word 12 of its descriptor. It is 0 when the partition is made, and only these calls change it. */

/* The slots. Notify saves in the last two; no call saves in the first two. */
enum {
    TUMASHQIN_INT_CTX = 0,         /* the partition was interrupted */
    TUMASHQIN_ISR_CTX = 1,         /* it had a fault */
    TUMASHQIN_NOTIF_CHILD_CTX = 2, /* it notified a child */
    TUMASHQIN_NOTIF_PARENT_CTX = 3 /* it notified its parent */
};

/* Words of a context and of a slot, valid's place in the slot, and where a partition other than the root has its slot page. */
enum { TUMASHQIN_CONTEXT_WORDS = 11, TUMASHQIN_SLOT_WORDS = 16, TUMASHQIN_VALID_AT = 11, TUMASHQIN_SLOTS_AT = 0xFFF00 };

/* A context, in the order of a slot's words. Bit 0 of pipflags is the flag. */
struct tumashqin_context {
    uint32_t eip, pipflags, eflags, registers[8];
};

/* 13. Saves eip, eflags and the registers, with the caller's flag as pipflags and valid 1, in the caller's slot: NOTIF_CHILD_CTX for a child,
 * NOTIF_PARENT_CTX for the parent. A context that stood there is lost. The target's flag becomes 1; the caller's becomes 0 for a child, and stays for the
 * parent. Refusals: DAMAGED, EDITION, ADDRESS, CHILD (ROOT for the parent), SLOT_PAGE (the caller's). */
uint64_t tumashqin_notify(uint32_t *words, size_t length, uint32_t target, uint32_t eip, uint32_t eflags, uint32_t r0, uint32_t r1, uint32_t r2,
                          uint32_t r3, uint32_t r4, uint32_t r5, uint32_t r6, uint32_t r7);

/* 14. Saves nothing. The flags are those of notify. Refusals: DAMAGED, EDITION, ADDRESS, CHILD (ROOT for the parent). */
uint64_t tumashqin_dispatch(uint32_t *words, size_t length, uint32_t target);

/* 15. Takes the context from a slot of the target: its eleven words go to `out`, valid becomes 0, the target's flag bit 0 of pipflags and the caller's 0. Of
 * a child any slot may be resumed, of the parent NOTIF_CHILD_CTX alone. Where that one of the parent has no context, the root becomes current instead, with
 * flag 1, no slot changes, and the eleven words are 0. They are 0 where the call is refused, too. An `out` of fewer words gets as many as it has; words past
 * the eleventh stay. Refusals: DAMAGED, EDITION, ADDRESS, CHILD (ROOT for the parent), SLOT, SLOT_PAGE (the target's), EMPTY_SLOT (a child's). */
uint64_t tumashqin_resume(uint32_t *words, size_t length, uint32_t target, uint32_t slot, uint32_t *out, size_t out_length);

/* Notify with a context, whose pipflags are not read: the kernel saves the caller's own flag. */
static inline uint64_t tumashqin_notify_context(uint32_t *words, size_t length, uint32_t target, const struct tumashqin_context *context)
{
    const uint32_t *r = context->registers;
    return tumashqin_notify(words, length, target, context->eip, context->eflags, r[0], r[1], r[2], r[3], r[4], r[5], r[6], r[7]);
}

/* Resume, with the eleven words as a context: all 0 where it is refused. */
static inline uint64_t tumashqin_resume_context(uint32_t *words, size_t length, uint32_t target, uint32_t slot, struct tumashqin_context *context)
{
    uint32_t out[TUMASHQIN_CONTEXT_WORDS];
    uint64_t answer = tumashqin_resume(words, length, target, slot, out, TUMASHQIN_CONTEXT_WORDS);
    int k;
    context->eip = out[0];
    context->pipflags = out[1];
    context->eflags = out[2];
    for (k = 0; k < 8; k++)
        context->registers[k] = out[3 + k];
    return answer;
}

/* The verdict of a memory: 0 where it is sound, else DAMAGED. Every call but format asks this first. */
uint32_t tumashqin_verdict(const uint32_t *words, size_t length);

/* Writes the start-up record of a memory to the first 76 bytes of `out`, of which there are 76 or more; bytes past 76 stay. `revision` has 64
 * bytes or more, and the first 64 count. Answers 0, or DAMAGED or SHORT. */
uint32_t tumashqin_write_record(const uint32_t *words, size_t length, const uint8_t *revision, size_t revision_length, uint8_t *out,
                                size_t out_length);

/* Whether the bytes begin with a record: 0, or SHORT or MAGIC. Bytes past 76 are ignored. */
uint32_t tumashqin_record_refusal(const uint8_t *bytes, size_t length);

/* The record's begin, or 0 where it is refused. */
uint32_t tumashqin_record_begin(const uint8_t *bytes, size_t length);

/* The record's end, or 0 where it is refused. */
uint32_t tumashqin_record_end(const uint8_t *bytes, size_t length);

/* How many bytes the record's revision has: 64, or 0 exactly where the record is refused. They are those from byte 12 on. */
size_t tumashqin_record_revision_length(const uint8_t *bytes, size_t length);

/* A part of the caller's bytes. */
struct tumashqin_part {
    const uint8_t *bytes;
    size_t length;
};

/* The record's revision as a part of the caller's bytes: an empty part, at their start, exactly where the record is refused. */
static inline struct tumashqin_part tumashqin_record_revision(const uint8_t *bytes, size_t length)
{
    struct tumashqin_part part = {bytes, tumashqin_record_revision_length(bytes, length)};
    if (part.length > 0)
        part.bytes += TUMASHQIN_REVISION_AT;
    return part;
}

#ifdef __cplusplus
}
#endif

#endif
