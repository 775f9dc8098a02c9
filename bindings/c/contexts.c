/* Saved contexts from C: a partition notifies its child and the child its parent, and each is resumed. Build and run from the repository, after
 * `rt lib` in crates/exports and `mkdir -p target`:
 *   gcc -std=c99 -Wall -Wextra -Iinclude bindings/c/contexts.c crates/exports/out/libexports.a -o target/contexts && target/contexts
 * It prints what bindings/c/contexts.txt has, and ends with exit status 1 where an answer or a word is wrong. */
#include <inttypes.h>
#include <stdio.h>
#include <string.h>

#include "tumashqin.h"

enum { PAGES = 40, WORDS = PAGES * TUMASHQIN_PAGE_WORDS, CHILD = 256, PARENT = 0 };
static uint32_t words[WORDS];
static int wrong;

/* Prints a call's answer, and the flags of the root and the child after it; the answer has to be the one expected, and so do the flags. */
static void line(const char *name, uint64_t answer, uint32_t expected, uint32_t root, uint32_t child)
{
    uint32_t flags[2] = {words[1 * TUMASHQIN_PAGE_WORDS + 12], words[9 * TUMASHQIN_PAGE_WORDS + 12]};
    uint32_t refusal = tumashqin_refusal_of(answer);
    printf("%s: refusal %" PRIu32 ", flags %" PRIu32 " %" PRIu32 "\n", name, refusal, flags[0], flags[1]);
    wrong |= refusal != expected || tumashqin_word_of(answer) != 0 || flags[0] != root || flags[1] != child;
}

/* Prints the words of a context, which have to be those expected. */
static void shown(struct tumashqin_context got, struct tumashqin_context expected)
{
    int k;
    printf(" %" PRIu32 " %" PRIu32 " %" PRIu32, got.eip, got.pipflags, got.eflags);
    for (k = 0; k < 8; k++)
        printf(" %" PRIu32, got.registers[k]);
    printf("\n");
    wrong |= memcmp(&got, &expected, sizeof got) != 0;
}

/* Each word of a page's slot has to be that of the context, and valid as given. */
static void slot(uint32_t page, uint32_t number, struct tumashqin_context context, uint32_t valid)
{
    const uint32_t *at = words + page * TUMASHQIN_PAGE_WORDS + number * TUMASHQIN_SLOT_WORDS;
    wrong |= memcmp(at, &context, sizeof context) != 0 || at[TUMASHQIN_VALID_AT] != valid;
}

int main(void)
{
    const struct tumashqin_context to_child = {100, 0, 200, {1, 2, 3, 4, 5, 6, 7, 8}}, none = {0, 0, 0, {0, 0, 0, 0, 0, 0, 0, 0}};
    /* The child is notified before it saves this, so that its flag is 1. The pipflags that are given to notify are not read. */
    const struct tumashqin_context to_parent = {7, 1, 8, {11, 12, 13, 14, 15, 16, 17, 18}};
    struct tumashqin_context given = to_parent, got;
    uint32_t out[TUMASHQIN_CONTEXT_WORDS + 1];
    int k;
    given.pipflags = 6;

    if (sizeof got != 4 * TUMASHQIN_CONTEXT_WORDS || tumashqin_format(words, WORDS, TUMASHQIN_PAGES_256) != TUMASHQIN_DONE)
        return 1;
    line("a child", tumashqin_create_partition(words, WORDS, CHILD, 512, 768, 1024, 1280), TUMASHQIN_DONE, 0, 0);
    line("a link", tumashqin_store(words, WORDS, 1536, 1792), TUMASHQIN_DONE, 0, 0);
    line("a link", tumashqin_store(words, WORDS, 1792, 2048), TUMASHQIN_DONE, 0, 0);
    line("its tables", tumashqin_prepare(words, WORDS, CHILD, TUMASHQIN_SLOTS_AT, 1536), TUMASHQIN_DONE, 0, 0);
    line("no slot page yet", tumashqin_resume_context(words, WORDS, CHILD, TUMASHQIN_INT_CTX, &got), TUMASHQIN_SLOT_PAGE, 0, 0);
    shown(got, none);
    line("its slot page", tumashqin_add_vaddr(words, WORDS, 2304, CHILD, TUMASHQIN_SLOTS_AT, TUMASHQIN_READ | TUMASHQIN_WRITE), TUMASHQIN_DONE, 0, 0);

    /* The child's slot page is page 17 of the memory; the root's is the last. */
    line("notify the child", tumashqin_notify_context(words, WORDS, CHILD, &to_child), TUMASHQIN_DONE, 0, 1);
    slot(PAGES - 1, TUMASHQIN_NOTIF_CHILD_CTX, to_child, 1);
    line("notify the parent", tumashqin_notify_context(words, WORDS, PARENT, &given), TUMASHQIN_DONE, 1, 1);
    slot(17, TUMASHQIN_NOTIF_PARENT_CTX, to_parent, 1);
    line("a slot without a context", tumashqin_resume_context(words, WORDS, CHILD, TUMASHQIN_INT_CTX, &got), TUMASHQIN_EMPTY_SLOT, 1, 1);
    shown(got, none);
    line("resume the child", tumashqin_resume_context(words, WORDS, CHILD, TUMASHQIN_NOTIF_PARENT_CTX, &got), TUMASHQIN_DONE, 0, 1);
    shown(got, to_parent);
    slot(17, TUMASHQIN_NOTIF_PARENT_CTX, to_parent, 0);
    line("another slot of the parent", tumashqin_resume_context(words, WORDS, PARENT, TUMASHQIN_INT_CTX, &got), TUMASHQIN_SLOT, 0, 1);
    shown(got, none);
    line("resume the parent", tumashqin_resume_context(words, WORDS, PARENT, TUMASHQIN_NOTIF_CHILD_CTX, &got), TUMASHQIN_DONE, 0, 0);
    shown(got, to_child);
    slot(PAGES - 1, TUMASHQIN_NOTIF_CHILD_CTX, to_child, 0);
    line("enter the child", tumashqin_enter(words, WORDS, CHILD), TUMASHQIN_DONE, 0, 0);
    line("nothing to resume: the root", tumashqin_resume_context(words, WORDS, PARENT, TUMASHQIN_NOTIF_CHILD_CTX, &got), TUMASHQIN_DONE, 1, 0);
    shown(got, none);
    line("dispatch to the child", tumashqin_dispatch(words, WORDS, CHILD), TUMASHQIN_DONE, 0, 1);
    line("dispatch to the parent", tumashqin_dispatch(words, WORDS, PARENT), TUMASHQIN_DONE, 1, 1);
    line("the root has no parent", tumashqin_dispatch(words, WORDS, PARENT), TUMASHQIN_ROOT, 1, 1);

    /* Of fewer words than eleven as many are written as there are, and of more the eleven first. */
    for (k = 0; k < 12; k++)
        out[k] = 9;
    line("notify the child", tumashqin_notify_context(words, WORDS, CHILD, &to_child), TUMASHQIN_DONE, 0, 1);
    line("resume, two words", tumashqin_resume(words, WORDS, PARENT, TUMASHQIN_NOTIF_CHILD_CTX, out, 2), TUMASHQIN_DONE, 1, 0);
    wrong |= out[0] != 100 || out[1] != 1 || out[2] != 9;
    line("refused, twelve words", tumashqin_resume(words, WORDS, CHILD, 4, out, 12), TUMASHQIN_SLOT, 1, 0);
    for (k = 0; k < 12; k++)
        wrong |= out[k] != (k < TUMASHQIN_CONTEXT_WORDS ? 0u : 9u);
    return wrong;
}
