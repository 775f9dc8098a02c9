/* Document 01's bench morning from C. Build and run from the repository, after `rt lib` in crates/exports and `mkdir -p target`:
 *   gcc -std=c99 -Wall -Wextra -Iinclude bindings/c/morning.c crates/exports/out/libexports.a -o target/morning && target/morning */
#include <inttypes.h>
#include <stdio.h>

#include "tumashqin.h"

enum { WORDS = 20 * TUMASHQIN_PAGE_WORDS };
static uint32_t words[WORDS];

/* A line as replay prints it: the record's place, and `ok` with the word or `no` with the refusal. */
static void line(int place, uint64_t answer)
{
    uint32_t refusal = tumashqin_refusal_of(answer);
    printf("%d %s %" PRIu32 "\n", place, refusal ? "no" : "ok", refusal ? refusal : tumashqin_word_of(answer));
}

int main(void)
{
    if (tumashqin_format(words, WORDS, TUMASHQIN_PAGES_256) != TUMASHQIN_DONE)
        return 1;
    line(1, tumashqin_create_partition(words, WORDS, 256, 512, 768, 1024, 1280));
    line(2, tumashqin_page_count(words, WORDS, 256, 4096));
    line(3, tumashqin_store(words, WORDS, 1536, 1792));
    line(4, tumashqin_store(words, WORDS, 1792, 2048));
    line(5, tumashqin_prepare(words, WORDS, 256, 4096, 1536));
    line(6, tumashqin_add_vaddr(words, WORDS, 2304, 256, 4096, TUMASHQIN_READ | TUMASHQIN_WRITE));
    line(7, tumashqin_mapped_in_child(words, WORDS, 2304));
    line(8, tumashqin_store(words, WORDS, 256, 1));
    line(9, tumashqin_enter(words, WORDS, 256));
    line(10, tumashqin_store(words, WORDS, 4100, 77));
    line(11, tumashqin_leave(words, WORDS));
    line(12, tumashqin_load(words, WORDS, 2308));
    line(13, tumashqin_remove_vaddr(words, WORDS, 256, 4096));
    line(14, tumashqin_collect(words, WORDS, 256, 4096));
    line(15, tumashqin_delete_partition(words, WORDS, 256));
    return 0;
}
