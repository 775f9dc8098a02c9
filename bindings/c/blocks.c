/* The worked case of docs/BLOCKS.md from C. Build and run from the repository, after `rt lib` in crates/block_exports and `mkdir -p target`:
 *   gcc -std=c99 -Wall -Wextra -Iinclude bindings/c/blocks.c crates/block_exports/out/libblock_exports.a -o target/blocks && target/blocks
 * It prints what bindings/c/blocks.txt has, and ends with exit status 1 where a word is wrong. */
#include <inttypes.h>
#include <stdio.h>
#include <string.h>

#include "tumashqin_block.h"

enum { WORDS = 16 * TUMASHQIN_BLOCK_KIB_WORDS, RIGHTS = TUMASHQIN_READ | TUMASHQIN_WRITE };
static uint32_t words[WORDS], formatted[WORDS];

/* A line as the case has it: the call, and its word, or `no` with the refusal. */
static void line(const char *call, uint64_t answer)
{
    uint32_t refusal = tumashqin_refusal_of(answer);
    printf("%s: %s%" PRIu32 "\n", call, refusal ? "no " : "", refusal ? refusal : tumashqin_word_of(answer));
}

/* .. and the block that is told beside it. */
static void told(const char *call, uint64_t answer, struct tumashqin_block b)
{
    line(call, answer);
    printf(" %" PRIu32 " %" PRIu32 " %" PRIu32 " %" PRIu32 " %" PRIu32 " %" PRIu32 "\n", b.number, b.start, b.end, b.rights, b.usage, b.child);
}

/* .. or the words that were lent for it. */
static void lent(const char *call, uint64_t answer, const uint32_t *out, int length)
{
    int k;
    line(call, answer);
    for (k = 0; k < length; k++)
        printf(" %" PRIu32, out[k]);
    printf("\n");
}

int main(void)
{
    struct tumashqin_block b;
    uint32_t out[TUMASHQIN_BLOCK_TOLD_WORDS + 2];
    uint64_t answer;
    int changed;

    line("0", tumashqin_block_format(words, WORDS));
    memcpy(formatted, words, sizeof words);
    line("7 8 1096", tumashqin_block_cut(words, WORDS, 8, 1096));
    line("1 8", tumashqin_block_create(words, WORDS, 8));
    line("7 9 1392", tumashqin_block_cut(words, WORDS, 9, 1392));
    line("3 8 9", tumashqin_block_prepare(words, WORDS, 8, 9));
    line("7 10 5488", tumashqin_block_cut(words, WORDS, 10, 5488));
    line("5 8 10 3", tumashqin_block_add(words, WORDS, 8, 10, RIGHTS));
    line("1 10", tumashqin_block_create(words, WORDS, 10));
    line("5 8 11 8", tumashqin_block_add(words, WORDS, 8, 11, 8));
    line("9 8 8 1", tumashqin_block_enable(words, WORDS, 8, 8, 1));
    line("12 8", tumashqin_block_enter(words, WORDS, 8));
    line("7 8 3440", tumashqin_block_cut(words, WORDS, 8, 3440));
    line("7 9 3471", tumashqin_block_cut(words, WORDS, 9, 3471));
    answer = tumashqin_block_read_enabled_block(words, WORDS, 0, 1, &b);
    told("10 0 1", answer, b);
    line("13", tumashqin_block_leave(words, WORDS));
    line("6 8 10", tumashqin_block_remove(words, WORDS, 8, 10));
    line("12 8", tumashqin_block_enter(words, WORDS, 8));
    line("8 9 8", tumashqin_block_merge(words, WORDS, 9, 8));
    line("13", tumashqin_block_leave(words, WORDS));
    line("6 8 10", tumashqin_block_remove(words, WORDS, 8, 10));
    line("4 8", tumashqin_block_collect(words, WORDS, 8));
    line("2 8", tumashqin_block_delete(words, WORDS, 8));
    line("8 8 9", tumashqin_block_merge(words, WORDS, 8, 9));
    line("8 8 11", tumashqin_block_merge(words, WORDS, 8, 11));
    line("8 8 10", tumashqin_block_merge(words, WORDS, 8, 10));
    line("8 8 11", tumashqin_block_merge(words, WORDS, 8, 11));
    line("9 0 8 1", tumashqin_block_enable(words, WORDS, 0, 8, 1));
    /* "All words are then as format leaves them." */
    changed = memcmp(words, formatted, sizeof words) != 0;
    answer = tumashqin_block_find_block(words, WORDS, 0, 5000, &b);
    told("11 0 5000", answer, b);
    answer = tumashqin_block_find_block(words, WORDS, 0, 900, &b);
    told("11 0 900", answer, b);
    answer = tumashqin_block_read_enabled_block(words, WORDS, 0, 2, &b);
    told("10 0 2", answer, b);
    line("13", tumashqin_block_leave(words, WORDS));
    line("sound", tumashqin_block_verdict(words, WORDS));

    /* Of fewer words than six as many are written as there are, and of more the six first; zeros for none and where the call is refused. */
    memset(out, 0x7F, sizeof out);
    answer = tumashqin_block_find(words, WORDS, 0, 5000, out, 2);
    lent("two words lent", answer, out, 3);
    answer = tumashqin_block_find(words, WORDS, 0, 5000, out, TUMASHQIN_BLOCK_TOLD_WORDS + 2);
    lent("eight", answer, out, TUMASHQIN_BLOCK_TOLD_WORDS + 2);
    answer = tumashqin_block_read_enabled(words, WORDS, 8, 1, out, 4);
    lent("refused, four", answer, out, TUMASHQIN_BLOCK_TOLD_WORDS);
    line("none lent", tumashqin_block_read_enabled(words, WORDS, 0, 1, NULL, 0));

    /* Memory of a length that is not permitted is refused by every call. */
    line("a word short", tumashqin_block_verdict(words, WORDS - 1));
    line("format, a word short", tumashqin_block_format(words, WORDS - 1));
    line("format of no words", tumashqin_block_format(NULL, 0));
    line("no words", tumashqin_block_verdict(NULL, 0));
    lent("find in no words", tumashqin_block_find(NULL, 0, 0, 5000, out, TUMASHQIN_BLOCK_TOLD_WORDS), out, TUMASHQIN_BLOCK_TOLD_WORDS + 2);
    return changed || memcmp(words, formatted, sizeof words) != 0;
}
