/* The verdict and the start-up record from C. Build and run from the repository, after `rt lib` in crates/exports and `mkdir -p target`:
 *   gcc -std=c99 -Wall -Wextra -Iinclude bindings/c/records.c crates/exports/out/libexports.a -o target/records && target/records
 * It prints what bindings/c/records.txt has. */
#include <inttypes.h>
#include <stdio.h>

#include "tumashqin.h"

enum { WORDS = 20 * TUMASHQIN_PAGE_WORDS };
static uint32_t words[WORDS];

/* What the reader says of the bytes: refusal, begin, end, and of the revision where it starts, its length and its bytes' sum. */
static void reading(const char *name, const uint8_t *bytes, size_t length)
{
    struct tumashqin_part revision = tumashqin_record_revision(bytes, length);
    uint32_t sum = 0;
    for (size_t i = 0; i < revision.length; i++)
        sum += revision.bytes[i];
    printf("%s: refusal %" PRIu32 ", begin %" PRIu32 ", end %" PRIu32 ", revision at %td, %zu bytes, sum %" PRIu32 "\n", name,
           tumashqin_record_refusal(bytes, length), tumashqin_record_begin(bytes, length), tumashqin_record_end(bytes, length),
           revision.bytes - bytes, revision.length, sum);
}

int main(void)
{
    uint8_t revision[TUMASHQIN_REVISION_BYTES], out[TUMASHQIN_RECORD_BYTES] = {0};
    for (size_t i = 0; i < sizeof revision; i++)
        revision[i] = (uint8_t)(i + 1);

    printf("words 0: verdict %" PRIu32 ", writer %" PRIu32 "\n", tumashqin_verdict(words, WORDS),
           tumashqin_write_record(words, WORDS, revision, sizeof revision, out, sizeof out));
    if (tumashqin_format(words, WORDS, TUMASHQIN_PAGES_256) != TUMASHQIN_DONE)
        return 1;
    printf("formatted: verdict %" PRIu32 ", writer %" PRIu32 "\n", tumashqin_verdict(words, WORDS),
           tumashqin_write_record(words, WORDS, revision, sizeof revision, out, sizeof out));
    reading("record", out, sizeof out);
    reading("a byte too few", out, sizeof out - 1);
    out[0] ^= 1;
    reading("another magic", out, sizeof out);
    return 0;
}
