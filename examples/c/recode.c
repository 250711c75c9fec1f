/* Decodes standard input to UTF-8, piece by piece, and writes the place of each malformed sequence to standard error.
 *
 * usage: recode INDEX_FOLDER CODEC [ENCODING] <bytes >text
 * CODEC is a number of enum legacy_codec, and ENCODING the name of a single-byte index. */
#include "indexes.h"
#include <stdlib.h>

int main(int count, char **words)
{
    static uint8_t piece[4096], text[8192];
    struct legacy_tables tables;
    struct legacy_decoder decoder;
    unsigned long before = 0; /* the number of bytes read by earlier calls */
    int last = 0;

    if (count < 3 || !read_indexes(words[1], count > 3 ? words[3] : NULL, &tables)) return 2;
    legacy_decoder_init(&decoder, (uint32_t)atoi(words[2]));
    while (!last) {
        size_t length = fread(piece, 1, sizeof piece, stdin), at = 0;
        struct legacy_decoded done;
        last = length < sizeof piece;
        do {
            done = legacy_decode_to_utf8_raw(&tables, &decoder, piece + at, length - at, text, sizeof text, last);
            if (done.status == LEGACY_REFUSED) return 2;
            fwrite(text, 1, done.written, stdout);
            at += done.read;
            before += done.read;
            if (done.status == LEGACY_MALFORMED) {
                fprintf(stderr, "bad %lu %u\n", before - done.back - done.length, (unsigned)done.length);
                fputs("\xEF\xBF\xBD", stdout); /* U+FFFD */
            }
        } while (done.status != LEGACY_INPUT_EMPTY);
    }
    return ferror(stdin) || fflush(stdout) ? 1 : 0;
}
