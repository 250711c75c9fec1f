/* The calls of iconv(3) between UTF-8 and an encoding: what is read, E2BIG, EILSEQ and EINVAL at the right places.
 *
 * usage: iconv INDEX_FOLDER to|from CODEC ROOM <input >output
 * It converts standard input with an output of ROOM bytes at a time. It ends at a sequence that it cannot convert, and
 * writes its place and the error to standard error. */
#include "indexes.h"
#include <errno.h>
#include <stdlib.h>

struct converter {
    const struct legacy_tables *tables;
    int encodes; /* from UTF-8 to the encoding; otherwise to UTF-8 */
    struct legacy_encoder encoder;
    struct legacy_decoder decoder;
};

static void converter_open(struct converter *c, const struct legacy_tables *tables, int encodes, uint32_t codec)
{
    c->tables = tables;
    c->encodes = encodes;
    legacy_encoder_init(&c->encoder, codec);
    legacy_decoder_init(&c->decoder, codec);
}

/* Gives the bytes of an incomplete sequence back to the caller. A whole escape of ISO-2022-JP stays: it is three bytes. */
static size_t give_back(struct legacy_decoder *decoder)
{
    size_t held = legacy_decoder_held_count(decoder);
    if (decoder->codec == LEGACY_ISO_2022_JP && held >= 3) held -= 3;
    decoder->count = (uint8_t)(decoder->count - held);
    return held;
}

static size_t decode(struct converter *c, const uint8_t *in, size_t in_left, uint8_t *out, size_t out_left, size_t *read,
                     size_t *written)
{
    struct legacy_decoder before = c->decoder; /* the state is numbers, so a copy goes back to it */
    struct legacy_decoded done = legacy_decode_to_utf8_raw(c->tables, &c->decoder, in, in_left, out, out_left, false);
    int error = done.status == LEGACY_REFUSED ? EBADF : done.status == LEGACY_OUTPUT_FULL ? E2BIG : 0;
    size_t held;

    if (done.status == LEGACY_MALFORMED) {
        size_t start = done.read - done.back - done.length;
        c->decoder = before;
        done = legacy_decode_to_utf8_raw(c->tables, &c->decoder, in, start, out, out_left, false);
        error = EILSEQ;
    }
    held = give_back(&c->decoder);
    if (held && !error) error = EINVAL;
    *read = done.read - held;
    *written = done.written;
    errno = error;
    return error ? (size_t)-1 : 0;
}

static size_t encode(struct converter *c, const uint8_t *in, size_t in_left, uint8_t *out, size_t out_left, size_t *read,
                     size_t *written)
{
    struct legacy_encoded done = legacy_encode_from_utf8_raw(c->tables, &c->encoder, in, in_left, out, out_left, false);
    int error = 0;

    *read = done.read;
    *written = done.written;
    if (done.status == LEGACY_REFUSED) error = EBADF;
    if (done.status == LEGACY_OUTPUT_FULL) error = E2BIG;
    if (done.status == LEGACY_NOT_UTF8) error = EILSEQ;
    if (done.status == LEGACY_INPUT_EMPTY && done.read < in_left) error = EINVAL;
    if (done.status == LEGACY_UNMAPPABLE) { /* the character was read: go back to its first byte */
        do --*read; while ((in[*read] & 0xC0) == 0x80);
        error = EILSEQ;
    }
    errno = error;
    return error ? (size_t)-1 : 0;
}

/* As iconv(3), with EBADF if the codec or the indexes are refused. Without an input it writes what ends the text. */
static size_t converter_run(struct converter *c, const uint8_t **in, size_t *in_left, uint8_t **out, size_t *out_left)
{
    size_t read = 0, written = 0, result = 0;
    if (!in) {
        uint8_t none = 0;
        struct legacy_encoded done = {0, 0, 0, 0, 0, false};
        if (c->encodes) done = legacy_encode_from_utf8_raw(c->tables, &c->encoder, &none, 0, *out, *out_left, true);
        else converter_open(c, c->tables, 0, c->decoder.codec);
        written = done.written;
        if (done.status == LEGACY_OUTPUT_FULL) errno = E2BIG, result = (size_t)-1;
        if (done.status == LEGACY_REFUSED) errno = EBADF, result = (size_t)-1;
    } else {
        result = (c->encodes ? encode : decode)(c, *in, *in_left, *out, *out_left, &read, &written);
        *in += read;
        *in_left -= read;
    }
    *out += written;
    *out_left -= written;
    return result;
}

int main(int count, char **words)
{
    static uint8_t input[1 << 16], output[1 << 12];
    const uint8_t *in = input;
    struct legacy_tables tables;
    struct converter c;
    size_t in_left, room, result;

    if (count < 5 || !read_indexes(words[1], NULL, &tables)) return 2;
    converter_open(&c, &tables, strcmp(words[2], "to") == 0, (uint32_t)atoi(words[3]));
    room = (size_t)atol(words[4]) < sizeof output ? (size_t)atol(words[4]) : sizeof output;
    in_left = fread(input, 1, sizeof input, stdin);
    do {
        uint8_t *out = output;
        size_t out_left = room;
        int ends = in_left == 0;
        result = ends ? converter_run(&c, NULL, NULL, &out, &out_left) : converter_run(&c, &in, &in_left, &out, &out_left);
        fwrite(output, 1, (size_t)(out - output), stdout);
        if (result == 0 && ends) return fflush(stdout) ? 1 : 0;
    } while (result == 0 || errno == E2BIG);
    fflush(stdout);
    fprintf(stderr, "%lu %s\n", (unsigned long)(in - input), errno == EILSEQ ? "EILSEQ" : errno == EINVAL ? "EINVAL" : "EBADF");
    return 1;
}
