/* Passes any numbers as the state of a coder, with any bytes and any lengths. Each call is refused with nothing changed, or
 * leaves a state that a later call takes. Build it with -fsanitize=address,undefined.
 *
 * usage: hostile [CALLS] */
#include <legacy_codecs.h>
#include <stdio.h>
#include <stdlib.h>
#include <string.h>

static uint64_t seed = 1;

static uint32_t below(uint32_t limit)
{
    seed = seed * 6364136223846793005u + 1442695040888963407u;
    return (uint32_t)(seed >> 33) % limit;
}

static uint32_t big5[19782];
static uint16_t euc_kr[23940], jis0208[11280], jis0212[8836], gb18030[23940], katakana[63], single_byte[128];
static const struct legacy_range ranges[] = {{0, 0x80}, {36, 0xA5}, {38, 0xA9}, {45, 0xB2}};

static void fill(uint16_t *entries, size_t count)
{
    for (size_t i = 0; i < count; i++) entries[i] = (uint16_t)(below(5) ? 0x4E00 + below(8000) : 0);
}

static int fails(const char *what)
{
    printf("hostile: %s\n", what);
    exit(1);
}

static void make_tables(struct legacy_tables *tables)
{
    memset(tables, 0, sizeof *tables);
    for (size_t i = 0; i < 19782; i++) big5[i] = i == 1133 || i == 1135 || i == 1164 || i == 1166 ? 0 : 0x4E00 + below(5000);
    fill(euc_kr, 23940);
    fill(jis0208, 11280);
    memset(jis0208 + 8836, 0, (10716 - 8836) * sizeof *jis0208);
    fill(jis0212, 8836);
    fill(gb18030, 23940);
    fill(katakana, 63);
    for (size_t i = 0; i < 128; i++) single_byte[i] = (uint16_t)(i % 9 ? 0x400 + i : 0);
    tables->big5 = big5, tables->big5_length = 19782;
    tables->euc_kr = euc_kr, tables->euc_kr_length = 23940;
    tables->jis0208 = jis0208, tables->jis0208_length = 11280;
    tables->jis0212 = jis0212, tables->jis0212_length = 8836;
    tables->gb18030 = gb18030, tables->gb18030_length = 23940;
    tables->katakana = katakana, tables->katakana_length = 63;
    tables->ranges = ranges, tables->ranges_length = 4;
    tables->single_byte = single_byte, tables->single_byte_length = 128;
}

/* The numbers that a state of each field may have by the header. A call that is done must have had such numbers. */
static int may_be_decoder(const struct legacy_decoder *d)
{
    int most = d->codec == LEGACY_ISO_2022_JP ? 3 : d->codec == LEGACY_REPLACEMENT ? 1 : 0;
    return d->codec >= 1 && d->codec <= 12 && d->mode <= most && d->count <= 5;
}

static struct legacy_decoded decode(const struct legacy_tables *tables, struct legacy_decoder *d, int kind, const uint8_t *source,
                                    size_t length, uint16_t *output, size_t room, bool last)
{
    switch (kind) {
    case 0: return legacy_decode_to_utf8_raw(tables, d, source, length, (uint8_t *)output, room, last);
    case 1: return legacy_decode_replacing_utf8(tables, d, source, length, (uint8_t *)output, room, last);
    case 2: return legacy_decode_to_utf16_raw(tables, d, source, length, output, room, last);
    default: return legacy_decode_replacing_utf16(tables, d, source, length, output, room, last);
    }
}

static void try_decoder(const struct legacy_tables *tables, long *refused)
{
    static const uint32_t codecs[] = {0, 1, 2, 3, 4, 5, 6, 7, 8, 9, 10, 11, 12, 13, 99, 0xFFFFFFFF};
    struct legacy_decoder d, old;
    int kind = (int)below(4);
    size_t length = below(24), room = below(24);
    uint8_t *source = malloc(length + 1);
    uint16_t *output = malloc((room ? room : 1) * (kind < 2 ? 1 : 2) + 1), *before = malloc((room ? room : 1) * 2 + 1);
    size_t bytes = room * (kind < 2 ? 1 : 2);

    memset(&d, 0, sizeof d);
    d.codec = codecs[below(16)];
    d.mode = (uint8_t)(below(3) ? below(5) : below(256));
    d.count = (uint8_t)(below(8) ? below(6) : below(256));
    if (below(2)) d.mode = 0;
    for (int k = 0; k < 5; k++) d.held[k] = below(2) ? (uint8_t)below(256) : (uint8_t)"\x1B\x24\x42\x30\x81"[below(5)];
    for (size_t k = 0; k < length; k++) source[k] = (uint8_t)(below(3) ? 0x80 + below(128) : below(128));
    memset(output, 0xAA, bytes);
    memcpy(before, output, bytes);
    old = d;
    struct legacy_decoded done = decode(tables, &d, kind, source, length, output, room, below(2));
    if (done.status == LEGACY_REFUSED) {
        ++*refused;
        if (memcmp(&old, &d, sizeof d) || memcmp(before, output, bytes) || done.read || done.written)
            fails("a refused call changed something");
    } else {
        if (!may_be_decoder(&old)) fails("numbers of no decoder were taken");
        if (done.read > length || done.written > room || !may_be_decoder(&d) || d.codec != old.codec) fails("wrong numbers");
        if (decode(tables, &d, kind, source, 0, output, 0, false).status == LEGACY_REFUSED) fails("a state that a call left is refused");
        if (legacy_decoder_held_count(&d) != d.count) fails("held count");
    }
    free(source), free(output), free(before);
}

static struct legacy_encoded encode(const struct legacy_tables *tables, struct legacy_encoder *e, int kind, const uint16_t *source,
                                    size_t length, uint8_t *output, size_t room, bool last)
{
    switch (kind) {
    case 0: return legacy_encode_from_utf8_raw(tables, e, (const uint8_t *)source, length, output, room, last);
    case 1: return legacy_encode_replacing_utf8(tables, e, (const uint8_t *)source, length, output, room, last);
    case 2: return legacy_encode_from_utf16_raw(tables, e, source, length, output, room, last);
    default: return legacy_encode_replacing_utf16(tables, e, source, length, output, room, last);
    }
}

static void try_encoder(const struct legacy_tables *tables, long *refused)
{
    struct legacy_encoder e, old;
    int kind = (int)below(4);
    size_t length = below(24), room = below(40), width = kind < 2 ? 1 : 2;
    uint16_t *source = malloc(length * width + 1);
    uint8_t *output = malloc(room + 1), *before = malloc(room + 1);

    memset(&e, 0, sizeof e);
    e.codec = below(8) ? below(14) : 0xFFFFFFF0u + below(16);
    e.mode = (uint8_t)(below(3) ? 0 : below(2) ? below(4) : below(256));
    for (size_t k = 0; k < length * width; k++) ((uint8_t *)source)[k] = (uint8_t)(below(3) ? below(128) : below(256));
    memset(output, 0xAA, room);
    memcpy(before, output, room);
    old = e;
    struct legacy_encoded done = encode(tables, &e, kind, source, length, output, room, below(2));
    if (done.status == LEGACY_REFUSED) {
        ++*refused;
        if (memcmp(&old, &e, sizeof e) || memcmp(before, output, room) || done.read || done.written)
            fails("a refused call changed something");
    } else {
        int has_encoder = (old.codec >= 1 && old.codec <= 8) || old.codec == 12;
        if (!has_encoder || old.mode > (old.codec == LEGACY_ISO_2022_JP ? 2 : 0)) fails("numbers of no encoder were taken");
        if (done.read + done.length > length || done.written > room || e.codec != old.codec) fails("wrong numbers");
        if (encode(tables, &e, kind, source, 0, output, 0, false).status == LEGACY_REFUSED) fails("a state that a call left is refused");
        if (legacy_encoder_has_pending_state(&e) != (e.mode != 0)) fails("pending state");
    }
    free(source), free(output), free(before);
}

int main(int count, char **words)
{
    struct legacy_tables tables;
    struct legacy_decoder d;
    uint8_t none = 0;
    long calls = count > 1 ? atol(words[1]) : 100000, refused = 0;

    make_tables(&tables);
    legacy_decoder_init(&d, LEGACY_EUC_KR);
    if (legacy_decode_to_utf8_raw(&tables, &d, &none, 0, &none, 0, true).status != LEGACY_REFUSED) fails("no check was needed");
    legacy_decoder_init(&d, LEGACY_SINGLE_BYTE);
    if (legacy_decode_to_utf8_raw(&tables, &d, &none, 0, &none, 0, true).status != LEGACY_REFUSED) fails("no table was needed");
    jis0208[0] = 0xD800;
    struct legacy_fault fault = legacy_tables_check(&tables);
    if (fault.kind != LEGACY_BAD_ENTRY || fault.index != 3 || fault.place != 0 || tables.checked != 0) fails("a bad entry was taken");
    jis0208[0] = 0x3000;
    if (legacy_tables_check(&tables).kind != LEGACY_NO_FAULT || tables.checked != 1) fails("the indexes are refused");
    if (legacy_single_byte_check(&tables).kind != LEGACY_NO_FAULT || tables.single_byte_checked != 1) fails("the table is refused");
    for (long i = 0; i < calls; i++) {
        try_decoder(&tables, &refused);
        try_encoder(&tables, &refused);
    }
    printf("%ld calls, %ld refused\n", 2 * calls, refused);
    return refused == 0 || refused == 2 * calls;
}
