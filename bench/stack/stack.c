/* Prints how much stack each function of legacy_codecs.h needs, for each codec, over flat and over packed tables, and of
 * the encoders also with their pairs in room that is lent.
 *
 * A thread runs each call on a stack of 128 KB of its own that was filled with one byte. What the call left of that byte,
 * from the low end on, it did not need. The program fails if a call needs more than LIMIT, or if one refuses its tables. */
#include "../legacy_codecs.h"
#include <pthread.h>
#include <stdio.h>
#include <stdlib.h>
#include <string.h>
#include <sys/mman.h>

enum { STACK = 128 * 1024, MARK = 0xA5, LIMIT = 16 * 1024 };

/* A call of one of the eight functions. */
struct call {
    int function;
    uint32_t codec;
    const struct legacy_indexes *indexes;
    size_t room_length;
    size_t written;
};

static const char *const NAMES[8] = {
    "legacy_decode_to_utf8", "legacy_decode_to_utf16", "legacy_decode_replacing_to_utf8",
    "legacy_decode_replacing_to_utf16", "legacy_encode_from_utf8", "legacy_encode_from_utf16",
    "legacy_encode_replacing_from_utf8", "legacy_encode_replacing_from_utf16"};

static const uint8_t BYTES[] = {0x61, 0x80, 0xB0, 0xA1, 0x81, 0x30, 0x81, 0x30, 0x8F, 0xB0, 0xA1, 0x1B,
                                0x24, 0x42, 0x30, 0x21, 0x1B, 0x28, 0x42, 0xFF, 0x8E, 0xB1, 0x00, 0xD8};
static const uint8_t TEXT[] = "a\xC2\xA5\xE3\x81\x82\xEA\xB0\x80\xE4\xBA\x9C\xF0\x9F\x92\xA9 b";
static const uint16_t UNITS[] = {'a', 0xA5, 0x3042, 0xAC00, 0x4E9C, 0xD83D, 0xDCA9, 0xDC00, ' ', 'b'};

static uint8_t output_bytes[4096];
static uint16_t output_units[4096];
static uint16_t room[LEGACY_PAIR_ROOM];

static void *make(void *given) {
    struct call *call = given;
    uint32_t codec = call->codec;
    const struct legacy_indexes *all = call->indexes;
    size_t length = call->room_length;
    switch (call->function) {
    case 0: call->written = legacy_decode_to_utf8(codec, all, BYTES, sizeof BYTES, output_bytes, 4096, 3, 1); break;
    case 1: call->written = legacy_decode_to_utf16(codec, all, BYTES, sizeof BYTES, output_units, 4096, 3, 1); break;
    case 2: call->written = legacy_decode_replacing_to_utf8(codec, all, BYTES, sizeof BYTES, output_bytes, 4096, 3, 1); break;
    case 3: call->written = legacy_decode_replacing_to_utf16(codec, all, BYTES, sizeof BYTES, output_units, 4096, 3, 1); break;
    case 4: call->written = legacy_encode_from_utf8(codec, all, TEXT, sizeof TEXT - 1, output_bytes, 4096, 0, 1, room, length); break;
    case 5: call->written = legacy_encode_from_utf16(codec, all, UNITS, 10, output_bytes, 4096, 0, 1, room, length); break;
    case 6: call->written = legacy_encode_replacing_from_utf8(codec, all, TEXT, sizeof TEXT - 1, output_bytes, 4096, 0, 1, room, length); break;
    case 7: call->written = legacy_encode_replacing_from_utf16(codec, all, UNITS, 10, output_bytes, 4096, 0, 1, room, length); break;
    }
    return NULL;
}

static int is_without_encoder(uint32_t codec) {
    return codec == LEGACY_REPLACEMENT || codec == LEGACY_UTF_16BE || codec == LEGACY_UTF_16LE;
}

static void *nothing(void *given) { return given; }

/* Returns the number of bytes of stack of a thread that runs the function. */
static size_t used(void *(*function)(void *), void *given) {
    uint8_t *low = mmap(NULL, STACK, PROT_READ | PROT_WRITE, MAP_PRIVATE | MAP_ANONYMOUS, -1, 0);
    pthread_attr_t attributes;
    pthread_t thread;
    size_t left = 0;
    if (low == MAP_FAILED) exit(2);
    memset(low, MARK, STACK);
    if (pthread_attr_init(&attributes) || pthread_attr_setstack(&attributes, low, STACK)
        || pthread_create(&thread, &attributes, function, given) || pthread_join(thread, NULL))
        exit(2);
    while (left < STACK && low[left] == MARK) left++;
    munmap(low, STACK);
    return STACK - left;
}

int main(void) {
    static uint32_t wide[1];
    static uint16_t narrow[1], single_byte[128];
    static struct legacy_range ranges[1];
    static struct legacy_run runs[1];
    struct legacy_indexes indexes = {
        wide, 0, narrow, 0, narrow, 0, narrow, 0, narrow, 0, narrow, 0, ranges, 0, single_byte, 128,
        false,
        {runs, 0, runs, 0, runs, 0, runs, 0, runs, 0, narrow, 0, narrow, 0, narrow, 0, narrow, 0, narrow, 0}};
    size_t own = used(nothing, NULL);
    int fails = 0;
    puts("| function | least stack over flat tables | over packed tables | with pairs listed ahead |\n|---|---|---|---|");
    for (int function = 0; function < 8; function++) {
        size_t most[3] = {0, 0, 0};
        for (int kind = 0; kind < (function < 4 ? 2 : 3); kind++)
            for (uint32_t codec = 1; codec <= 12; codec++) {
                struct call call = {function, codec, &indexes, kind == 2 ? LEGACY_PAIR_ROOM : 0, 0};
                size_t bytes;
                indexes.is_packed = kind == 1;
                bytes = used(make, &call) - own;
                if (bytes > most[kind]) most[kind] = bytes;
                fails |= call.written == LEGACY_REFUSED && !(function >= 4 && is_without_encoder(codec));
            }
        printf("| %s | %zu | %zu | %zu |\n", NAMES[function], most[0], most[1], most[2]);
        fails |= most[0] > LIMIT || most[1] > LIMIT || most[2] > LIMIT;
    }
    return fails;
}
