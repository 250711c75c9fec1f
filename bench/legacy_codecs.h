/* The codecs of the WHATWG Encoding Standard's legacy encodings, which the static library
 * legacy_exports gives to other languages. It has a function for each direction and each encoding
 * form, by raw calls and by calls with replacement. Every function takes the number of a codec. */
#ifndef LEGACY_CODECS_H
#define LEGACY_CODECS_H

#include <stdbool.h>
#include <stddef.h>
#include <stdint.h>

#ifdef __cplusplus
extern "C" {
#endif

/* The numbers of the codecs, in the order of the Standard. No codec has the number 0, and a number
 * is never given to another codec. GBK and gb18030 have one decoder and two encoders. replacement and
 * the two of UTF-16 have no encoder: their output encoding is UTF-8. */
enum legacy_codec {
    LEGACY_SINGLE_BYTE = 1, /* any single-byte encoding, by its index */
    LEGACY_GBK = 2,
    LEGACY_GB18030 = 3,
    LEGACY_BIG5 = 4,
    LEGACY_EUC_JP = 5,
    LEGACY_ISO_2022_JP = 6,
    LEGACY_SHIFT_JIS = 7,
    LEGACY_EUC_KR = 8,
    LEGACY_REPLACEMENT = 9,
    LEGACY_UTF_16BE = 10,
    LEGACY_UTF_16LE = 11,
    LEGACY_X_USER_DEFINED = 12
};

/* The result of a function that refuses the codec's number or the indexes. Nothing was written. */
#define LEGACY_REFUSED SIZE_MAX

/* The number of 16-bit entries in an encoder's list of the pairs of all scalar values below U+10000. */
#define LEGACY_PAIR_ROOM 0x10000

/* A range of index gb18030 ranges: its first pointer, and the scalar value of that pointer. */
struct legacy_range {
    uint16_t pointer;
    uint16_t scalar;
};

/* A run of an index: length pointers from the pointer on have the scalar values from scalar on. */
struct legacy_run {
    uint16_t pointer;
    uint32_t scalar;
    uint16_t length;
};

/* The indexes as runs, in the order of their pointers, and the pointers that each encoder uses, in
 * the order of their scalar values. Each is a pointer to its entries and then their number. They are
 * checked against the flat indexes, and must say the same. */
struct legacy_packed {
    const struct legacy_run *big5;
    size_t big5_length;
    const struct legacy_run *euc_kr;
    size_t euc_kr_length;
    const struct legacy_run *jis0208;
    size_t jis0208_length;
    const struct legacy_run *jis0212;
    size_t jis0212_length;
    const struct legacy_run *gb18030;
    size_t gb18030_length;
    /* the first pointer of each scalar value from 5024 on, and the last of U+2550, U+255E, U+2561,
     * U+256A, U+5341 and U+5345 */
    const uint16_t *big5_order;
    size_t big5_order_length;
    /* the first pointer of each scalar value */
    const uint16_t *euc_kr_order;
    size_t euc_kr_order_length;
    /* the first pointer of each scalar value of jis0208 outside 8272 to 8835 */
    const uint16_t *shift_jis_order;
    size_t shift_jis_order_length;
    /* the first pointer of each scalar value of jis0208 below 8836: EUC-JP and ISO-2022-JP */
    const uint16_t *euc_jp_order;
    size_t euc_jp_order_length;
    /* the first pointer of each scalar value: GBK and gb18030 */
    const uint16_t *gb18030_order;
    size_t gb18030_order_length;
};

/* The Standard's indexes, each as a pointer to its entries and then their number. Entry p of an
 * index is the scalar value of pointer p, or 0 if it has none. Pointers past the end have none. An
 * index that the codec does not read may be empty, with any pointer that is aligned and not null.
 * For every codec all indexes except single_byte are checked. An index is refused if it has too many
 * entries or an entry that it cannot have. */
struct legacy_indexes {
    /* index Big5, at most 19782 entries: Big5 */
    const uint32_t *big5;
    size_t big5_length;
    /* index EUC-KR, at most 23940 entries: EUC-KR */
    const uint16_t *euc_kr;
    size_t euc_kr_length;
    /* index jis0208, at most 11280 entries, 0 from 8836 to 10715: EUC-JP, ISO-2022-JP, Shift_JIS */
    const uint16_t *jis0208;
    size_t jis0208_length;
    /* index jis0212, at most 8836 entries: EUC-JP */
    const uint16_t *jis0212;
    size_t jis0212_length;
    /* index gb18030, at most 23940 entries: GBK, gb18030 */
    const uint16_t *gb18030;
    size_t gb18030_length;
    /* index ISO-2022-JP katakana, 63 entries or none: the encoder of ISO-2022-JP */
    const uint16_t *katakana;
    size_t katakana_length;
    /* index gb18030 ranges, at most 256, by rising pointers, without the range from 189000 on, which
     * is built in: GBK, gb18030 */
    const struct legacy_range *ranges;
    size_t ranges_length;
    /* the index of a single-byte encoding, 128 entries for the bytes 80 to FF: single-byte, which
     * refuses any other number of them. No other codec reads it */
    const uint16_t *single_byte;
    size_t single_byte_length;
    /* whether packed tables are made, from the flat indexes above and the parts below. Otherwise flat
     * tables are made, and the parts are not read */
    bool is_packed;
    struct legacy_packed packed;
};

/* Decoders.
 *
 * They decode the whole source and write its text to the beginning of the output. They write U+FFFD
 * for each malformed sequence: after a raw call, or by calls with replacement. They stop if the output
 * has no room for what comes next.
 *
 * codec:         the number of a codec, one of enum legacy_codec
 * indexes:       the indexes; they are only read
 * source:        the bytes to decode
 * source_length: their number
 * output:        memory for the code units, which must not overlap the source
 * output_length: its length in code units
 * piece:         the number of bytes of the source in each call of the decoder, or 0 for all
 * times:         the number of times that the source is decoded, each time to the beginning of the
 *                output and all times by one decoder, so that a caller can time short sources
 *
 * They return the number of code units written the last time, which is at most output_length, or
 * LEGACY_REFUSED. No pointer may be null, even if its length is 0. */

/* Decodes to UTF-8: a code unit is a byte. */
size_t legacy_decode_to_utf8(uint32_t codec, const struct legacy_indexes *indexes,
                             const uint8_t *source, size_t source_length,
                             uint8_t *output, size_t output_length,
                             size_t piece, size_t times);

/* Decodes to UTF-16: a code unit has 16 bits, in the byte order of the machine. */
size_t legacy_decode_to_utf16(uint32_t codec, const struct legacy_indexes *indexes,
                              const uint8_t *source, size_t source_length,
                              uint16_t *output, size_t output_length,
                              size_t piece, size_t times);

/* The same two by calls with replacement. */
size_t legacy_decode_replacing_to_utf8(uint32_t codec, const struct legacy_indexes *indexes,
                                       const uint8_t *source, size_t source_length,
                                       uint8_t *output, size_t output_length,
                                       size_t piece, size_t times);

size_t legacy_decode_replacing_to_utf16(uint32_t codec, const struct legacy_indexes *indexes,
                                        const uint8_t *source, size_t source_length,
                                        uint16_t *output, size_t output_length,
                                        size_t piece, size_t times);

/* Encoders.
 *
 * They encode the whole source and write its bytes to the beginning of the output. For each
 * unmappable scalar value they write a question mark after a raw call, or by calls with replacement a
 * reference, as &#128169;. They stop if the output has no room for what comes next. Calls with
 * replacement also stop if there is no room for a reference after it. The private-use rows of gb18030
 * are those of GB18030-2022.
 *
 * codec:         the number of a codec with an encoder
 * indexes:       the indexes; they are only read
 * source:        the text to encode
 * source_length: its length in code units
 * output:        memory for the bytes, which must not overlap the source
 * output_length: its length in bytes
 * piece:         the number of code units of the source in each call of the encoder, moved up to the
 *                next place between two characters, or 0 for all
 * times:         the number of times that the source is encoded, each time to the beginning of the
 *                output and all times by one encoder
 * room:          memory of the caller with any contents, which must overlap nothing else. If it has
 *                LEGACY_PAIR_ROOM entries or more, the encoders of Big5, EUC-JP, EUC-KR, GBK, gb18030,
 *                ISO-2022-JP and Shift_JIS begin each call with a list of the pairs of all scalar
 *                values below U+10000 there, and then search for none. Its contents after a call have
 *                no meaning
 * room_length:   its number of entries, which may be 0
 *
 * They return the number of bytes written the last time, which is at most output_length, or
 * LEGACY_REFUSED, also if a source in UTF-8 is malformed. No pointer may be null, even if its length
 * is 0. */

/* Encodes from UTF-8: a code unit is a byte. */
size_t legacy_encode_from_utf8(uint32_t codec, const struct legacy_indexes *indexes,
                               const uint8_t *source, size_t source_length,
                               uint8_t *output, size_t output_length,
                               size_t piece, size_t times,
                               uint16_t *room, size_t room_length);

/* Encodes from UTF-16: a code unit has 16 bits, in the byte order of the machine. An unpaired
 * surrogate counts as U+FFFD. */
size_t legacy_encode_from_utf16(uint32_t codec, const struct legacy_indexes *indexes,
                                const uint16_t *source, size_t source_length,
                                uint8_t *output, size_t output_length,
                                size_t piece, size_t times,
                                uint16_t *room, size_t room_length);

/* The same two by calls with replacement. */
size_t legacy_encode_replacing_from_utf8(uint32_t codec, const struct legacy_indexes *indexes,
                                         const uint8_t *source, size_t source_length,
                                         uint8_t *output, size_t output_length,
                                         size_t piece, size_t times,
                                         uint16_t *room, size_t room_length);

size_t legacy_encode_replacing_from_utf16(uint32_t codec, const struct legacy_indexes *indexes,
                                          const uint16_t *source, size_t source_length,
                                          uint8_t *output, size_t output_length,
                                          size_t piece, size_t times,
                                          uint16_t *room, size_t room_length);

#ifdef __cplusplus
}
#endif

#endif
