/* legacy_codecs: streaming decoders and encoders of the WHATWG Encoding Standard, except UTF-8.
 *
 * A coder is a few numbers in the caller's memory. A call makes the coder of the numbers, decodes or encodes once, and
 * writes the numbers back. Nothing is allocated, no function keeps a pointer, and there is no global state.
 *
 * In every call:
 * - Null is allowed nowhere, even with a length of 0. Pass the address of any object of the type.
 * - The objects that are passed to one call must not overlap, but tables and indexes may be shared.
 * - If the output is longer than what was written, the rest of the output may have changed.
 * - Lengths of UTF-16 are counted in code units of 16 bits, in the byte order of the machine.
 *
 * What the caller promises, and no function checks:
 * 1. Only legacy_tables_check sets `checked`, and only legacy_single_byte_check sets `single_byte_checked`, to another
 *    value than 0.
 * 2. After such a check succeeded, the indexes that it read do not change while the struct is in use.
 *
 * Threads may share tables and indexes that were checked. A coder and its buffers belong to one thread at a time. All
 * functions may be called in a signal handler. */
#ifndef LEGACY_CODECS_INTERFACE_H
#define LEGACY_CODECS_INTERFACE_H

#include <stdbool.h>
#include <stddef.h>
#include <stdint.h>

/* The version of the interface: installed files take it from here. A change of the first number breaks programs. */
#define LEGACY_CODECS_VERSION "0.1.0"

#ifdef __cplusplus
extern "C" {
#endif

/* The numbers of the codecs. GBK and gb18030 have one decoder and two encoders. LEGACY_REPLACEMENT and the two of
 * UTF-16 have no encoder: the Standard encodes them as UTF-8. */
enum legacy_codec {
    LEGACY_SINGLE_BYTE = 1, /* any single-byte encoding, by its index */
    LEGACY_GBK = 2,
    LEGACY_GB18030 = 3,
    LEGACY_BIG5 = 4,
    LEGACY_EUC_JP = 5,
    LEGACY_ISO_2022_JP = 6,
    LEGACY_SHIFT_JIS = 7,
    LEGACY_EUC_KR = 8,
    LEGACY_REPLACEMENT = 9,
    LEGACY_UTF_16BE = 10,
    LEGACY_UTF_16LE = 11,
    LEGACY_X_USER_DEFINED = 12
};

/* How a call ended. */
enum legacy_status {
    /* The whole source is read, but see "Text in UTF-8" for a character that is cut off. On a call with `last` the
     * end is done too. */
    LEGACY_INPUT_EMPTY = 0,
    /* The next step needs more room. If that is so when the call begins, nothing is read, written or changed. */
    LEGACY_OUTPUT_FULL = 1,
    /* Raw decoders: a malformed sequence was read. The output has room for U+FFFD after what was written. */
    LEGACY_MALFORMED = 2,
    /* Raw encoders: a scalar value was read that has no bytes in the encoding. */
    LEGACY_UNMAPPABLE = 2,
    /* The indexes that the codec reads were not checked, or the numbers are those of no coder. Nothing is read, written
     * or changed. */
    LEGACY_REFUSED = 3,
    /* Encoders: all is read up to bytes that are no UTF-8. */
    LEGACY_NOT_UTF8 = 4
};

/* ---- Indexes ---- */

/* A range of index gb18030 ranges: its first pointer, and the scalar value of that pointer. */
struct legacy_range {
    uint16_t pointer;
    uint16_t scalar;
};

/* The Standard's indexes, each as a pointer to its entries and then their number. Entry p is the scalar value of pointer
 * p, or 0 if the pointer has none. Pointers past the end have none, so an index may be empty. The struct may be copied,
 * also after a check. A program that uses several single-byte encodings has a copy for each. */
struct legacy_tables {
    const uint32_t *big5; /* at most 19782 entries, with 0 at 1133, 1135, 1164 and 1166 */
    size_t big5_length;
    const uint16_t *euc_kr; /* at most 23940 entries */
    size_t euc_kr_length;
    const uint16_t *jis0208; /* at most 11280 entries, with 0 from 8836 to 10715 */
    size_t jis0208_length;
    const uint16_t *jis0212; /* at most 8836 entries */
    size_t jis0212_length;
    const uint16_t *gb18030; /* at most 23940 entries */
    size_t gb18030_length;
    const uint16_t *katakana; /* index ISO-2022-JP katakana: 63 entries or none */
    size_t katakana_length;
    const struct legacy_range *ranges; /* at most 256, by rising pointers, without that from 189000 on */
    size_t ranges_length;
    const uint16_t *single_byte; /* the index of a single-byte encoding: 128 entries, for the bytes 80 to FF */
    size_t single_byte_length;
    uint32_t checked;             /* set it to 0 before legacy_tables_check */
    uint32_t single_byte_checked; /* set it to 0 before legacy_single_byte_check */
};

/* The kinds of faults. */
enum legacy_fault_kind {
    LEGACY_NO_FAULT = 0,
    LEGACY_TOO_LONG = 1,         /* the index has more entries than pointers */
    LEGACY_BAD_ENTRY = 2,        /* the entry at the place is no scalar value that the index may contain */
    LEGACY_NOT_EMPTY = 3,        /* the entry at the place must be 0 */
    LEGACY_KATAKANA_LENGTH = 4,  /* index katakana has neither 0 nor 63 entries */
    LEGACY_RANGE_ORDER = 5,      /* the range at the place is too high, or too low for the range before it */
    LEGACY_RANGE_VALUE = 6,      /* the range at the place has a scalar value that it may not have */
    LEGACY_BAD_BYTE_ENTRY = 7,   /* the entry at the place of a single-byte index is no scalar value that it may contain */
    LEGACY_REPEATED = 8,         /* the entry at the place of a single-byte index is equal to an earlier one */
    LEGACY_TOO_MANY_RANGES = 9,  /* there are more than 256 ranges; the place is 256 */
    LEGACY_SINGLE_BYTE_LENGTH = 10 /* the single-byte index has not 128 entries */
};

/* The first fault of indexes, in the order of the fields. */
struct legacy_fault {
    uint32_t kind;  /* of enum legacy_fault_kind */
    uint32_t index; /* the number of the index, by the order of the fields: 1 for big5 to 8 for single_byte; or 0 */
    size_t place;   /* the place of the entry or range, or 0 */
};

/* Checks the first seven indexes. Sets `checked` to 1 and returns a fault of kind 0 if they are accepted. Otherwise sets it
 * to 0 and returns the first fault. Nothing else changes. All codecs but single-byte, replacement, UTF-16 and
 * x-user-defined need this check. */
struct legacy_fault legacy_tables_check(struct legacy_tables *tables);

/* The same for the index of a single-byte encoding, with `single_byte_checked`. Only the single-byte codec needs it. */
struct legacy_fault legacy_single_byte_check(struct legacy_tables *tables);

/* ---- Decoders ---- */

/* The state of a decoder between two calls. It may be copied, stored and compared, and may contain any numbers: calls
 * refuse those that are the state of no decoder. */
struct legacy_decoder {
    uint32_t codec;
    uint8_t mode;    /* in ISO-2022-JP 0 to 3, in replacement 1 after its report, otherwise 0 */
    uint8_t count;   /* the number of held-back bytes, 0 to 5 */
    uint8_t held[5]; /* the held-back bytes, and then bytes without meaning */
};

/* The result of a call. */
struct legacy_decoded {
    uint32_t status;
    /* After LEGACY_MALFORMED: the sequence has `length` bytes (1 to 4), and ends `back` bytes (0 to 3) before the end of
     * all bytes read, those of earlier calls included. Otherwise both are 0. */
    uint8_t length;
    uint8_t back;
    bool replaced;  /* calls with replacement: U+FFFD was written for a malformed sequence */
    size_t read;    /* the number of bytes of the source that were read */
    size_t written; /* the number of code units at the beginning of the output */
};

/* Makes a decoder one before its first byte. It does not check the codec: calls refuse a number that no codec has. */
void legacy_decoder_init(struct legacy_decoder *decoder, uint32_t codec);

/* Decodes to UTF-8, up to the first malformed sequence, the end of the source or a full output.
 *
 * Pass the unread rest of a source again, before the next source. `last` is set on the calls with the last source and on
 * no others. Only whole scalar values are written. A decoder that holds bytes back between two calls is in no error:
 * they are decoded with those that follow. After any result the decoder continues, also after a last one. With an output
 * of at least 4 bytes each call reads, writes or reports something, or the source is read. */
struct legacy_decoded legacy_decode_to_utf8_raw(const struct legacy_tables *tables, struct legacy_decoder *decoder,
                                                const uint8_t *source, size_t source_length,
                                                uint8_t *output, size_t output_length, bool last);

/* The same to UTF-16, with an output of at least 2 code units. */
struct legacy_decoded legacy_decode_to_utf16_raw(const struct legacy_tables *tables, struct legacy_decoder *decoder,
                                                 const uint8_t *source, size_t source_length,
                                                 uint16_t *output, size_t output_length, bool last);

/* The same two with U+FFFD for each malformed sequence: they return LEGACY_INPUT_EMPTY, LEGACY_OUTPUT_FULL or
 * LEGACY_REFUSED. */
struct legacy_decoded legacy_decode_replacing_utf8(const struct legacy_tables *tables, struct legacy_decoder *decoder,
                                                   const uint8_t *source, size_t source_length,
                                                   uint8_t *output, size_t output_length, bool last);

struct legacy_decoded legacy_decode_replacing_utf16(const struct legacy_tables *tables, struct legacy_decoder *decoder,
                                                    const uint8_t *source, size_t source_length,
                                                    uint16_t *output, size_t output_length, bool last);

/* A length, or why there is none. */
struct legacy_length {
    uint32_t status; /* LEGACY_LENGTH, LEGACY_LENGTH_TOO_LARGE or LEGACY_REFUSED */
    size_t length;   /* the length, or 0 */
};
enum { LEGACY_LENGTH = 0, LEGACY_LENGTH_TOO_LARGE = 1 /* it exceeds SIZE_MAX */ };

/* Returns a number of bytes of UTF-8 that is enough for at most byte_length more bytes of a source, in one call or in
 * several, with U+FFFD for each malformed sequence. No call with such an output returns LEGACY_OUTPUT_FULL. */
struct legacy_length legacy_decoder_utf8_length(const struct legacy_tables *tables, const struct legacy_decoder *decoder,
                                                size_t byte_length);

/* The same with nothing for malformed sequences, for raw calls. */
struct legacy_length legacy_decoder_utf8_length_without_replacement(const struct legacy_tables *tables,
                                                                    const struct legacy_decoder *decoder, size_t byte_length);

/* The same in code units of UTF-16, with U+FFFD for each malformed sequence. */
struct legacy_length legacy_decoder_utf16_length(const struct legacy_tables *tables, const struct legacy_decoder *decoder,
                                                 size_t byte_length);

/* Returns whether the decoder holds nothing back, and is in ASCII mode if its codec is ISO-2022-JP. The result has no
 * meaning if the numbers are the state of no decoder. */
bool legacy_decoder_is_neutral(const struct legacy_decoder *decoder);

/* Returns the number of bytes that the decoder holds back. The result has no meaning if the numbers are the state of no
 * decoder. */
size_t legacy_decoder_held_count(const struct legacy_decoder *decoder);

/* ---- Encoders ---- */

/* The state of an encoder between two calls. It may be copied, stored and compared, and may contain any numbers. */
struct legacy_encoder {
    uint32_t codec;
    uint8_t mode; /* in ISO-2022-JP 0 to 2, otherwise 0 */
};

/* The result of a call. */
struct legacy_encoded {
    uint32_t status;
    /* After LEGACY_UNMAPPABLE: the scalar value that was read and has no bytes, otherwise 0. In ISO-2022-JP it is U+FFFD
     * where U+000E, U+000F or U+001B was read. */
    uint32_t scalar;
    size_t length;  /* after LEGACY_NOT_UTF8: the number of malformed bytes after those read (1 to 3), otherwise 0 */
    size_t read;    /* the number of code units of the source that were read, which splits no character */
    size_t written; /* the number of bytes at the beginning of the output */
    bool replaced;  /* calls with replacement: a reference was written for an unmappable scalar value */
};

/* Makes an encoder one before its first character. It does not check the codec: calls refuse a number that no codec with
 * an encoder has. */
void legacy_encoder_init(struct legacy_encoder *encoder, uint32_t codec);

/* Encodes a text in UTF-8, up to the first unmappable scalar value, malformed bytes, the end of the source or a full
 * output.
 *
 * Pass the unread rest of a source again, before the next source. `last` is set on the calls with the last source and on
 * no others. With an output of at least 4 bytes each call reads, writes or reports something, or the source is read.
 *
 * Text in UTF-8: each call checks the whole source, so pass pieces that are not much longer than the output. If the source
 * ends inside a character and `last` is not set, the call reads up to it and returns LEGACY_INPUT_EMPTY: the one to
 * three bytes that are left are part of the next source. At bytes that are no UTF-8, all before them is read and the
 * status is LEGACY_NOT_UTF8. Skip `length` bytes to continue. With `last` the end of the text is not done then: it takes
 * one more call, with the rest of the source, which may be empty. */
struct legacy_encoded legacy_encode_from_utf8_raw(const struct legacy_tables *tables, struct legacy_encoder *encoder,
                                                  const uint8_t *source, size_t source_length,
                                                  uint8_t *output, size_t output_length, bool last);

/* The same for a text in UTF-16. An unpaired surrogate is read as U+FFFD: pass the two halves of a pair in one call. */
struct legacy_encoded legacy_encode_from_utf16_raw(const struct legacy_tables *tables, struct legacy_encoder *encoder,
                                                   const uint16_t *source, size_t source_length,
                                                   uint8_t *output, size_t output_length, bool last);

/* The same two with a decimal reference, as &#233;, for each unmappable scalar value. They keep 10 bytes free for a
 * reference, and so need an output of at least 14 bytes. */
struct legacy_encoded legacy_encode_replacing_utf8(const struct legacy_tables *tables, struct legacy_encoder *encoder,
                                                   const uint8_t *source, size_t source_length,
                                                   uint8_t *output, size_t output_length, bool last);

struct legacy_encoded legacy_encode_replacing_utf16(const struct legacy_tables *tables, struct legacy_encoder *encoder,
                                                    const uint16_t *source, size_t source_length,
                                                    uint8_t *output, size_t output_length, bool last);

/* Returns a number of bytes that is enough for at most byte_length more bytes of UTF-8, in one call or in several, with
 * nothing for unmappable scalar values. No raw call with such an output returns LEGACY_OUTPUT_FULL. */
struct legacy_length legacy_encoder_length_from_utf8(const struct legacy_tables *tables, const struct legacy_encoder *encoder,
                                                     size_t byte_length);

/* The same for code units of UTF-16. */
struct legacy_length legacy_encoder_length_from_utf16(const struct legacy_tables *tables, const struct legacy_encoder *encoder,
                                                      size_t u16_length);

/* Returns whether the end of the text would write bytes: an escape to ASCII in ISO-2022-JP. The result has no meaning if
 * the numbers are the state of no encoder. */
bool legacy_encoder_has_pending_state(const struct legacy_encoder *encoder);

#ifdef __cplusplus
}
#endif

#endif
