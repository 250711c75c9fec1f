/* Reads the Standard's index files (https://encoding.spec.whatwg.org/index-jis0208.txt and others) for the examples. */
#ifndef INDEXES_H
#define INDEXES_H

#include <legacy_codecs.h>
#include <stdio.h>
#include <string.h>

static uint32_t big5[19782];
static uint16_t euc_kr[23940], jis0208[11280], jis0212[8836], gb18030[23940], katakana[63], single_byte[128];
static struct legacy_range ranges[256];

/* Reads the next line with a pointer and a scalar value. Returns whether there is one. */
static int read_entry(FILE *file, unsigned long *pointer, unsigned long *scalar)
{
    char line[256];
    while (fgets(line, sizeof line, file))
        if (sscanf(line, " %lu 0x%lx", pointer, scalar) == 2) return 1;
    return 0;
}

/* Opens FOLDER/index-NAME.txt, or returns NULL. */
static FILE *open_index(const char *folder, const char *name)
{
    char path[1024];
    snprintf(path, sizeof path, "%s/index-%s.txt", folder, name);
    return fopen(path, "r");
}

/* Reads an index of 16-bit entries. Returns their number, which is 0 if there is no file. */
static size_t read_narrow(const char *folder, const char *name, uint16_t *entries, size_t limit)
{
    unsigned long pointer, scalar;
    size_t count = 0;
    FILE *file = open_index(folder, name);
    while (file && read_entry(file, &pointer, &scalar))
        if (pointer < limit && scalar <= 0xFFFF) {
            entries[pointer] = (uint16_t)scalar;
            if (pointer >= count) count = pointer + 1;
        }
    if (file) fclose(file);
    return count;
}

static size_t read_big5(const char *folder)
{
    unsigned long pointer, scalar;
    size_t count = 0;
    FILE *file = open_index(folder, "big5");
    while (file && read_entry(file, &pointer, &scalar))
        if (pointer < 19782) {
            big5[pointer] = (uint32_t)scalar;
            if (pointer >= count) count = pointer + 1;
        }
    if (file) fclose(file);
    /* The Standard's decoder has these four by itself. */
    big5[1133] = big5[1135] = big5[1164] = big5[1166] = 0;
    return count;
}

static size_t read_ranges(const char *folder)
{
    unsigned long pointer, scalar;
    size_t count = 0;
    FILE *file = open_index(folder, "gb18030-ranges");
    while (file && count < 256 && read_entry(file, &pointer, &scalar))
        if (pointer < 39420) {
            ranges[count].pointer = (uint16_t)pointer;
            ranges[count++].scalar = (uint16_t)scalar;
        }
    if (file) fclose(file);
    return count;
}

/* Reads and checks the indexes of a folder, and that of a single-byte encoding if `encoding` is not NULL. An index without
 * a file is empty. Returns whether all are accepted. */
static int read_indexes(const char *folder, const char *encoding, struct legacy_tables *tables)
{
    struct legacy_fault fault;
    memset(tables, 0, sizeof *tables);
    tables->big5 = big5;
    tables->big5_length = read_big5(folder);
    tables->euc_kr = euc_kr;
    tables->euc_kr_length = read_narrow(folder, "euc-kr", euc_kr, 23940);
    tables->jis0208 = jis0208;
    tables->jis0208_length = read_narrow(folder, "jis0208", jis0208, 11280);
    /* These are private-use scalar values in Shift_JIS, which its decoder has by itself. */
    if (tables->jis0208_length > 8836) memset(jis0208 + 8836, 0, (10716 - 8836) * sizeof *jis0208);
    tables->jis0212 = jis0212;
    tables->jis0212_length = read_narrow(folder, "jis0212", jis0212, 8836);
    tables->gb18030 = gb18030;
    tables->gb18030_length = read_narrow(folder, "gb18030", gb18030, 23940);
    tables->katakana = katakana;
    tables->katakana_length = read_narrow(folder, "iso-2022-jp-katakana", katakana, 63);
    tables->ranges = ranges;
    tables->ranges_length = read_ranges(folder);
    tables->single_byte = single_byte;
    if (encoding) {
        read_narrow(folder, encoding, single_byte, 128);
        tables->single_byte_length = 128;
        fault = legacy_single_byte_check(tables);
        if (fault.kind != LEGACY_NO_FAULT) return 0;
    }
    fault = legacy_tables_check(tables);
    if (fault.kind != LEGACY_NO_FAULT)
        fprintf(stderr, "index %u: fault %u at %lu\n", (unsigned)fault.index, (unsigned)fault.kind, (unsigned long)fault.place);
    return fault.kind == LEGACY_NO_FAULT;
}

#endif
