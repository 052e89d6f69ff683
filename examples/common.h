/* What the examples share: a sheet read from its file, and an answer or a store told in words. */
#ifndef COMMON_H
#define COMMON_H

#include "beltuqash.h"

#include <stdio.h>
#include <string.h>

/* A sheet's bytes. A file that is longer than any sheet that passes is read by what fits, and is refused either way. */
struct sheet {
    uint8_t bytes[BELTUQASH_LONGEST_SHEET + 1];
    size_t length;
};

/* Reads the sheet in a file; tells why if it cannot, and says whether it could. */
static inline int read_sheet(const char *path, struct sheet *sheet)
{
    FILE *file = fopen(path, "rb");
    if (file == NULL) {
        perror(path);
        return 0;
    }
    sheet->length = fread(sheet->bytes, 1, sizeof sheet->bytes, file);
    int read = !ferror(file);
    if (!read)
        perror(path);
    fclose(file);
    return read;
}

/* The same, for a program that goes on only with a sheet that passes. */
static inline int load_sheet(const char *path, struct sheet *sheet)
{
    if (!read_sheet(path, sheet))
        return 0;
    uint64_t word = beltuqash_load(sheet->bytes, sheet->length);
    unsigned number = beltuqash_number(word);
    if (number != BELTUQASH_DONE)
        fprintf(stderr, "%s: refused with number %u at %u: %s\n", path, number, beltuqash_place(word), beltuqash_reason(number));
    return number == BELTUQASH_DONE;
}

/* Whether a field of the sheet has this name. */
static inline int is_named(const struct sheet *sheet, unsigned field, const char *name)
{
    return strlen(name) <= BELTUQASH_NAME_BYTES && strncmp(beltuqash_name(sheet->bytes, field), name, BELTUQASH_NAME_BYTES) == 0;
}

static inline const char *mode_name(uint32_t mode) { return mode == BELTUQASH_STRICT ? "strict" : "permissive"; }

/* A field of a store: its value and its mark. */
static inline void print_field(const struct sheet *sheet, const uint8_t *store, unsigned field)
{
    unsigned mark = beltuqash_mark(store, field);
    printf("  %.*s is %d, %s at level %u", BELTUQASH_NAME_BYTES, beltuqash_name(sheet->bytes, field), beltuqash_value(store, field),
           beltuqash_is_partial(mark) ? "partial" : "whole", beltuqash_level(mark));
}

/* For the house: what a call gave. */
static inline void print_answer(uint64_t word)
{
    unsigned number = beltuqash_number(word);
    printf("number %u at %u after %u units: %s\n", number, beltuqash_place(word), (unsigned)beltuqash_units(word), beltuqash_reason(number));
}

#endif
