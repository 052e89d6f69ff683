/* The monitor by hand in C, after documents 01 and 02: what the archive's calls are measured against. */
#ifndef MONITOR_H
#define MONITOR_H

#include "beltuqash.h"

/* All take what the archive's calls take, answer the same word and write the same bytes. */
uint64_t c_load(const uint8_t *sheet, size_t sheet_len);
uint64_t c_run(const uint8_t *sheet, size_t sheet_len, const uint8_t *store, size_t store_len,
               uint32_t mode, uint32_t fuel, uint8_t *out, size_t out_len);
uint64_t c_hand_out(const uint8_t *sheet, size_t sheet_len, const uint8_t *store, size_t store_len, uint32_t reader,
                    const uint8_t *request, size_t request_len, uint8_t *answer, size_t answer_len);

enum kind { CONSTANT, FIELD, OPERATOR, NOT, SEAL, SKIP, ASSIGNMENT, SEQUENCE, IF, WHILE, KINDS };

enum operator { ADD, SUBTRACT, MULTIPLY, DIVIDE, REMAINDER, EQUAL, LESS, AT_MOST, AND, OR, OPERATORS };

/* Places of a node; marks, whole and partial. */
enum { PLACES = 3, MARKS = 2 * BELTUQASH_PARTIAL };

#endif
