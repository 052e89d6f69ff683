/* Builds sheets and stores: nodes children first, then the bytes of document 01's layout. */
#ifndef SHEETS_H
#define SHEETS_H

#include "monitor.h"

#include <stdbool.h>

/* A sheet in the making and its start store. Fields are named f00, f01, .. */
struct draft {
    uint16_t rows[BELTUQASH_MOST_LEVELS];
    int32_t constants[BELTUQASH_MOST_CONSTANTS];
    uint8_t nodes[BELTUQASH_MOST_NODES][BELTUQASH_NODE_BYTES];
    uint8_t marks[BELTUQASH_MOST_FIELDS];
    int32_t values[BELTUQASH_MOST_FIELDS];
    unsigned levels, fields, constant_count, node_count;
};

struct bytes {
    size_t length;
    uint8_t at[BELTUQASH_LONGEST_SHEET];
};

/* An empty draft with these levels. */
void begin(struct draft *draft, unsigned levels, const uint16_t *rows);

/* Sixteen levels: the subsets of four things, each a number whose bits are its members. */
void begin_cube(struct draft *draft);

/* A new field; its number comes back. */
unsigned new_field(struct draft *draft, unsigned mark, int32_t value);

/* A new node; its number comes back. A value is put into the constants once. Calls may nest, since their order does not
 * matter: a child's number is lower than its parent's in any. */
unsigned constant(struct draft *draft, int32_t value);
unsigned field(struct draft *draft, unsigned field);
unsigned operation(struct draft *draft, enum operator operator, unsigned left, unsigned right);
unsigned not(struct draft *draft, unsigned expression);
unsigned seal(struct draft *draft, unsigned expression);
unsigned skip(struct draft *draft);
unsigned assignment(struct draft *draft, unsigned field, unsigned expression);
unsigned sequence(struct draft *draft, unsigned first, unsigned second);
unsigned if_else(struct draft *draft, unsigned test, unsigned first, unsigned second);
unsigned while_do(struct draft *draft, unsigned test, unsigned body);

/* One after another, grouped into a tree as shallow as can be. */
unsigned all_of(struct draft *draft, const unsigned *commands, unsigned count);

/* The bytes. */
void sheet_of(const struct draft *draft, struct bytes *sheet);
void store_of(const struct draft *draft, struct bytes *store);

/* A request for so many fields, the draft's fields again and again. */
void request_of(const struct draft *draft, unsigned asked, struct bytes *request);

/* The flag sheet: flag := 0; q := 0; if cost < 500 then flag := 1 else skip; if flag = 0 then q := 1 else skip; sealed, its
 * last test is seal(flag) = 0. Cost is at level 1 of two, the others are at level 0. The nodes come back at which it may stop. */
enum { FLAG, Q, COST };

struct flag_nodes {
    unsigned set_flag, last_test, set_q;
};

struct flag_nodes draft_flag(struct draft *draft, int32_t cost, bool sealed);

/* The largest sheet: 16 levels, 64 fields, 256 constants, 1,024 nodes of all kinds; 9,768 bytes. */
void draft_largest(struct draft *draft);

#endif
