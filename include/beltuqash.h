/* Beltuqash: runs calculation sheets so that closed fields stay closed.
 *
 * For C11 and C++11. The archive is for x86-64 Linux.
 *
 * A call answers one word: a number (0 is success), a place and the units spent. Places and units are for the house, never for a dealer.
 *
 * Bytes: every call takes any bytes, of any length. It reads the stated lengths and nothing else. A pointer may be null where its length is 0.
 * Ownership: all memory stays the caller's. Nothing is allocated, kept or freed; a pointer is not used after the call.
 * Overlap: what is only read may overlap. What is written (out, answer) must overlap nothing else that is lent.
 * Refusals: a number but 0 means that nothing was written. Success writes exactly the size stated below; later bytes stay.
 * Threads: there is no state, so any thread may call at any time, as long as none writes what is lent to another's call or reads its output. */
#ifndef BELTUQASH_H
#define BELTUQASH_H

#include <stddef.h>
#include <stdint.h>

/* The second number goes up with each change of what a call does. */
#define BELTUQASH_VERSION "0.4.0"

/* A cast of a number, in the words of either language. */
#ifdef __cplusplus
#define BELTUQASH_TO(type, number) static_cast<type>(number)
extern "C" {
#else
#define BELTUQASH_TO(type, number) ((type)(number))
#endif

/* Judges a sheet. A sheet that passes has at most BELTUQASH_LONGEST_SHEET bytes. Numbers 0 to 4, 6, 7 and 19 to 22; the place is a node's number for
 * 19 to 22; the units are 0. */
uint64_t beltuqash_load(const uint8_t *sheet, size_t sheet_len);

/* Runs a sheet from a store and writes the final store, which is as long as the store, to out: at most BELTUQASH_LONGEST_STORE bytes. The sheet is judged
 * first, as load does. mode is BELTUQASH_STRICT or BELTUQASH_PERMISSIVE, fuel at most BELTUQASH_MOST_FUEL; any other number is refused with 10. To run on
 * from a final store, lend it as the store and other memory as out. Unlike C's, a sheet's / rounds down and its % takes the divisor's sign: -7 / 2 is -4,
 * -7 % 2 is 1.
 * Numbers 0 to 4, 6 to 16 and 19 to 22; the place is a node's number for 12 to 16 and for 19 to 22; the units are those spent, 0 for a call that
 * is refused before it runs (1 to 11 and 19 to 22). */
uint64_t beltuqash_run(const uint8_t *sheet, size_t sheet_len, const uint8_t *store, size_t store_len, uint32_t mode, uint32_t fuel,
                       uint8_t *out, size_t out_len);

/* Hands a reader what a request asks of a store and writes the answer: beltuqash_answer_length bytes, so at most BELTUQASH_LONGEST_ANSWER. reader is a
 * level of the sheet. A field at a level that is not at or below the reader is withheld, whole or partial; a partial field at or below the reader refuses
 * the whole request.
 * Numbers 0 to 4, 6 to 9, 11, 17, 18 and 19 to 22; the place is a position in the request, from 0, for 18, and a node's number for 19 to 22;
 * the units are 0. */
uint64_t beltuqash_hand_out(const uint8_t *sheet, size_t sheet_len, const uint8_t *store, size_t store_len, uint32_t reader,
                            const uint8_t *request, size_t request_len, uint8_t *answer, size_t answer_len);

enum beltuqash_mode { BELTUQASH_STRICT = 0, BELTUQASH_PERMISSIVE = 1 };

/* What comes back. Numbers 1 to 7 and 19 to 22 are of the sheet, 8 and 9 of the store, 10 and 11 of the call, 12 to 16 of the run, 17 and 18 of the
 * hand-out. Of 19 to 22, the lowest faulty node is told, and of that node the first that it earns. */
enum beltuqash_numbers {
    BELTUQASH_DONE = 0,
    BELTUQASH_SHEET_LENGTH = 1,       /* sheet ends too soon or has bytes left */
    BELTUQASH_COUNT_OUTSIDE = 2,      /* a count outside its limits */
    BELTUQASH_LEVELS_WRONG = 3,       /* levels no lattice, or a bit at or past the count */
    BELTUQASH_NAME_WRONG = 4,         /* a bad or repeated name */
    /* 5 is never given; 19 to 22 stand here in the order of checks */
    BELTUQASH_NOT_USED_ONCE = 6,      /* a node not used once, or the last not a command */
    BELTUQASH_TOO_DEEP = 7,           /* depth over 64 */
    BELTUQASH_STORE_MISFIT = 8,       /* store length or count doesn't fit the sheet */
    BELTUQASH_MARK_WRONG = 9,         /* a mark above 31 or its level unknown; in a strict run also a partial mark */
    BELTUQASH_MODE_OR_FUEL = 10,      /* mode not 0 or 1, or fuel over 1,000,000; told ahead of all others */
    BELTUQASH_OUT_SHORT = 11,         /* output shorter than the store or answer */
    BELTUQASH_FUEL_SPENT = 12,        /* fuel used up; place: the skip, assignment, if or while */
    BELTUQASH_OUT_OF_RANGE = 13,      /* result out of range; place: the operator's node */
    BELTUQASH_DIVISOR_ZERO = 14,      /* divisor 0; place: the operator's node */
    BELTUQASH_NOT_BELOW = 15,         /* strict: context not at or below the field's level; place: the assignment */
    BELTUQASH_PARTIAL_TEST = 16,      /* permissive: partial test; place: the if or while */
    BELTUQASH_READER_OR_REQUEST = 17, /* reader unknown, or the request's size, count or a field number wrong */
    BELTUQASH_PARTIAL_ASKED = 18,     /* partial field at or below the reader asked; place: the first such position in the request, from 0 */
    BELTUQASH_NODE_UNKNOWN = 19,      /* unknown kind or operator; place: the node */
    BELTUQASH_NODE_UNUSED = 20,       /* unused place, or operator byte in a kind without one, not 0; place: the node */
    BELTUQASH_NODE_RANGE = 21,        /* child or index number out of range or not lower; place: the node */
    BELTUQASH_NODE_SORT = 22          /* child of the wrong sort; place: the node */
};

/* Limits, and sizes in bytes. The functions below know what stands where. */
enum {
    BELTUQASH_MOST_LEVELS = 16,
    BELTUQASH_MOST_FIELDS = 64,
    BELTUQASH_MOST_CONSTANTS = 256,
    BELTUQASH_MOST_NODES = 1024,
    BELTUQASH_MOST_DEPTH = 64,
    BELTUQASH_MOST_ASKED = 64, /* fields in a request */
    BELTUQASH_MOST_FUEL = 1000000,

    BELTUQASH_COUNT_BYTES = 2, /* the count that each section, store, request and answer begins with */
    BELTUQASH_LEVEL_BYTES = 2, /* a level's row in a sheet */
    BELTUQASH_NAME_BYTES = 8,
    BELTUQASH_CONSTANT_BYTES = 4,
    BELTUQASH_NODE_BYTES = 8,
    BELTUQASH_STORE_ENTRY_BYTES = 5,   /* a field in a store: its mark and value */
    BELTUQASH_REQUEST_ENTRY_BYTES = 2, /* an asked field in a request: its number */
    BELTUQASH_ANSWER_ENTRY_BYTES = 5,  /* an asked field in an answer: 1 and its value, or 0 and value 0 if it is withheld */

    BELTUQASH_LONGEST_SHEET = 9768,
    BELTUQASH_LONGEST_STORE = BELTUQASH_COUNT_BYTES + BELTUQASH_STORE_ENTRY_BYTES * BELTUQASH_MOST_FIELDS,
    BELTUQASH_LONGEST_REQUEST = BELTUQASH_COUNT_BYTES + BELTUQASH_REQUEST_ENTRY_BYTES * BELTUQASH_MOST_ASKED,
    BELTUQASH_LONGEST_ANSWER = BELTUQASH_COUNT_BYTES + BELTUQASH_ANSWER_ENTRY_BYTES * BELTUQASH_MOST_ASKED,

    BELTUQASH_PARTIAL = 16 /* what a partial mark has more than its level */
};

/* Numbers of two bytes without a sign and of four with one, little-endian. */
static inline unsigned beltuqash_read_two(const uint8_t *at) { return at[0] | BELTUQASH_TO(unsigned, at[1]) << 8; }
static inline int32_t beltuqash_read_four(const uint8_t *at)
{
    return BELTUQASH_TO(int32_t, beltuqash_read_two(at) | beltuqash_read_two(at + 2) << 16);
}
static inline void beltuqash_write_two(uint8_t *at, unsigned number)
{
    at[0] = BELTUQASH_TO(uint8_t, number & 0xff);
    at[1] = BELTUQASH_TO(uint8_t, number >> 8 & 0xff);
}
static inline void beltuqash_write_four(uint8_t *at, int32_t number)
{
    beltuqash_write_two(at, BELTUQASH_TO(uint32_t, number) & 0xffff);
    beltuqash_write_two(at + 2, BELTUQASH_TO(uint32_t, number) >> 16);
}

/* The count that a store, a request or an answer begins with. */
static inline unsigned beltuqash_count(const uint8_t *bytes) { return beltuqash_read_two(bytes); }
static inline void beltuqash_write_count(uint8_t *bytes, unsigned count) { beltuqash_write_two(bytes, count); }

/* A sheet that load takes: its levels, its fields, and the name of a field, up to BELTUQASH_NAME_BYTES characters and filled with zero bytes. */
static inline unsigned beltuqash_levels(const uint8_t *sheet) { return beltuqash_read_two(sheet); }
static inline const uint8_t *beltuqash_field_section(const uint8_t *sheet)
{
    return sheet + BELTUQASH_COUNT_BYTES + BELTUQASH_LEVEL_BYTES * beltuqash_levels(sheet);
}
static inline unsigned beltuqash_fields(const uint8_t *sheet) { return beltuqash_read_two(beltuqash_field_section(sheet)); }
static inline const char *beltuqash_name(const uint8_t *sheet, size_t field)
{
    const void *name = beltuqash_field_section(sheet) + BELTUQASH_COUNT_BYTES + BELTUQASH_NAME_BYTES * field;
    return BELTUQASH_TO(const char *, name);
}

/* Marks. A mark that is not partial is whole, and is its level. */
static inline unsigned beltuqash_level(unsigned mark) { return mark % BELTUQASH_PARTIAL; }
static inline int beltuqash_is_partial(unsigned mark) { return mark >= BELTUQASH_PARTIAL; }
static inline unsigned beltuqash_partial(unsigned level) { return level + BELTUQASH_PARTIAL; }

/* A store of so many fields: its length, and the mark and value of each. A field's entry begins where a store of the fields before it would end. */
static inline size_t beltuqash_store_length(size_t fields) { return BELTUQASH_COUNT_BYTES + BELTUQASH_STORE_ENTRY_BYTES * fields; }
static inline unsigned beltuqash_mark(const uint8_t *store, size_t field) { return store[beltuqash_store_length(field)]; }
static inline int32_t beltuqash_value(const uint8_t *store, size_t field)
{
    return beltuqash_read_four(store + beltuqash_store_length(field) + 1);
}
static inline void beltuqash_write_field(uint8_t *store, size_t field, unsigned mark, int32_t value)
{
    store[beltuqash_store_length(field)] = BELTUQASH_TO(uint8_t, mark);
    beltuqash_write_four(store + beltuqash_store_length(field) + 1, value);
}

/* A request for so many fields: its length, and the field asked at a position, from 0. */
static inline size_t beltuqash_request_length(size_t asked) { return BELTUQASH_COUNT_BYTES + BELTUQASH_REQUEST_ENTRY_BYTES * asked; }
static inline unsigned beltuqash_asked(const uint8_t *request, size_t position)
{
    return beltuqash_read_two(request + beltuqash_request_length(position));
}
static inline void beltuqash_write_asked(uint8_t *request, size_t position, unsigned field)
{
    beltuqash_write_two(request + beltuqash_request_length(position), field);
}

/* An answer for so many asked fields: its length, whether the field at a position is shown (1) or withheld (0), and the value shown (0 if withheld). */
static inline size_t beltuqash_answer_length(size_t asked) { return BELTUQASH_COUNT_BYTES + BELTUQASH_ANSWER_ENTRY_BYTES * asked; }
static inline unsigned beltuqash_shown(const uint8_t *answer, size_t position) { return answer[beltuqash_answer_length(position)]; }
static inline int32_t beltuqash_shown_value(const uint8_t *answer, size_t position)
{
    return beltuqash_read_four(answer + beltuqash_answer_length(position) + 1);
}

/* The answer word, taken apart. */
static inline unsigned beltuqash_number(uint64_t word) { return BELTUQASH_TO(unsigned, word & 0xff); }
static inline unsigned beltuqash_place(uint64_t word) { return BELTUQASH_TO(unsigned, word >> 8 & 0xffff); }
static inline uint32_t beltuqash_units(uint64_t word) { return BELTUQASH_TO(uint32_t, word >> 32); }

/* What a number means, in plain words, for the house. The text is constant: never null, never to be freed. */
static inline const char *beltuqash_reason(unsigned number)
{
    switch (number) {
    case BELTUQASH_DONE: return "done, nothing was refused";
    case BELTUQASH_SHEET_LENGTH: return "the sheet ends too soon, or bytes are left after its last node";
    case BELTUQASH_COUNT_OUTSIDE: return "the sheet has too few or too many levels, fields, constants or nodes";
    case BELTUQASH_LEVELS_WRONG: return "the levels are not ordered so that every two have a join and a meet";
    case BELTUQASH_NAME_WRONG: return "a field's name is not written as names are, or two fields have the same name";
    case BELTUQASH_NOT_USED_ONCE: return "a node is used twice or not at all, or the last node is not a command";
    case BELTUQASH_TOO_DEEP: return "the nodes are nested more than 64 deep";
    case BELTUQASH_STORE_MISFIT: return "the store is not as long as the sheet's fields need, or counts another number of fields";
    case BELTUQASH_MARK_WRONG: return "a mark in the store has a level that the sheet does not have, or is partial where the run is strict";
    case BELTUQASH_MODE_OR_FUEL: return "the mode is neither strict nor permissive, or the fuel is over 1,000,000";
    case BELTUQASH_OUT_SHORT: return "the memory for the final store or the answer is too short";
    case BELTUQASH_FUEL_SPENT: return "the fuel was used up before the sheet was done";
    case BELTUQASH_OUT_OF_RANGE: return "a result is too great or too small for a number of 32 bits";
    case BELTUQASH_DIVISOR_ZERO: return "a number would be divided by 0";
    case BELTUQASH_NOT_BELOW: return "a field would be written under a test whose level is not at or below the field's (strict)";
    case BELTUQASH_PARTIAL_TEST: return "an if or while would test a partial value, and which way it goes could tell a closed one (permissive)";
    case BELTUQASH_READER_OR_REQUEST: return "the reader is not a level of the sheet, or the request's size, count or a field number is wrong";
    case BELTUQASH_PARTIAL_ASKED: return "a partial field at or below the reader is asked for, and a price or a blank there could tell a closed value";
    case BELTUQASH_NODE_UNKNOWN: return "a node has a kind or an operator that does not exist";
    case BELTUQASH_NODE_UNUSED: return "a node has something other than 0 in a place, or as its operator, that its kind does not use";
    case BELTUQASH_NODE_RANGE: return "a node names a field or a constant that the sheet does not have, or a child that does not stand before it";
    case BELTUQASH_NODE_SORT: return "a node has a command where an expression belongs, or an expression where a command belongs";
    default: return "no such number";
    }
}

#ifdef __cplusplus
}
#endif

#endif
