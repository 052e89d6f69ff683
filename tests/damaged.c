/* Throws damaged input at the three calls and watches all memory around what is lent.
 *
 * Sheets come from the files that it is given and from others made here, up to the longest. They, their stores and their requests are cut, grown, changed
 * in some bytes or replaced by random ones; outputs are long enough, too short or null. What is lent lies against a page that nobody may touch, at its
 * front or its end, or in a heap block of its own size, so that a read outside ends the program (the heap block: under valgrind). The output lies among
 * guard bytes. After each call: the inputs are unchanged, nothing outside the output is written, a refusal wrote nothing, success wrote the stated size and
 * no more, and the word is one that the call may answer. The order of random numbers is fixed; an argument -n N sets how many rounds. */
#define _DEFAULT_SOURCE
#include "beltuqash.h"

#include <stdio.h>
#include <stdlib.h>
#include <string.h>
#include <sys/mman.h>
#include <unistd.h>

enum { ROOM = 16384, GUARD = 0xa5, NUMBERS = BELTUQASH_NODE_SORT + 1, BASES = 16 };

/* ---- random numbers, always the same ---- */

static uint64_t state = 0x9e3779b97f4a7c15u;

static uint32_t below(uint32_t bound)
{
    state ^= state << 13;
    state ^= state >> 7;
    state ^= state << 17;
    return (uint32_t)((state >> 32) % bound);
}

/* ---- failing ---- */

static const char *calling = "nothing";

static void demand(int holds, const char *what)
{
    if (holds)
        return;
    fprintf(stderr, "%s: %s\n", calling, what);
    exit(EXIT_FAILURE);
}

/* ---- bytes that are lent ---- */

struct bytes {
    size_t length;
    uint8_t at[ROOM];
};

/* ROOM bytes between two pages that nobody may touch. */
struct fenced {
    uint8_t *room;
};

static struct fenced fence(void)
{
    size_t page = (size_t)sysconf(_SC_PAGESIZE);
    demand(page != 0 && ROOM % page == 0, "pages of a size that this test does not know");
    uint8_t *start = mmap(NULL, page + ROOM + page, PROT_NONE, MAP_PRIVATE | MAP_ANONYMOUS, -1, 0);
    demand(start != MAP_FAILED, "no memory");
    demand(mprotect(start + page, ROOM, PROT_READ | PROT_WRITE) == 0, "no memory");
    return (struct fenced){start + page};
}

/* An input as it is lent: a copy of what is meant, in a fenced room or on the heap. */
struct lent {
    const struct bytes *meant;
    uint8_t *copy;
    int on_heap;
};

static struct lent lend(const struct fenced *fenced, const struct bytes *meant)
{
    struct lent lent = {meant, NULL, 0};
    switch (below(3)) {
    case 0: lent.copy = fenced->room; break;
    case 1: lent.copy = fenced->room + ROOM - meant->length; break;
    default:
        lent.on_heap = 1;
        if (meant->length == 0)
            return lent; /* null with length 0 */
        lent.copy = malloc(meant->length);
        demand(lent.copy != NULL, "no memory");
    }
    memcpy(lent.copy, meant->at, meant->length);
    return lent;
}

static void take_back(struct lent lent)
{
    demand(lent.meant->length == 0 || memcmp(lent.copy, lent.meant->at, lent.meant->length) == 0, "an input was changed");
    if (lent.on_heap)
        free(lent.copy);
}

/* The output's room: guard bytes all over, the output at its front, its end or in the middle. */
static struct fenced output_room;

static uint8_t *lend_output(size_t length)
{
    memset(output_room.room, GUARD, ROOM);
    switch (below(length == 0 ? 4 : 3)) {
    case 0: return output_room.room;
    case 1: return output_room.room + ROOM - length;
    case 2: return output_room.room + ROOM / 2;
    default: return NULL; /* null with length 0 */
    }
}

/* All of the output's room is as it was, but for `written` bytes at `out`. */
static void take_back_output(const uint8_t *out, size_t written)
{
    static uint8_t guards[ROOM];
    memset(guards, GUARD, ROOM);
    size_t before = written == 0 ? 0 : (size_t)(out - output_room.room), after = before + written;
    demand(memcmp(output_room.room, guards, before) == 0, "a byte before the output was written");
    demand(memcmp(output_room.room + after, guards, ROOM - after) == 0, "a byte was written that should stay");
}

/* ---- the calls, watched ---- */

enum call { LOAD, RUN, HAND_OUT, CALLS };

static const char *const call_names[CALLS] = {"load", "run", "hand-out"};

/* The numbers that each call may answer, from 0 to 22. */
static const char *const call_numbers[CALLS] = {"yyyyynyynnnnnnnnnnnyyyy", "yyyyynyyyyyyyyyyynnyyyy", "yyyyynyyyynynnnnnyyyyyy"};

static struct fenced sheet_room, store_room, request_room;
static unsigned long seen[CALLS][NUMBERS]; /* how often each number came */
static unsigned place[CALLS];              /* the place that came last */

/* Counts a word, and demands what holds of every word: its number is one of the call's, and place and units come only with numbers that have them. */
static unsigned count(enum call call, uint64_t word)
{
    unsigned number = beltuqash_number(word);
    demand(number < NUMBERS && call_numbers[call][number] == 'y', "a number that this call does not have");
    demand((word >> 24 & 0xff) == 0, "bits of the word that mean nothing are set");
    place[call] = beltuqash_place(word);
    demand(place[call] < BELTUQASH_MOST_NODES, "a place that no node has");
    int has_place = BELTUQASH_FUEL_SPENT <= number && number != BELTUQASH_READER_OR_REQUEST;
    int has_units = number == BELTUQASH_DONE || (BELTUQASH_FUEL_SPENT <= number && number <= BELTUQASH_PARTIAL_TEST);
    demand(has_place || place[call] == 0, "a place where there is none");
    demand(has_units || beltuqash_units(word) == 0, "units where there are none");
    seen[call][number]++;
    return number;
}

static unsigned load(const struct bytes *sheet)
{
    calling = call_names[LOAD];
    struct lent s = lend(&sheet_room, sheet);
    uint64_t word = beltuqash_load(s.copy, sheet->length);
    take_back(s);
    demand(beltuqash_units(word) == 0, "units where there are none");
    return count(LOAD, word);
}

static unsigned run(const struct bytes *sheet, const struct bytes *store, uint32_t mode, uint32_t fuel, size_t out_len, struct bytes *final_store)
{
    calling = call_names[RUN];
    struct lent s = lend(&sheet_room, sheet), t = lend(&store_room, store);
    uint8_t *out = lend_output(out_len);
    uint64_t word = beltuqash_run(s.copy, sheet->length, t.copy, store->length, mode, fuel, out, out_len);
    take_back(s);
    take_back(t);
    unsigned number = count(RUN, word);
    demand(beltuqash_units(word) <= fuel, "more units than fuel");
    size_t written = number == BELTUQASH_DONE ? store->length : 0;
    demand(written <= out_len, "success with a short output");
    take_back_output(out, written);
    if (number == BELTUQASH_DONE) {
        demand(beltuqash_count(out) == beltuqash_count(store->at), "the final store has another count");
        final_store->length = written;
        memcpy(final_store->at, out, written);
    }
    return number;
}

/* The mark in the store of the field asked at a position. */
static unsigned mark_asked(const struct bytes *store, const struct bytes *request, size_t position)
{
    unsigned field = beltuqash_asked(request->at, position);
    demand(beltuqash_store_length(field + 1) <= store->length, "a field that the store does not have");
    return beltuqash_mark(store->at, field);
}

/* What holds of an entry of an answer, however the levels lie: it tells a whole field's value or nothing, and its field is not partial at the reader's
 * own level. */
static void check_entry(const uint8_t *answer, const struct bytes *store, uint32_t reader, const struct bytes *request, size_t position)
{
    unsigned shown = beltuqash_shown(answer, position), mark = mark_asked(store, request, position);
    int32_t told = beltuqash_shown_value(answer, position), value = beltuqash_value(store->at, beltuqash_asked(request->at, position));
    demand(shown == 1 || (shown == 0 && told == 0), "an entry neither told nor withheld");
    demand(!shown || !beltuqash_is_partial(mark), "a partial field told");
    demand(!shown || told == value, "another value told");
    demand(mark != beltuqash_partial(reader), "a partial field at the reader's own level in an answer");
}

static unsigned hand_out(const struct bytes *sheet, const struct bytes *store, uint32_t reader, const struct bytes *request, size_t answer_len)
{
    calling = call_names[HAND_OUT];
    struct lent s = lend(&sheet_room, sheet), t = lend(&store_room, store), r = lend(&request_room, request);
    uint8_t *answer = lend_output(answer_len);
    uint64_t word = beltuqash_hand_out(s.copy, sheet->length, t.copy, store->length, reader, r.copy, request->length, answer, answer_len);
    take_back(s);
    take_back(t);
    take_back(r);
    unsigned number = count(HAND_OUT, word);
    int taken = number == BELTUQASH_DONE || number == BELTUQASH_PARTIAL_ASKED;
    size_t asked = taken ? beltuqash_count(request->at) : 0;
    demand(!taken || request->length == beltuqash_request_length(asked), "a request of another size is taken");
    if (number == BELTUQASH_PARTIAL_ASKED) {
        demand(place[HAND_OUT] < asked, "a place that the request does not have");
        demand(beltuqash_is_partial(mark_asked(store, request, place[HAND_OUT])), "18 for a whole field");
    }
    size_t written = number == BELTUQASH_DONE ? beltuqash_answer_length(asked) : 0;
    demand(written <= answer_len, "success with a short answer");
    take_back_output(answer, written);
    for (size_t i = 0; i < asked && number == BELTUQASH_DONE; i++)
        check_entry(answer, store, reader, request, i);
    return number;
}

/* ---- what is thrown ---- */

/* A sheet that is right (or too deep), and how many fields and levels it has. */
struct base {
    struct bytes sheet;
    unsigned number, fields, levels;
};

static struct base bases[BASES];
static size_t base_count;

static void add_base(const struct bytes *sheet, unsigned number)
{
    demand(base_count < BASES, "too many sheets");
    struct base *base = &bases[base_count++];
    base->sheet = *sheet;
    base->number = number;
    base->levels = beltuqash_levels(sheet->at);
    base->fields = beltuqash_fields(sheet->at);
}

static void append(struct bytes *to, const uint8_t *from, size_t length)
{
    memcpy(to->at + to->length, from, length);
    to->length += length;
}

/* q := not not .. 7, so many deep. */
static void add_nest(uint8_t depth, unsigned number)
{
    static struct bytes sheet;
    static const uint8_t head[] = {1, 0, 1, 0, 1, 0, 'q', 0, 0, 0, 0, 0, 0, 0, 1, 0, 7, 0, 0, 0};
    static const uint8_t constant[8] = {0};
    sheet.length = 0;
    append(&sheet, head, sizeof head);
    append(&sheet, (const uint8_t[]){depth, 0}, 2);
    append(&sheet, constant, sizeof constant);
    for (uint8_t node = 1; node + 1 < depth; node++)
        append(&sheet, (const uint8_t[]){3, 0, (uint8_t)(node - 1), 0, 0, 0, 0, 0}, 8);
    append(&sheet, (const uint8_t[]){6, 0, 0, 0, (uint8_t)(depth - 2), 0, 0, 0}, 8);
    add_base(&sheet, number);
}

/* ---- the largest sheet ---- */

enum kind { CONSTANT, FIELD, OPERATOR, NOT, SEAL, SKIP, ASSIGNMENT, SEQUENCE, IF, WHILE };

enum { EQUAL = 5, OPERATORS = 10, COMMANDS = (BELTUQASH_MOST_NODES + 1) / 5 /* of four nodes each, and the sequences between them */ };

static void append_two(struct bytes *to, unsigned number)
{
    beltuqash_write_two(to->at + to->length, number);
    to->length += 2;
}

/* Sixteen levels, each a set of four things: one is at or below another if it is part of it. */
static void append_levels(struct bytes *sheet)
{
    append_two(sheet, BELTUQASH_MOST_LEVELS);
    for (unsigned i = 0; i < BELTUQASH_MOST_LEVELS; i++) {
        unsigned row = 0;
        for (unsigned j = 0; j < BELTUQASH_MOST_LEVELS; j++)
            row |= (unsigned)((i & j) == i) << j;
        append_two(sheet, row);
    }
}

/* Fields a0 to h7, and the constants from 0 on. */
static void append_fields_and_constants(struct bytes *sheet)
{
    append_two(sheet, BELTUQASH_MOST_FIELDS);
    for (unsigned i = 0; i < BELTUQASH_MOST_FIELDS; i++)
        append(sheet, (const uint8_t[BELTUQASH_NAME_BYTES]){(uint8_t)('a' + i / 8), (uint8_t)('0' + i % 8)}, BELTUQASH_NAME_BYTES);
    append_two(sheet, BELTUQASH_MOST_CONSTANTS);
    for (unsigned i = 0; i < BELTUQASH_MOST_CONSTANTS; i++)
        append(sheet, (const uint8_t[BELTUQASH_CONSTANT_BYTES]){(uint8_t)i}, BELTUQASH_CONSTANT_BYTES);
}

static unsigned nodes_made;

/* Puts a node behind the others; gives its number. */
static unsigned add_node(struct bytes *sheet, enum kind kind, unsigned operator, unsigned a, unsigned b, unsigned c)
{
    append(sheet, (const uint8_t[]){(uint8_t)kind, (uint8_t)operator}, 2);
    append_two(sheet, a);
    append_two(sheet, b);
    append_two(sheet, c);
    return nodes_made++;
}

/* A command of four nodes. The first ones set each field to 0 or 1, so that no later result is out of range; no constant but the first is 0, so that no
 * divisor is, and every loop ends after a round. */
static unsigned add_command(struct bytes *sheet, unsigned i)
{
    unsigned field = i % BELTUQASH_MOST_FIELDS, read = add_node(sheet, FIELD, 0, field, 0, 0), one, other;
    int is_first = i < BELTUQASH_MOST_FIELDS;
    switch (is_first ? 0 : i % 4) {
    case 0:
        one = add_node(sheet, CONSTANT, 0, 1 + i, 0, 0);
        other = add_node(sheet, OPERATOR, is_first ? EQUAL : i / 4 % OPERATORS, read, one, 0);
        return add_node(sheet, ASSIGNMENT, 0, field, other, 0);
    case 1:
        one = add_node(sheet, SEAL, 0, read, 0, 0);
        other = add_node(sheet, NOT, 0, one, 0, 0);
        return add_node(sheet, ASSIGNMENT, 0, field, other, 0);
    case 2:
        one = add_node(sheet, SKIP, 0, 0, 0, 0);
        other = add_node(sheet, SKIP, 0, 0, 0, 0);
        return add_node(sheet, IF, 0, read, one, other);
    default:
        one = add_node(sheet, CONSTANT, 0, 0, 0, 0);
        other = add_node(sheet, ASSIGNMENT, 0, field, one, 0);
        return add_node(sheet, WHILE, 0, read, other, 0);
    }
}

/* So many commands, joined by sequences half to half. */
static unsigned add_commands(struct bytes *sheet, unsigned first, unsigned count)
{
    if (count == 1)
        return add_command(sheet, first);
    unsigned one = add_commands(sheet, first, count / 2);
    unsigned other = add_commands(sheet, first + count / 2, count - count / 2);
    return add_node(sheet, SEQUENCE, 0, one, other, 0);
}

/* As many levels, fields, constants and nodes as there may be; all kinds and operators. */
static void add_largest(void)
{
    static struct bytes sheet;
    append_levels(&sheet);
    append_fields_and_constants(&sheet);
    append_two(&sheet, BELTUQASH_MOST_NODES);
    add_commands(&sheet, 0, COMMANDS);
    calling = "the largest sheet";
    demand(nodes_made == BELTUQASH_MOST_NODES && sheet.length == BELTUQASH_LONGEST_SHEET, "another size");
    add_base(&sheet, BELTUQASH_DONE);
}

/* q := r / q. */
static void add_quotient(void)
{
    static const struct bytes sheet = {58, {1, 0, 1, 0, 2, 0, 'q', 0, 0, 0, 0, 0, 0, 0, 'r', 0, 0, 0, 0, 0, 0, 0, 0, 0, 4, 0,
                                            1, 0, 1, 0, 0, 0, 0, 0, 1, 0, 0, 0, 0, 0, 0, 0, 2, 3, 0, 0, 1, 0, 0, 0, 6, 0, 0, 0, 2, 0, 0, 0}};
    add_base(&sheet, BELTUQASH_DONE);
}

static void add_file(const char *path)
{
    static struct bytes sheet;
    FILE *file = fopen(path, "rb");
    demand(file != NULL, path);
    sheet.length = fread(sheet.at, 1, BELTUQASH_LONGEST_SHEET + 1, file);
    demand(!ferror(file), path);
    fclose(file);
    unsigned number = load(&sheet);
    if (number == BELTUQASH_DONE)
        add_base(&sheet, number);
}

/* A store that fits: marks that the sheet has; values at the edges, small or any. */
static void make_store(struct bytes *store, const struct base *base, int partial)
{
    store->length = beltuqash_store_length(base->fields);
    beltuqash_write_count(store->at, base->fields);
    for (unsigned i = 0; i < base->fields; i++) {
        static const int32_t edges[] = {0, 1, INT32_MAX, INT32_MIN, -1};
        int32_t values[] = {edges[below(5)], (int32_t)below(1000), (int32_t)below(0xffffffff)};
        int32_t value = values[below(3)];
        unsigned level = below(base->levels);
        beltuqash_write_field(store->at, i, partial && below(4) == 0 ? beltuqash_partial(level) : level, value);
    }
}

/* A request that is right, for up to as many fields as can be asked. */
static void make_request(struct bytes *request, const struct base *base)
{
    unsigned asked = below(below(4) == 0 ? BELTUQASH_MOST_ASKED + 1 : 4);
    request->length = beltuqash_request_length(asked);
    beltuqash_write_count(request->at, asked);
    for (unsigned i = 0; i < asked; i++)
        beltuqash_write_asked(request->at, i, below(base->fields));
}

/* Cuts, grows, changes or replaces. */
static void damage(struct bytes *bytes)
{
    static const uint8_t edges[] = {0, 1, 2, 15, 16, 31, 32, 63, 64, 65, 127, 128, 255};
    uint32_t grown;
    switch (below(8)) {
    case 0: bytes->length = below((uint32_t)bytes->length + 1); break;
    case 1:
        grown = 1 + below(40);
        for (uint32_t i = 0; i < grown; i++)
            bytes->at[bytes->length++] = (uint8_t)below(256);
        break;
    case 2:
        bytes->length = below(below(8) == 0 ? BELTUQASH_LONGEST_SHEET + 1 : 120);
        for (size_t i = 0; i < bytes->length; i++)
            bytes->at[i] = (uint8_t)below(256);
        break;
    default:
        for (uint32_t i = 1 + below(3); i > 0 && bytes->length > 0; i--)
            bytes->at[below((uint32_t)bytes->length)] = below(2) ? edges[below(sizeof edges)] : (uint8_t)below(256);
    }
}

/* Whether a sheet's number and place are the run's or the hand-out's too: both judge the sheet first. */
static void demand_sheets_number(unsigned judged, enum call call, unsigned number)
{
    if (judged != BELTUQASH_DONE)
        demand(number == judged && place[call] == place[LOAD], "another number or place than load's");
    else
        demand(number == BELTUQASH_DONE || (BELTUQASH_STORE_MISFIT <= number && number < BELTUQASH_NODE_UNKNOWN), "a sheet that load takes is refused");
}

/* One round: something of a call is damaged, and all three calls are made. */
static void throw_damaged(void)
{
    static struct bytes sheet, store, request, final_store;
    const struct base *base = &bases[below((uint32_t)base_count)];
    sheet = base->sheet;
    uint32_t mode = below(16) == 0 ? below(256) : below(2);
    uint32_t fuel = below(16) == 0 ? BELTUQASH_MOST_FUEL + below(3) : below(below(4) == 0 ? 400 : 12);
    uint32_t reader = below(8) == 0 ? below(300) : below(base->levels);
    make_store(&store, base, mode == BELTUQASH_PERMISSIVE || below(8) == 0);
    make_request(&request, base);
    if (below(2))
        damage(&sheet);
    if (below(3) == 0)
        damage(&store);
    if (below(3) == 0)
        damage(&request);
    size_t out_len = below(4) == 0 ? below(BELTUQASH_LONGEST_STORE) : BELTUQASH_LONGEST_STORE + below(64);

    unsigned judged = load(&sheet);
    unsigned number = run(&sheet, &store, mode, fuel, out_len, &final_store);
    if (mode > 1 || fuel > BELTUQASH_MOST_FUEL)
        demand(number == BELTUQASH_MODE_OR_FUEL, "a wrong mode or fuel is taken");
    else
        demand_sheets_number(judged, RUN, number);
    demand_sheets_number(judged, HAND_OUT, hand_out(&sheet, &store, reader, &request, out_len));
    if (number == BELTUQASH_DONE)
        demand_sheets_number(judged, HAND_OUT, hand_out(&sheet, &final_store, reader, &request, out_len));
}

/* Every cut and some growths of right input, and every short output, with the number that each must get. */
static void throw_every_cut(const struct base *base)
{
    static struct bytes sheet, store, request, final_store;
    sheet = base->sheet;
    make_store(&store, base, 0);
    request.length = beltuqash_request_length(base->fields);
    beltuqash_write_count(request.at, base->fields);
    for (unsigned i = 0; i < base->fields; i++)
        beltuqash_write_asked(request.at, i, i);
    size_t whole = store.length, asked = request.length, answer = beltuqash_answer_length(base->fields);

    for (sheet.length = 0; sheet.length < base->sheet.length + 9; sheet.length++) {
        unsigned right = sheet.length == base->sheet.length ? base->number : BELTUQASH_SHEET_LENGTH;
        demand(load(&sheet) == right, "a cut or grown sheet");
        demand_sheets_number(right, RUN, run(&sheet, &store, BELTUQASH_STRICT, 100, whole, &final_store));
        demand_sheets_number(right, HAND_OUT, hand_out(&sheet, &store, 0, &request, answer));
    }
    if (base->number != BELTUQASH_DONE)
        return;
    sheet.length = base->sheet.length;
    for (store.length = 0; store.length < whole + 9; store.length++)
        if (store.length != whole) {
            demand(run(&sheet, &store, BELTUQASH_STRICT, 100, whole, &final_store) == BELTUQASH_STORE_MISFIT, "a cut or grown store");
            demand(hand_out(&sheet, &store, 0, &request, answer) == BELTUQASH_STORE_MISFIT, "a cut or grown store");
        }
    store.length = whole;
    for (request.length = 0; request.length < asked + 9; request.length++)
        demand(hand_out(&sheet, &store, 0, &request, answer) == (request.length == asked ? BELTUQASH_DONE : BELTUQASH_READER_OR_REQUEST),
               "a cut or grown request");
    request.length = asked;
    for (size_t length = 0; length < whole; length++)
        demand(run(&sheet, &store, BELTUQASH_STRICT, 100, length, &final_store) == BELTUQASH_OUT_SHORT, "a short output");
    for (size_t length = 0; length < answer; length++)
        demand(hand_out(&sheet, &store, 0, &request, length) == BELTUQASH_OUT_SHORT, "a short answer");
}

/* The largest sheet, the last that was added, runs to its end from any store of whole fields. */
static void run_largest(void)
{
    static struct bytes store, final_store;
    const struct base *largest = &bases[base_count - 1];
    make_store(&store, largest, 0);
    demand(run(&largest->sheet, &store, BELTUQASH_STRICT, 400, store.length, &final_store) == BELTUQASH_DONE, "the largest sheet does not run to its end");
}

/* Nothing lent at all. */
static void throw_null(void)
{
    calling = "null with length 0";
    demand(beltuqash_load(NULL, 0) == BELTUQASH_SHEET_LENGTH, "load");
    demand(beltuqash_run(NULL, 0, NULL, 0, BELTUQASH_STRICT, 0, NULL, 0) == BELTUQASH_SHEET_LENGTH, "run");
    demand(beltuqash_hand_out(NULL, 0, NULL, 0, 0, NULL, 0, NULL, 0) == BELTUQASH_SHEET_LENGTH, "hand-out");
}

/* The test has reached what it is for: every number of every call came. */
static void demand_all_seen(void)
{
    for (int call = LOAD; call < CALLS; call++) {
        unsigned long made = 0;
        calling = call_names[call];
        for (unsigned number = 0; number < NUMBERS; number++) {
            made += seen[call][number];
            if (call_numbers[call][number] == 'y' && seen[call][number] == 0) {
                fprintf(stderr, "%s: number %u never came\n", calling, number);
                exit(EXIT_FAILURE);
            }
        }
        printf("%s: %lu calls, every number came, nothing was written that should stay\n", calling, made);
    }
}

static void check_reasons(void)
{
    calling = "reason";
    for (unsigned number = 0; number < NUMBERS; number++)
        for (unsigned other = 0; other < number; other++)
            demand(strcmp(beltuqash_reason(number), beltuqash_reason(other)) != 0, "two numbers have one reason");
    demand(strcmp(beltuqash_reason(5), "no such number") == 0, "5");
    demand(strcmp(beltuqash_reason(NUMBERS), "no such number") == 0, "23");
    demand(strcmp(beltuqash_reason(NUMBERS - 1), "no such number") != 0, "22");
    demand(strcmp(beltuqash_reason(0u - 1), "no such number") == 0, "the greatest number");
}

/* The header reads and writes the four bytes of a value. */
static void check_values(void)
{
    static const struct {
        int32_t value;
        uint8_t bytes[4];
    } by_hand[] = {{500, {0xf4, 1, 0, 0}}, {-1, {0xff, 0xff, 0xff, 0xff}}, {INT32_MIN, {0, 0, 0, 0x80}}, {0x01020304, {4, 3, 2, 1}}};
    calling = "a value's bytes";
    for (size_t i = 0; i < sizeof by_hand / sizeof *by_hand; i++) {
        uint8_t written[4];
        beltuqash_write_four(written, by_hand[i].value);
        demand(memcmp(written, by_hand[i].bytes, sizeof written) == 0, "written");
        demand(beltuqash_read_four(by_hand[i].bytes) == by_hand[i].value, "read");
    }
}

int main(int argc, char **argv)
{
    unsigned long rounds = 40000;
    int first = 1;
    if (argc > 2 && strcmp(argv[1], "-n") == 0) {
        rounds = strtoul(argv[2], NULL, 10);
        first = 3;
    }
    sheet_room = fence();
    store_room = fence();
    request_room = fence();
    output_room = fence();
    for (int i = first; i < argc; i++)
        add_file(argv[i]);
    add_quotient();
    add_nest(BELTUQASH_MOST_DEPTH, BELTUQASH_DONE);
    add_nest(BELTUQASH_MOST_DEPTH + 1, BELTUQASH_TOO_DEEP);
    add_largest();
    check_reasons();
    check_values();
    throw_null();
    run_largest();
    for (size_t i = 0; i < base_count; i++)
        throw_every_cut(&bases[i]);
    for (unsigned long i = 0; i < rounds; i++)
        throw_damaged();
    demand_all_seen();
    return EXIT_SUCCESS;
}
