/* Document 01's trials, divisions, the faults of nodes and hand-outs, tried on the monitor by hand: a wrong C would be a wrong measure. */
#include "sheets.h"

#include <stdio.h>
#include <stdlib.h>
#include <string.h>

static const uint16_t one_level[] = {1}, two_levels[] = {3, 2}, diamond[] = {15, 10, 12, 8};

static int wrong;

static void expect(bool holds, const char *trial)
{
    if (!holds)
        fprintf(stderr, "wrong: %s\n", trial);
    wrong += !holds;
}

/* One run of a draft, and the final store. */
struct outcome {
    uint64_t word;
    uint8_t store[BELTUQASH_LONGEST_STORE];
};

static struct outcome run(const struct draft *draft, uint32_t mode, uint32_t fuel)
{
    static struct bytes sheet, store;
    struct outcome outcome = {0, {0}};
    sheet_of(draft, &sheet);
    store_of(draft, &store);
    outcome.word = c_run(sheet.at, sheet.length, store.at, store.length, mode, fuel, outcome.store, BELTUQASH_LONGEST_STORE);
    return outcome;
}

static uint64_t load(const struct draft *draft)
{
    static struct bytes sheet;
    sheet_of(draft, &sheet);
    return c_load(sheet.at, sheet.length);
}

static bool is(struct outcome outcome, unsigned number, unsigned place, uint32_t units)
{
    return outcome.word == (number | (uint64_t)place << 8 | (uint64_t)units << 32);
}

static bool holds(struct outcome outcome, unsigned field, unsigned mark, int32_t value)
{
    return beltuqash_mark(outcome.store, field) == mark && beltuqash_value(outcome.store, field) == value;
}

/* Values: f := x operator y. */

static struct outcome work_out(int32_t x, enum operator operator, int32_t y)
{
    struct draft d;
    begin(&d, 1, one_level);
    new_field(&d, 0, 0);
    unsigned left = constant(&d, x), right = constant(&d, y);
    assignment(&d, 0, operation(&d, operator, left, right));
    return run(&d, BELTUQASH_STRICT, 1);
}

static bool gives(int32_t x, enum operator operator, int32_t y, int32_t value)
{
    struct outcome outcome = work_out(x, operator, y);
    return is(outcome, BELTUQASH_DONE, 0, 1) && holds(outcome, 0, 0, value);
}

static void try_arithmetic(void)
{
    expect(is(work_out(INT32_MAX, ADD, 1), BELTUQASH_OUT_OF_RANGE, 2, 1), "greatest + 1: 13");
    expect(is(work_out(INT32_MIN, SUBTRACT, 1), BELTUQASH_OUT_OF_RANGE, 2, 1), "least - 1: 13");
    expect(is(work_out(65536, MULTIPLY, 32768), BELTUQASH_OUT_OF_RANGE, 2, 1), "65536 * 32768: 13");
    expect(gives(65536, MULTIPLY, -32768, INT32_MIN), "65536 * -32768");
    expect(is(work_out(5, DIVIDE, 0), BELTUQASH_DIVISOR_ZERO, 2, 1), "5 / 0: 14");
    expect(is(work_out(5, REMAINDER, 0), BELTUQASH_DIVISOR_ZERO, 2, 1), "5 % 0: 14");
}

static bool divides(int32_t x, int32_t y, int32_t quotient, int32_t remainder)
{
    return gives(x, DIVIDE, y, quotient) && gives(x, REMAINDER, y, remainder);
}

static void try_division(void)
{
    expect(divides(-7, 2, -4, 1), "-7 / 2 = -4, -7 % 2 = 1");
    expect(divides(7, -2, -4, -1), "7 / -2 = -4, 7 % -2 = -1");
    expect(divides(7, 2, 3, 1) && divides(-7, -2, 3, -1), "7 by 2, -7 by -2");
    expect(divides(6, 2, 3, 0) && divides(-6, -2, 3, 0), "6 by 2, -6 by -2");
    expect(divides(-6, 2, -3, 0) && divides(6, -2, -3, 0), "-6 by 2, 6 by -2");
    expect(divides(7, -1, -7, 0) && divides(-7, -1, 7, 0), "7 by -1, -7 by -1");
    expect(is(work_out(INT32_MIN, DIVIDE, -1), BELTUQASH_OUT_OF_RANGE, 2, 1), "least / -1: 13");
    expect(gives(INT32_MIN, REMAINDER, -1, 0), "least % -1 = 0");
    expect(divides(INT32_MIN, 1, INT32_MIN, 0) && divides(INT32_MIN, INT32_MIN, 1, 0), "least by 1 and by itself");
    expect(divides(INT32_MIN, 3, -715827883, 1) && divides(INT32_MIN, -3, 715827882, -2), "least by 3 and by -3");
    expect(divides(INT32_MAX, 2, 1073741823, 1) && divides(INT32_MAX, -2, -1073741824, -1), "greatest by 2 and by -2");
    expect(divides(INT32_MIN, INT32_MAX, -2, INT32_MAX - 1), "least by greatest");
    expect(divides(INT32_MAX, INT32_MIN, -1, -1), "greatest by least");
}

static void try_tests(void)
{
    expect(gives(4, EQUAL, 4, 1) && gives(4, EQUAL, 5, 0), "equal");
    expect(gives(-1, LESS, 0, 1) && gives(0, LESS, 0, 0) && gives(1, LESS, 0, 0), "less");
    expect(gives(-1, AT_MOST, 0, 1) && gives(0, AT_MOST, 0, 1) && gives(1, AT_MOST, 0, 0), "at most");
    expect(gives(2, AND, -1, 1) && gives(2, AND, 0, 0) && gives(0, AND, 2, 0), "and");
    expect(gives(2, OR, 0, 1) && gives(0, OR, -1, 1) && gives(0, OR, 0, 0), "or");
}

/* Marks: if c then a := v else skip, in the diamond; c gives the context. The if is node 4. */
static struct outcome assign(unsigned context, unsigned old, unsigned mark, enum beltuqash_mode mode)
{
    struct draft d;
    begin(&d, 4, diamond);
    unsigned a = new_field(&d, old, 0), v = new_field(&d, mark, 7), c = new_field(&d, context, 1);
    if_else(&d, field(&d, c), assignment(&d, a, field(&d, v)), skip(&d));
    return run(&d, mode, 2);
}

/* a := x + y in the diamond. */
static struct outcome add(unsigned x_mark, unsigned y_mark)
{
    struct draft d;
    begin(&d, 4, diamond);
    unsigned a = new_field(&d, 0, 0), x = new_field(&d, x_mark, 3), y = new_field(&d, y_mark, 4);
    assignment(&d, a, operation(&d, ADD, field(&d, x), field(&d, y)));
    return run(&d, BELTUQASH_PERMISSIVE, 1);
}

static void try_marks(void)
{
    expect(holds(add(1, beltuqash_partial(2)), 0, beltuqash_partial(3), 7), "whole 1 joined with partial 2 is partial 3");
    expect(holds(add(1, 3), 0, 3, 7) && holds(add(2, 0), 0, 2, 7), "joins of comparable levels");
    expect(holds(assign(1, 2, 0, BELTUQASH_PERMISSIVE), 0, beltuqash_partial(0), 7), "context 1 into whole 2: partial 0");
    expect(holds(assign(1, beltuqash_partial(1), 2, BELTUQASH_PERMISSIVE), 0, 3, 7), "context 1 into partial 1, value whole 2: whole 3");
    expect(holds(assign(3, beltuqash_partial(1), 0, BELTUQASH_PERMISSIVE), 0, beltuqash_partial(1), 7), "context 3 into partial 1: partial 1");
    expect(holds(assign(1, 3, beltuqash_partial(2), BELTUQASH_PERMISSIVE), 0, beltuqash_partial(3), 7), "a partial value leaves a partial field");
    expect(is(assign(beltuqash_partial(1), 1, 0, BELTUQASH_PERMISSIVE), BELTUQASH_PARTIAL_TEST, 4, 1), "a partial test: 16");
    expect(beltuqash_number(assign(1, 2, 0, BELTUQASH_STRICT).word) == BELTUQASH_NOT_BELOW, "context 1 into whole 2, strict: 15");
    expect(is(assign(1, 1, beltuqash_partial(1), BELTUQASH_STRICT), BELTUQASH_MARK_WRONG, 0, 0), "a partial mark in a strict run: 9");
    expect(is(assign(4, 1, 1, BELTUQASH_PERMISSIVE), BELTUQASH_MARK_WRONG, 0, 0), "an unknown level: 9");
    expect(is(assign(MARKS, 1, 1, BELTUQASH_PERMISSIVE), BELTUQASH_MARK_WRONG, 0, 0), "a mark above 31: 9");
}

/* The flag sheet. */

static void try_flag(void)
{
    struct draft d;
    struct flag_nodes nodes = draft_flag(&d, 600, false);
    for (uint32_t mode = BELTUQASH_STRICT; mode <= BELTUQASH_PERMISSIVE; mode++) {
        struct outcome done = run(&d, mode, 6);
        expect(is(done, BELTUQASH_DONE, 0, 6) && holds(done, Q, 0, 1), "cost 600: q = 1 after 6 units");
        expect(is(run(&d, mode, 5), BELTUQASH_FUEL_SPENT, nodes.set_q, 5), "cost 600, fuel 5: 12");
        expect(beltuqash_number(run(&d, mode, 0).word) == BELTUQASH_FUEL_SPENT, "fuel 0: 12");
        expect(beltuqash_number(run(&d, mode, BELTUQASH_MOST_FUEL).word) == BELTUQASH_DONE, "fuel 1,000,000 is taken");
        expect(is(run(&d, mode, BELTUQASH_MOST_FUEL + 1), BELTUQASH_MODE_OR_FUEL, 0, 0), "fuel 1,000,001: 10");
    }
    nodes = draft_flag(&d, 400, false);
    expect(is(run(&d, BELTUQASH_PERMISSIVE, 9), BELTUQASH_PARTIAL_TEST, nodes.last_test, 5), "cost 400, permissive: 16 after 5");
    expect(is(run(&d, BELTUQASH_STRICT, 9), BELTUQASH_NOT_BELOW, nodes.set_flag, 4), "cost 400, strict: 15 after 4");
    expect(is(run(&d, 2, 9), BELTUQASH_MODE_OR_FUEL, 0, 0), "mode 2: 10");
}

static void try_sealed_flag(void)
{
    struct draft d;
    draft_flag(&d, 400, true);
    struct outcome cheap = run(&d, BELTUQASH_PERMISSIVE, 9);
    expect(is(cheap, BELTUQASH_DONE, 0, 6) && holds(cheap, FLAG, beltuqash_partial(0), 1) && holds(cheap, Q, 0, 0), "sealed, cost 400");
    struct flag_nodes nodes = draft_flag(&d, 600, true);
    struct outcome dear = run(&d, BELTUQASH_PERMISSIVE, 9);
    expect(is(dear, BELTUQASH_DONE, 0, 6) && holds(dear, Q, beltuqash_partial(0), 1), "sealed, cost 600: q partial");
    expect(is(run(&d, BELTUQASH_STRICT, 9), BELTUQASH_NOT_BELOW, nodes.set_q, 6), "sealed, cost 600, strict: 15 after 6");
}

/* while x do (x := 0; y := 1); z := 1, with x at level 1: the context is kept in the loop and returns after it. */
static void try_context(void)
{
    struct draft d;
    begin(&d, 2, two_levels);
    unsigned x = new_field(&d, 1, 1), y = new_field(&d, 1, 0), z = new_field(&d, 0, 0);
    unsigned body = sequence(&d, assignment(&d, x, constant(&d, 0)), assignment(&d, y, constant(&d, 1)));
    unsigned loop = while_do(&d, field(&d, x), body);
    sequence(&d, loop, assignment(&d, z, constant(&d, 1)));
    struct outcome done = run(&d, BELTUQASH_STRICT, 9);
    expect(is(done, BELTUQASH_DONE, 0, 5), "a while of one round and an assignment: 5 units");
    expect(holds(done, x, 1, 0) && holds(done, y, 1, 1) && holds(done, z, 0, 1), "marks in and after a while");
    expect(is(run(&d, BELTUQASH_STRICT, 3), BELTUQASH_FUEL_SPENT, loop, 3), "the while's second test has no unit left: 12");
}

/* Sheets. */

static uint64_t load_rows(unsigned levels, const uint16_t *rows)
{
    struct draft d;
    begin(&d, levels, rows);
    new_field(&d, 0, 0);
    skip(&d);
    return load(&d);
}

static void try_levels(void)
{
    expect(load_rows(3, (const uint16_t[]){7, 2, 4}) == BELTUQASH_LEVELS_WRONG, "rows 7, 2, 4: 3");
    expect(load_rows(1, one_level) == BELTUQASH_DONE && load_rows(1, (const uint16_t[]){0}) == BELTUQASH_LEVELS_WRONG, "one level");
    expect(load_rows(2, two_levels) == BELTUQASH_DONE && load_rows(4, diamond) == BELTUQASH_DONE, "two levels, the diamond");
    expect(load_rows(2, (const uint16_t[]){3, 3}) == BELTUQASH_LEVELS_WRONG, "each at or below the other: 3");
    expect(load_rows(2, (const uint16_t[]){7, 2}) == BELTUQASH_LEVELS_WRONG, "a bit at the count: 3");
    expect(load_rows(3, (const uint16_t[]){5, 6, 4}) == BELTUQASH_LEVELS_WRONG, "no lowest level: 3");
    expect(load_rows(5, (const uint16_t[]){31, 22, 28, 24, 16}) == BELTUQASH_LEVELS_WRONG, "not transitive: 3");
}

/* f := not not .. f, so many nodes deep. */
static uint64_t load_nots(unsigned depth)
{
    struct draft d;
    begin(&d, 1, one_level);
    new_field(&d, 0, 0);
    unsigned inner = field(&d, 0);
    for (unsigned i = 2; i < depth; i++)
        inner = not(&d, inner);
    assignment(&d, 0, inner);
    return load(&d);
}

/* The largest sheet with one more in the count at this place. */
static uint64_t load_one_more(size_t at)
{
    static struct draft draft;
    static struct bytes sheet;
    draft_largest(&draft);
    sheet_of(&draft, &sheet);
    sheet.at[at]++;
    return c_load(sheet.at, sheet.length);
}

static void try_limits(void)
{
    static struct draft largest;
    draft_largest(&largest);
    expect(load(&largest) == BELTUQASH_DONE, "16, 64, 256 and 1,024 entries are taken");
    expect(load_one_more(0) == BELTUQASH_COUNT_OUTSIDE, "17 levels: 2");
    expect(load_one_more(34) == BELTUQASH_COUNT_OUTSIDE, "65 fields: 2");
    expect(load_one_more(548) == BELTUQASH_COUNT_OUTSIDE, "257 constants: 2");
    expect(load_one_more(1574) == BELTUQASH_COUNT_OUTSIDE, "1,025 nodes: 2");
    expect(load_nots(BELTUQASH_MOST_DEPTH) == BELTUQASH_DONE, "depth 64 is taken");
    expect(load_nots(BELTUQASH_MOST_DEPTH + 1) == BELTUQASH_TOO_DEEP && load_nots(BELTUQASH_MOST_NODES) == BELTUQASH_TOO_DEEP, "depth over 64: 7");
}

static bool at(uint64_t word, unsigned number, unsigned n)
{
    return word == (number | (uint64_t)n << 8);
}

/* f := f + 1 with one byte of node n set to a value; nodes 0 and 1 are the operands, 2 the sum, 3 the assignment. */
static uint64_t load_with(unsigned n, unsigned byte, uint8_t value)
{
    struct draft d;
    begin(&d, 1, one_level);
    unsigned left = field(&d, new_field(&d, 0, 0)), right = constant(&d, 1);
    assignment(&d, 0, operation(&d, ADD, left, right));
    d.nodes[n][byte] = value;
    return load(&d);
}

static void try_nodes(void)
{
    expect(load_with(0, 0, FIELD) == BELTUQASH_DONE, "f := f + 1 is taken");
    expect(at(load_with(1, 0, KINDS), BELTUQASH_NODE_UNKNOWN, 1), "kind 10: 19");
    expect(at(load_with(2, 1, OPERATORS), BELTUQASH_NODE_UNKNOWN, 2), "operator 10: 19");
    expect(at(load_with(3, 1, OPERATORS), BELTUQASH_NODE_UNUSED, 3), "an operator byte in an assignment: 20");
    expect(at(load_with(2, 7, 1), BELTUQASH_NODE_UNUSED, 2), "an unused place: 20");
    expect(at(load_with(0, 2, 1), BELTUQASH_NODE_RANGE, 0), "a field that is not there: 21");
    expect(at(load_with(1, 3, 1), BELTUQASH_NODE_RANGE, 1), "a constant that is not there: 21");
    expect(at(load_with(2, 4, 2), BELTUQASH_NODE_RANGE, 2), "its own child: 21");
    expect(at(load_with(1, 0, SKIP), BELTUQASH_NODE_SORT, 2), "a command for an operand: 22");
}

/* Node 2 is an operator with every fault; they are put right one after another. */
static void try_order_of_faults(void)
{
    struct draft d;
    begin(&d, 1, one_level);
    field(&d, new_field(&d, 0, 0));
    assignment(&d, 0, operation(&d, ADD, skip(&d), 2));
    uint8_t *node = d.nodes[2];
    node[1] = OPERATORS;
    node[6] = 1;
    expect(at(load(&d), BELTUQASH_NODE_UNKNOWN, 2), "19 before 20 in a node");
    node[1] = OR;
    expect(at(load(&d), BELTUQASH_NODE_UNUSED, 2), "20 before 21 in a node");
    node[6] = 0;
    expect(at(load(&d), BELTUQASH_NODE_RANGE, 2), "21 before 22 in a node");
    node[4] = 0;
    d.nodes[3][0] = KINDS;
    expect(at(load(&d), BELTUQASH_NODE_SORT, 2), "22 in a node before 19 in the next");
}

/* The runner's example: q := q + 1 from 41 at level 1. The output has a byte to spare. */

static const uint8_t example[] = {
    2, 0, 3, 0, 2, 0, 1, 0, 0x71, 0, 0, 0, 0, 0, 0, 0, 1, 0, 1, 0, 0, 0, 4, 0, 0, 0, 0, 0,
    0, 0, 0, 0, 1, 0, 0, 0, 0, 0, 0, 0, 2, 0, 1, 0, 0, 0, 0, 0, 6, 0, 0, 0, 2, 0, 0, 0,
};

/* A store of one field that says that it has so many. */
static void store_example(uint8_t *store, unsigned count, int32_t value)
{
    beltuqash_write_count(store, count);
    beltuqash_write_field(store, 0, 1, value);
}

static uint64_t run_example(size_t sheet_len, const uint8_t *store, size_t store_len, uint32_t fuel, uint8_t *out, size_t out_len)
{
    return c_run(example, sheet_len, store, store_len, BELTUQASH_PERMISSIVE, fuel, out, out_len);
}

static void try_example(void)
{
    enum { SHEET = sizeof example };
    uint8_t store[BELTUQASH_LONGEST_STORE], two_fields[BELTUQASH_LONGEST_STORE];
    uint8_t out[BELTUQASH_LONGEST_STORE], stays[BELTUQASH_LONGEST_STORE], right[BELTUQASH_LONGEST_STORE];
    size_t whole = beltuqash_store_length(1);
    memset(out, 9, sizeof out);
    memset(stays, 9, sizeof stays);
    memset(right, 9, sizeof right);
    store_example(store, 1, 41);
    store_example(two_fields, 2, 41);
    store_example(right, 1, 42);
    expect(run_example(SHEET - 1, store, whole, 9, out, whole + 1) == BELTUQASH_SHEET_LENGTH, "a cut sheet: 1");
    expect(run_example(SHEET, store, whole - 1, 9, out, whole + 1) == BELTUQASH_STORE_MISFIT, "a cut store: 8");
    expect(run_example(SHEET, two_fields, whole, 9, out, whole + 1) == BELTUQASH_STORE_MISFIT, "another count: 8");
    expect(run_example(SHEET, store, whole, 9, out, whole - 1) == BELTUQASH_OUT_SHORT, "a short output: 11");
    expect(beltuqash_number(run_example(SHEET, store, whole, 0, out, whole + 1)) == BELTUQASH_FUEL_SPENT, "fuel 0: 12");
    expect(memcmp(out, stays, sizeof out) == 0, "a refusal writes nothing");
    expect(run_example(SHEET, store, whole, 9, out, whole + 1) == (uint64_t)1 << 32, "the example: 1 unit");
    expect(memcmp(out, right, sizeof out) == 0, "the example: q = 42, later bytes stay");
}

/* Hand-outs. */

/* What is lent to one. */
struct hand_out {
    struct bytes sheet, store, request, answer;
    uint32_t reader;
};

/* The reader asks for these fields; the answer's memory is as long as it must be. */
static void ask(struct hand_out *lent, uint32_t reader, const unsigned *fields, unsigned asked)
{
    lent->reader = reader;
    lent->request.length = beltuqash_request_length(asked);
    beltuqash_write_count(lent->request.at, asked);
    for (unsigned i = 0; i < asked; i++)
        beltuqash_write_asked(lent->request.at, i, fields[i]);
    lent->answer.length = beltuqash_answer_length(asked);
}

/* Before each call the answer's bytes are 9. */
static uint64_t hand_out(struct hand_out *lent)
{
    memset(lent->answer.at, 9, sizeof lent->answer.at);
    return c_hand_out(lent->sheet.at, lent->sheet.length, lent->store.at, lent->store.length, lent->reader, lent->request.at,
                      lent->request.length, lent->answer.at, lent->answer.length);
}

static bool shows(const struct hand_out *lent, unsigned position, int32_t value)
{
    return beltuqash_shown(lent->answer.at, position) == 1 && beltuqash_shown_value(lent->answer.at, position) == value;
}

static bool withholds(const struct hand_out *lent, unsigned position)
{
    return beltuqash_shown(lent->answer.at, position) == 0 && beltuqash_shown_value(lent->answer.at, position) == 0;
}

/* Whether all bytes from here on are as they were. */
static bool stay(const struct hand_out *lent, size_t from)
{
    for (size_t i = from; i < sizeof lent->answer.at; i++)
        if (lent->answer.at[i] != 9)
            return false;
    return true;
}

/* A sheet in the diamond whose store has whole fields at levels 0, 1 and 2 and partial ones at 1 and 2. */
enum { WHOLE_0, WHOLE_1, WHOLE_2, PARTIAL_1, PARTIAL_2, ASKABLE };

static void lend_diamond(struct hand_out *lent)
{
    const unsigned marks[ASKABLE] = {0, 1, 2, beltuqash_partial(1), beltuqash_partial(2)};
    struct draft d;
    begin(&d, 4, diamond);
    for (unsigned i = 0; i < ASKABLE; i++)
        new_field(&d, marks[i], 50 + (int32_t)i);
    skip(&d);
    sheet_of(&d, &lent->sheet);
    store_of(&d, &lent->store);
}

static void try_answers(void)
{
    static struct hand_out lent;
    static const unsigned all_but_partial_1[] = {WHOLE_2, WHOLE_0, PARTIAL_2, WHOLE_1, WHOLE_0}, whole_2[] = {WHOLE_2};
    lend_diamond(&lent);
    ask(&lent, 1, all_but_partial_1, 5);
    expect(hand_out(&lent) == BELTUQASH_DONE && beltuqash_count(lent.answer.at) == 5, "five fields are answered");
    expect(withholds(&lent, 0) && withholds(&lent, 2), "whole and partial fields elsewhere are withheld");
    expect(shows(&lent, 1, 50) && shows(&lent, 3, 51) && shows(&lent, 4, 50), "whole fields at or below the reader are shown");
    expect(stay(&lent, beltuqash_answer_length(5)), "bytes after the answer stay");
    ask(&lent, 3, whole_2, 1);
    expect(hand_out(&lent) == BELTUQASH_DONE && shows(&lent, 0, 52), "the highest level reads all whole fields");
    ask(&lent, 0, NULL, 0);
    expect(hand_out(&lent) == BELTUQASH_DONE && beltuqash_count(lent.answer.at) == 0 && stay(&lent, 2), "an empty request");
}

static void try_partial_asked(void)
{
    static struct hand_out lent;
    static const unsigned fields[] = {PARTIAL_2, WHOLE_1, PARTIAL_1, PARTIAL_1};
    lend_diamond(&lent);
    ask(&lent, 1, fields, 4);
    expect(at(hand_out(&lent), BELTUQASH_PARTIAL_ASKED, 2) && stay(&lent, 0), "a partial field at the reader: 18 at 2");
    ask(&lent, 3, fields, 4);
    expect(at(hand_out(&lent), BELTUQASH_PARTIAL_ASKED, 0), "a partial field below the reader: 18 at 0");
    ask(&lent, 0, fields, 4);
    expect(hand_out(&lent) == BELTUQASH_DONE && withholds(&lent, 0) && withholds(&lent, 2), "partial fields above the reader are withheld");
}

/* The sealed flag sheet's final store at a cost of 600. */
static void try_sealed_hand_out(void)
{
    static struct hand_out lent;
    struct draft d;
    draft_flag(&d, 600, true);
    struct outcome dear = run(&d, BELTUQASH_PERMISSIVE, 9);
    sheet_of(&d, &lent.sheet);
    lent.store.length = beltuqash_store_length(d.fields);
    memcpy(lent.store.at, dear.store, lent.store.length);
    ask(&lent, 0, (const unsigned[]){FLAG, COST, Q}, 3);
    expect(at(hand_out(&lent), BELTUQASH_PARTIAL_ASKED, 2), "sealed, cost 600: a request for q gets 18");
    ask(&lent, 0, (const unsigned[]){FLAG, COST}, 2);
    expect(hand_out(&lent) == BELTUQASH_DONE && shows(&lent, 0, 0) && withholds(&lent, 1), "sealed, cost 600: flag and cost");
}

/* A hand-out of the diamond's whole fields to a reader, with one byte of the request or of the store set to a value. */
static uint64_t hand_out_with(uint32_t reader, bool in_request, size_t byte, uint8_t value)
{
    static struct hand_out lent;
    lend_diamond(&lent);
    ask(&lent, reader, (const unsigned[]){WHOLE_0, WHOLE_1, WHOLE_2}, 3);
    (in_request ? &lent.request : &lent.store)->at[byte] = value;
    return hand_out(&lent);
}

static void try_hand_out_faults(void)
{
    size_t last_mark = beltuqash_store_length(ASKABLE - 1), last_asked = beltuqash_request_length(2);
    expect(hand_out_with(0, false, 0, ASKABLE) == BELTUQASH_DONE, "the hand-out without a fault");
    expect(hand_out_with(0, false, 0, ASKABLE + 1) == BELTUQASH_STORE_MISFIT, "hand-out, another count in the store: 8");
    expect(hand_out_with(0, false, last_mark, 4) == BELTUQASH_MARK_WRONG, "hand-out, an unknown level: 9");
    expect(hand_out_with(0, false, last_mark, (uint8_t)beltuqash_partial(4)) == BELTUQASH_MARK_WRONG, "hand-out, an unknown partial level: 9");
    expect(hand_out_with(0, false, last_mark, MARKS) == BELTUQASH_MARK_WRONG, "hand-out, a mark above 31: 9");
    expect(hand_out_with(4, false, 0, ASKABLE) == BELTUQASH_READER_OR_REQUEST, "an unknown reader: 17");
    expect(hand_out_with(UINT32_MAX, false, 0, ASKABLE) == BELTUQASH_READER_OR_REQUEST, "the greatest reader: 17");
    expect(hand_out_with(0, true, 0, 2) == BELTUQASH_READER_OR_REQUEST, "another count in the request: 17");
    expect(hand_out_with(0, true, last_asked, ASKABLE) == BELTUQASH_READER_OR_REQUEST, "a field that the sheet has not: 17");
}

/* So many fields asked, all of them field 0. */
static uint64_t hand_out_many(unsigned asked)
{
    static struct hand_out lent;
    const unsigned fields[BELTUQASH_MOST_ASKED + 1] = {WHOLE_0};
    lend_diamond(&lent);
    ask(&lent, 0, fields, asked);
    return hand_out(&lent);
}

/* Sheet, store, mark, request and answer have a fault each, and a partial field is asked; they are put right one after another. */
static void try_order_of_hand_out(void)
{
    static struct hand_out lent;
    lend_diamond(&lent);
    ask(&lent, 1, (const unsigned[]){WHOLE_0, PARTIAL_1}, 2);
    uint8_t *mark = lent.store.at + beltuqash_store_length(0);
    lent.sheet.length--;
    lent.store.length--;
    *mark = MARKS;
    lent.request.length--;
    lent.answer.length--;
    expect(hand_out(&lent) == BELTUQASH_SHEET_LENGTH, "load's numbers before 8");
    lent.sheet.length++;
    expect(hand_out(&lent) == BELTUQASH_STORE_MISFIT, "8 before 9");
    lent.store.length++;
    expect(hand_out(&lent) == BELTUQASH_MARK_WRONG, "9 before 17");
    *mark = WHOLE_0;
    expect(hand_out(&lent) == BELTUQASH_READER_OR_REQUEST, "17 before 11");
    lent.request.length++;
    expect(hand_out(&lent) == BELTUQASH_OUT_SHORT, "11 before 18");
    lent.answer.length++;
    expect(at(hand_out(&lent), BELTUQASH_PARTIAL_ASKED, 1) && stay(&lent, 0), "18 comes last, and nothing is written");
    lent.request.length = 1;
    expect(hand_out(&lent) == BELTUQASH_READER_OR_REQUEST, "a request without its count: 17");
    expect(hand_out_many(BELTUQASH_MOST_ASKED) == BELTUQASH_DONE, "64 fields are answered");
    expect(hand_out_many(BELTUQASH_MOST_ASKED + 1) == BELTUQASH_READER_OR_REQUEST, "65 fields asked: 17");
}

int main(void)
{
    try_arithmetic();
    try_division();
    try_tests();
    try_marks();
    try_flag();
    try_sealed_flag();
    try_context();
    try_levels();
    try_limits();
    try_nodes();
    try_order_of_faults();
    try_example();
    try_answers();
    try_partial_asked();
    try_sealed_hand_out();
    try_hand_out_faults();
    try_order_of_hand_out();
    if (wrong == 0)
        printf("monitor.c does what its trials say\n");
    return wrong == 0 ? EXIT_SUCCESS : EXIT_FAILURE;
}
