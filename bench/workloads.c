/* The sheets that are measured, their runs, loads and hand-outs. */
#include "workloads.h"

#include <stdio.h>
#include <stdlib.h>
#include <string.h>

const struct monitor archive = {beltuqash_load, beltuqash_run, beltuqash_hand_out}, by_hand = {c_load, c_run, c_hand_out};

/* The loops. Each is while i < n do body, with i in field 0 and n in field 1. */

static void begin_loop(struct draft *d, int32_t rounds)
{
    new_field(d, 0, 0);
    new_field(d, 0, rounds);
}

/* i := i + 1 */
static unsigned next_round(struct draft *d)
{
    return assignment(d, 0, operation(d, ADD, field(d, 0), constant(d, 1)));
}

static void end_loop(struct draft *d, unsigned body)
{
    while_do(d, operation(d, LESS, field(d, 0), field(d, 1)), body);
}

/* i := i + 1; with the test, 2 units a round. */
static void draft_counting(struct draft *d, int32_t rounds)
{
    begin(d, 2, (const uint16_t[]){3, 2});
    begin_loop(d, rounds);
    end_loop(d, next_round(d));
}

/* x := (x * 31 + i) % 1009; if x % 2 = 0 then y := y + x / 3 else y := y - x;
 * if y < -100000 or not (y <= 100000) then y := y % 1000 else skip; i := i + 1.
 * 7 units a round. Fields x and y are at level 1 of the diamond. */
static void draft_branching(struct draft *d, int32_t rounds)
{
    begin(d, 4, (const uint16_t[]){15, 10, 12, 8});
    begin_loop(d, rounds);
    unsigned x = new_field(d, 1, 7), y = new_field(d, 1, 0);
    unsigned sum = operation(d, ADD, operation(d, MULTIPLY, field(d, x), constant(d, 31)), field(d, 0));
    unsigned even = operation(d, EQUAL, operation(d, REMAINDER, field(d, x), constant(d, 2)), constant(d, 0));
    unsigned more = operation(d, ADD, field(d, y), operation(d, DIVIDE, field(d, x), constant(d, 3)));
    unsigned fewer = operation(d, SUBTRACT, field(d, y), field(d, x));
    unsigned low = operation(d, LESS, field(d, y), constant(d, -100000));
    unsigned high = not(d, operation(d, AT_MOST, field(d, y), constant(d, 100000)));
    unsigned back = operation(d, REMAINDER, field(d, y), constant(d, 1000));
    unsigned commands[] = {
        assignment(d, x, operation(d, REMAINDER, sum, constant(d, 1009))),
        if_else(d, even, assignment(d, y, more), assignment(d, y, fewer)),
        if_else(d, operation(d, OR, low, high), assignment(d, y, back), skip(d)),
        next_round(d),
    };
    end_loop(d, all_of(d, commands, 4));
}

/* p := a + b; q := c + e; r := p * q; if a < c then s := b else s := e; i := i + 1.
 * 7 units a round. Fields a, b, c, e are at the cube's levels 1, 2, 4, 8: of two, neither is at or below the other. */
static void draft_joins(struct draft *d, int32_t rounds)
{
    begin_cube(d);
    begin_loop(d, rounds);
    unsigned a = new_field(d, 1, 3), b = new_field(d, 2, 5), c = new_field(d, 4, 7), e = new_field(d, 8, 11);
    unsigned p = new_field(d, 0, 0), q = new_field(d, 0, 0), r = new_field(d, 0, 0), s = new_field(d, 15, 0);
    unsigned test = operation(d, LESS, field(d, a), field(d, c));
    unsigned commands[] = {
        assignment(d, p, operation(d, ADD, field(d, a), field(d, b))),
        assignment(d, q, operation(d, ADD, field(d, c), field(d, e))),
        assignment(d, r, operation(d, MULTIPLY, field(d, p), field(d, q))),
        if_else(d, test, assignment(d, s, field(d, b)), assignment(d, s, field(d, e))),
        next_round(d),
    };
    end_loop(d, all_of(d, commands, 5));
}

/* p := b; if a then p := i else skip; i := i + 1.
 * 5 units a round. The context 1 of the if meets level 2 of p, which is partial until the next round. */
static void draft_meets(struct draft *d, int32_t rounds)
{
    begin_cube(d);
    begin_loop(d, rounds);
    unsigned a = new_field(d, 1, 1), b = new_field(d, 2, 5), p = new_field(d, 0, 0);
    unsigned commands[] = {
        assignment(d, p, field(d, b)),
        if_else(d, field(d, a), assignment(d, p, field(d, 0)), skip(d)),
        next_round(d),
    };
    end_loop(d, all_of(d, commands, 3));
}

const struct workload workloads[WORKLOADS] = {
    {"counting loop, a unit", draft_counting, 2, BELTUQASH_STRICT},
    {"arithmetic and branches, a unit", draft_branching, 7, BELTUQASH_STRICT},
    {"joins in 16 levels, a unit", draft_joins, 7, BELTUQASH_STRICT},
    {"meets in 16 levels, a unit", draft_meets, 5, BELTUQASH_PERMISSIVE},
};

const char load_name[] = "load, 9,768 bytes";

/* The order desk's sheets. */

static void draft_flag_order(struct draft *d)
{
    draft_flag(d, 600, false);
}

/* An estimate for a cloth: 15 commands, 100 nodes, 18 units. The prices of yarn and dye are at levels 1 and 2 of the diamond,
 * so the total and what follows from it are at level 3. */

enum { LENGTH, WIDTH, YARN_PRICE, DYE_PRICE, AREA, ENDS, YARN, DYE, WORK, TOTAL, MARGIN, PRICE, ESTIMATE_FIELDS };

/* area := length * width; ends := width * 24; yarn := ends * length;
 * if 40 < width then yarn := yarn + area / 8 else skip; dye := area / 3. */
static unsigned work_out_material(struct draft *d)
{
    unsigned wide = operation(d, LESS, constant(d, 40), field(d, WIDTH));
    unsigned border = operation(d, DIVIDE, field(d, AREA), constant(d, 8));
    unsigned commands[] = {
        assignment(d, AREA, operation(d, MULTIPLY, field(d, LENGTH), field(d, WIDTH))),
        assignment(d, ENDS, operation(d, MULTIPLY, field(d, WIDTH), constant(d, 24))),
        assignment(d, YARN, operation(d, MULTIPLY, field(d, ENDS), field(d, LENGTH))),
        if_else(d, wide, assignment(d, YARN, operation(d, ADD, field(d, YARN), border)), skip(d)),
        assignment(d, DYE, operation(d, DIVIDE, field(d, AREA), constant(d, 3))),
    };
    return all_of(d, commands, 5);
}

/* work := area / 60; if 200 < area then work := work - 2 else work := work + 1; work := work * 35;
 * yarn := yarn * yarn_price; dye := dye * dye_price; total := yarn + dye + work. */
static unsigned work_out_total(struct draft *d)
{
    unsigned large = operation(d, LESS, constant(d, 200), field(d, AREA));
    unsigned less = assignment(d, WORK, operation(d, SUBTRACT, field(d, WORK), constant(d, 2)));
    unsigned more = assignment(d, WORK, operation(d, ADD, field(d, WORK), constant(d, 1)));
    unsigned material = operation(d, ADD, field(d, YARN), field(d, DYE));
    unsigned commands[] = {
        assignment(d, WORK, operation(d, DIVIDE, field(d, AREA), constant(d, 60))),
        if_else(d, large, less, more),
        assignment(d, WORK, operation(d, MULTIPLY, field(d, WORK), constant(d, 35))),
        assignment(d, YARN, operation(d, MULTIPLY, field(d, YARN), field(d, YARN_PRICE))),
        assignment(d, DYE, operation(d, MULTIPLY, field(d, DYE), field(d, DYE_PRICE))),
        assignment(d, TOTAL, operation(d, ADD, material, field(d, WORK))),
    };
    return all_of(d, commands, 6);
}

/* margin := total / 5; if 5000 < total then margin := margin - total / 50 else skip;
 * price := total + margin; price := price - price % 100. */
static unsigned work_out_price(struct draft *d)
{
    unsigned large = operation(d, LESS, constant(d, 5000), field(d, TOTAL));
    unsigned discount = operation(d, DIVIDE, field(d, TOTAL), constant(d, 50));
    unsigned over = operation(d, REMAINDER, field(d, PRICE), constant(d, 100));
    unsigned commands[] = {
        assignment(d, MARGIN, operation(d, DIVIDE, field(d, TOTAL), constant(d, 5))),
        if_else(d, large, assignment(d, MARGIN, operation(d, SUBTRACT, field(d, MARGIN), discount)), skip(d)),
        assignment(d, PRICE, operation(d, ADD, field(d, TOTAL), field(d, MARGIN))),
        assignment(d, PRICE, operation(d, SUBTRACT, field(d, PRICE), over)),
    };
    return all_of(d, commands, 4);
}

static void draft_estimate(struct draft *d)
{
    begin(d, 4, (const uint16_t[]){15, 10, 12, 8});
    new_field(d, 0, 30);
    new_field(d, 0, 60);
    new_field(d, 1, 3);
    new_field(d, 2, 5);
    while (d->fields < ESTIMATE_FIELDS)
        new_field(d, 0, 0);
    unsigned first = sequence(d, work_out_material(d), work_out_total(d));
    sequence(d, first, work_out_price(d));
}

const struct desk_sheet desk_sheets[DESK_SHEETS] = {
    {{"load, flag sheet", "run, flag sheet", "hand-out, flag sheet"}, draft_flag_order, 6, 0},
    {{"load, estimate, 100 nodes", "run, estimate, 100 nodes", "hand-out, estimate, 100 nodes"}, draft_estimate, 18, 1},
};

/* The calls. */

static uint64_t run_to(run_call call, const struct job *job, uint8_t *out)
{
    const struct bytes *sheet = &job->sheet, *store = &job->store;
    return call(sheet->at, sheet->length, store->at, store->length, job->mode, job->fuel, out, BELTUQASH_LONGEST_STORE);
}

uint64_t run(run_call call, const struct job *job)
{
    uint8_t out[BELTUQASH_LONGEST_STORE];
    return run_to(call, job, out);
}

static uint64_t hand_out_to(hand_out_call call, const struct order *order, uint8_t *answer)
{
    const struct bytes *sheet = &order->job.sheet, *store = &order->final_store, *request = &order->request;
    return call(sheet->at, sheet->length, store->at, store->length, order->reader, request->at, request->length, answer,
                BELTUQASH_LONGEST_ANSWER);
}

static uint64_t hand_out(hand_out_call call, const struct order *order)
{
    uint8_t answer[BELTUQASH_LONGEST_ANSWER];
    return hand_out_to(call, order, answer);
}

uint64_t desk_call(const struct monitor *monitor, enum which which, const struct order *order)
{
    const struct bytes *sheet = &order->job.sheet;
    switch (which) {
    case LOAD:
        return monitor->load(sheet->at, sheet->length);
    case RUN:
        return run(monitor->run, &order->job);
    default:
        return hand_out(monitor->hand_out, order);
    }
}

/* What must hold of the calls before they are measured. */

static void fail(const char *name, const char *what)
{
    fprintf(stderr, "%s: %s\n", name, what);
    exit(EXIT_FAILURE);
}

static void compare_loads(const char *name, const struct bytes *sheet)
{
    if (beltuqash_load(sheet->at, sheet->length) != BELTUQASH_DONE || c_load(sheet->at, sheet->length) != BELTUQASH_DONE)
        fail(name, "the sheet is not taken");
}

static void compare_runs(const char *name, const struct job *job)
{
    uint8_t by_archive[BELTUQASH_LONGEST_STORE] = {0}, by_c[BELTUQASH_LONGEST_STORE] = {0};
    uint64_t word = run_to(beltuqash_run, job, by_archive);
    if (word != run_to(c_run, job, by_c) || memcmp(by_archive, by_c, BELTUQASH_LONGEST_STORE) != 0)
        fail(name, "archive and C differ");
    if (beltuqash_number(word) != BELTUQASH_DONE || beltuqash_units(word) != job->units)
        fail(name, "the run does not finish with the units that it should spend");
}

/* Some of the fields must be shown, and some withheld. */
static void compare_hand_outs(const char *name, const struct order *order)
{
    uint8_t by_archive[BELTUQASH_LONGEST_ANSWER] = {0}, by_c[BELTUQASH_LONGEST_ANSWER] = {0};
    uint64_t word = hand_out_to(beltuqash_hand_out, order, by_archive);
    if (word != hand_out_to(c_hand_out, order, by_c) || memcmp(by_archive, by_c, BELTUQASH_LONGEST_ANSWER) != 0)
        fail(name, "archive and C differ");
    unsigned asked = beltuqash_count(by_archive), shown = 0;
    for (unsigned i = 0; i < asked; i++)
        shown += beltuqash_shown(by_archive, i);
    if (word != BELTUQASH_DONE || shown == 0 || shown == asked)
        fail(name, "the answer does not both show and withhold");
}

void prepare_run(struct job *job, const struct workload *workload, uint32_t fuel)
{
    struct draft draft;
    uint32_t rounds = (fuel - 1) / workload->units_a_round;
    workload->draft(&draft, (int32_t)rounds);
    sheet_of(&draft, &job->sheet);
    store_of(&draft, &job->store);
    job->mode = workload->mode;
    job->fuel = fuel;
    job->units = rounds * workload->units_a_round + 1;
    compare_runs(workload->name, job);
}

void prepare_load(struct bytes *sheet)
{
    struct draft draft;
    draft_largest(&draft);
    sheet_of(&draft, sheet);
    if (sheet->length != BELTUQASH_LONGEST_SHEET)
        fail(load_name, "the largest sheet has another length");
    compare_loads(load_name, sheet);
}

void prepare_order(struct order *order, const struct desk_sheet *sheet)
{
    struct draft draft;
    sheet->draft(&draft);
    sheet_of(&draft, &order->job.sheet);
    store_of(&draft, &order->job.store);
    request_of(&draft, draft.fields, &order->request);
    order->job.mode = BELTUQASH_PERMISSIVE;
    order->job.fuel = 1000;
    order->job.units = sheet->units;
    order->reader = sheet->reader;
    compare_loads(sheet->names[LOAD], &order->job.sheet);
    compare_runs(sheet->names[RUN], &order->job);
    order->final_store.length = order->job.store.length;
    run_to(beltuqash_run, &order->job, order->final_store.at);
    compare_hand_outs(sheet->names[HAND_OUT], order);
}
