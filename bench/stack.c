/* Measures the stack of whole calls: each is made on a painted stack of its own, whose deepest changed byte tells.
 *
 * The sheets are 64 deep in every shape of nesting: commands, expressions, and an expression below a nest of commands.
 * Exit 1 if a call of the archive takes more than the limit, or archive and C differ in what they answer or write. */
#define _GNU_SOURCE
#include "workloads.h"

#include <stdio.h>
#include <stdlib.h>
#include <string.h>
#include <sys/mman.h>
#include <ucontext.h>

/* A call that takes more than the whole stack dies of the page below it. */
enum { STACK_LIMIT = 8192, STACK_SIZE = 2 * STACK_LIMIT, GUARD_SIZE = 4096 };

/* Enough for the way down to the deepest command and some rounds there. The reader is the cube's highest level. */
enum { FUEL = 200, READER = 15 };

static void fail(const char *what)
{
    fprintf(stderr, "%s\n", what);
    exit(EXIT_FAILURE);
}

static const char *const call_names[CALLS] = {"load", "run", "hand-out"};

/* A call on a stack of its own, with what it answers and writes. */

struct call {
    enum which which;
    const struct monitor *monitor;
    const struct bytes *sheet, *store, *request;
    uint32_t mode;
    uint64_t word;
    uint8_t final_store[BELTUQASH_LONGEST_STORE], answer[BELTUQASH_LONGEST_ANSWER];
    const uint8_t *base;
};

static uint8_t *stack;
static ucontext_t outside, inside;
static struct call *current;

/* Below the stack lies a page that must not be touched. */
static void make_stack(void)
{
    uint8_t *pages = mmap(NULL, GUARD_SIZE + STACK_SIZE, PROT_READ | PROT_WRITE, MAP_PRIVATE | MAP_ANONYMOUS, -1, 0);
    if (pages == MAP_FAILED || mprotect(pages, GUARD_SIZE, PROT_NONE) != 0)
        fail("no memory for a stack");
    stack = pages + GUARD_SIZE;
}

/* All below this function's frame address counts, so its own few words do too. */
static void make_call(void)
{
    struct call *call = current;
    const struct monitor *monitor = call->monitor;
    const struct bytes *sheet = call->sheet, *store = call->store, *request = call->request;
    call->base = __builtin_frame_address(0);
    switch (call->which) {
    case LOAD:
        call->word = monitor->load(sheet->at, sheet->length);
        break;
    case RUN:
        call->word = monitor->run(sheet->at, sheet->length, store->at, store->length, call->mode, FUEL, call->final_store,
                                  sizeof call->final_store);
        break;
    default:
        call->word = monitor->hand_out(sheet->at, sheet->length, store->at, store->length, READER, request->at, request->length, call->answer,
                                       sizeof call->answer);
    }
}

/* Bytes of stack that a call changes below its base, seen against one paint. */
static unsigned stack_against(struct call *call, uint8_t paint)
{
    memset(stack, paint, STACK_SIZE);
    getcontext(&inside);
    inside.uc_stack.ss_sp = stack;
    inside.uc_stack.ss_size = STACK_SIZE;
    inside.uc_link = &outside;
    makecontext(&inside, make_call, 0);
    current = call;
    swapcontext(&outside, &inside);
    const uint8_t *deepest = stack;
    while (*deepest == paint)
        deepest++;
    return (unsigned)(call->base - deepest);
}

/* A byte may be left in the colour of one paint, not of both. */
static unsigned stack_of(struct call *call)
{
    unsigned one = stack_against(call, 0xa5), other = stack_against(call, 0x5a);
    return one < other ? other : one;
}

/* The other monitor answers the same word and writes the same bytes. */
static void compare(const struct call *call)
{
    struct call other = *call;
    memset(other.final_store, 0, sizeof other.final_store);
    memset(other.answer, 0, sizeof other.answer);
    other.monitor = call->monitor == &archive ? &by_hand : &archive;
    current = &other;
    make_call();
    if (other.word != call->word || memcmp(other.final_store, call->final_store, sizeof other.final_store) != 0 ||
        memcmp(other.answer, call->answer, sizeof other.answer) != 0)
        fail("archive and C differ");
}

/* All calls on a draft. */

struct stacks {
    unsigned of[CALLS];
};

static void keep_most(struct stacks *most, struct stacks stacks)
{
    for (int i = 0; i < CALLS; i++)
        if (most->of[i] < stacks.of[i])
            most->of[i] = stacks.of[i];
}

/* Puts in the call's stack, the greater of what is there and of this mode. The call ends with one of the numbers in the set. */
static void measure_call(struct stacks *stacks, struct call call, enum which which, uint32_t mode, unsigned numbers)
{
    call.which = which;
    call.mode = mode;
    struct stacks measured = {{0}};
    measured.of[which] = stack_of(&call);
    keep_most(stacks, measured);
    if ((numbers >> beltuqash_number(call.word) & 1) == 0)
        fail("a call ends with a number that it should not");
    compare(&call);
}

/* The stacks of load, of run in both modes, and of a hand-out of as many fields as can be asked. */
static struct stacks measure(const struct monitor *monitor, const struct draft *draft, unsigned numbers)
{
    static struct bytes sheet, store, request;
    sheet_of(draft, &sheet);
    store_of(draft, &store);
    request_of(draft, BELTUQASH_MOST_ASKED, &request);
    const struct call call = {.monitor = monitor, .sheet = &sheet, .store = &store, .request = &request};
    struct stacks most = {{0}};
    measure_call(&most, call, LOAD, 0, numbers);
    measure_call(&most, call, RUN, BELTUQASH_STRICT, numbers);
    measure_call(&most, call, RUN, BELTUQASH_PERMISSIVE, numbers);
    measure_call(&most, call, HAND_OUT, 0, numbers);
    return most;
}

/* Runs that were at the deepest place: done, or stopped there by the fuel, a divisor or the context. */
enum { REACHED = 1 << BELTUQASH_DONE | 1 << BELTUQASH_FUEL_SPENT | 1 << BELTUQASH_DIVISOR_ZERO | 1 << BELTUQASH_NOT_BELOW };

/* Shapes. A shape puts one more node, the i-th of its nest, around what is there. */

struct shape {
    const char *name;
    unsigned (*around)(struct draft *, unsigned inner, unsigned i);
};

/* Fields 0 to 3 are true and at levels of which none is at or below another. */
enum { SIDE_BY_SIDE = 4, FALSE_FIELD = 4, HIGH_FIELD = 5, LOW_FIELD = 6 };

static void begin_nest(struct draft *d)
{
    begin_cube(d);
    for (unsigned i = 0; i < SIDE_BY_SIDE; i++)
        new_field(d, 1u << i, 1);
    new_field(d, 2, 0);
    new_field(d, 15, 0);
    new_field(d, 4, 0);
}

static unsigned leaf(struct draft *d, unsigned i)
{
    return i % 5 == 4 ? constant(d, 1) : field(d, i % 5);
}

static unsigned operator_left(struct draft *d, unsigned inner, unsigned i)
{
    return operation(d, (enum operator)(i % OPERATORS), inner, leaf(d, i));
}

static unsigned operator_right(struct draft *d, unsigned inner, unsigned i)
{
    return operation(d, (enum operator)(i % OPERATORS), leaf(d, i), inner);
}

static unsigned around_not(struct draft *d, unsigned inner, unsigned i)
{
    (void)i;
    return not(d, inner);
}

static unsigned around_seal(struct draft *d, unsigned inner, unsigned i)
{
    (void)i;
    return seal(d, inner);
}

static unsigned sequence_left(struct draft *d, unsigned inner, unsigned i)
{
    (void)i;
    return sequence(d, inner, skip(d));
}

static unsigned sequence_right(struct draft *d, unsigned inner, unsigned i)
{
    (void)i;
    return sequence(d, skip(d), inner);
}

static unsigned then_part(struct draft *d, unsigned inner, unsigned i)
{
    return if_else(d, field(d, i % SIDE_BY_SIDE), inner, skip(d));
}

static unsigned else_part(struct draft *d, unsigned inner, unsigned i)
{
    (void)i;
    return if_else(d, field(d, FALSE_FIELD), skip(d), inner);
}

static unsigned around_while(struct draft *d, unsigned inner, unsigned i)
{
    return while_do(d, field(d, i % SIDE_BY_SIDE), inner);
}

static unsigned any_expression(struct draft *d, unsigned inner, unsigned i);
static unsigned any_command(struct draft *d, unsigned inner, unsigned i);

enum { EXPRESSIONS = 5, COMMANDS = 6 };

static const struct shape expressions[EXPRESSIONS] = {
    {"operators, left", operator_left}, {"operators, right", operator_right}, {"not", around_not},
    {"seal", around_seal},              {"expressions in turn", any_expression},
};

static const struct shape commands[COMMANDS] = {
    {"sequences, left", sequence_left}, {"sequences, right", sequence_right}, {"ifs, then part", then_part},
    {"ifs, else part", else_part},      {"whiles", around_while},             {"commands in turn", any_command},
};

/* The shapes in turn, all but the last, which is this one. */
static unsigned any_expression(struct draft *d, unsigned inner, unsigned i)
{
    return expressions[i % (EXPRESSIONS - 1)].around(d, inner, i);
}

static unsigned any_command(struct draft *d, unsigned inner, unsigned i)
{
    return commands[i % (COMMANDS - 1)].around(d, inner, i);
}

/* So many nodes around what is there; `first` shifts what comes in turn. */
static unsigned nest(struct draft *d, const struct shape *shape, unsigned inner, unsigned nodes, unsigned first)
{
    for (unsigned i = 0; i < nodes; i++)
        inner = shape->around(d, inner, first + i);
    return inner;
}

/* The deepest command, with the expression in it: an assignment in each way, an if, a while. */
enum { DEEPEST = 4 };

static unsigned deepest_command(struct draft *d, unsigned which, unsigned expression)
{
    switch (which) {
    case 0:
        return assignment(d, HIGH_FIELD, expression);
    case 1:
        return assignment(d, LOW_FIELD, expression);
    case 2:
        return if_else(d, expression, skip(d), skip(d));
    default:
        return while_do(d, expression, skip(d));
    }
}

/* Commands to the full depth, with a skip below. */
static struct stacks measure_commands(const struct monitor *monitor, const struct shape *shape)
{
    struct draft d;
    begin_nest(&d);
    nest(&d, shape, skip(&d), BELTUQASH_MOST_DEPTH - 1, 0);
    return measure(monitor, &d, REACHED);
}

/* An expression of this depth below a nest of commands, together to the full depth. */
static struct stacks measure_mixture(const struct monitor *monitor, const struct shape *above,
                                     const struct shape *below, unsigned depth)
{
    struct stacks most = {{0}};
    for (unsigned which = 0; which < DEEPEST; which++) {
        struct draft d;
        begin_nest(&d);
        unsigned expression = nest(&d, below, leaf(&d, depth), depth - 1, depth);
        nest(&d, above, deepest_command(&d, which, expression), BELTUQASH_MOST_DEPTH - 1 - depth, depth);
        keep_most(&most, measure(monitor, &d, REACHED));
    }
    return most;
}

/* The same for every depth. */
static struct stacks measure_mixtures(const struct monitor *monitor, const struct shape *above,
                                      const struct shape *below)
{
    struct stacks most = {{0}};
    for (unsigned depth = 1; depth < BELTUQASH_MOST_DEPTH; depth++)
        keep_most(&most, measure_mixture(monitor, above, below, depth));
    return most;
}

/* A sheet that is refused for its depth, as deep as nodes allow. */
static struct stacks measure_too_deep(const struct monitor *monitor, const struct shape *shape)
{
    struct draft d;
    begin_nest(&d);
    nest(&d, shape, skip(&d), (BELTUQASH_MOST_NODES - 1) / 3, 0);
    return measure(monitor, &d, 1 << BELTUQASH_TOO_DEEP);
}

static struct stacks measure_largest(const struct monitor *monitor)
{
    static struct draft d;
    draft_largest(&d);
    return measure(monitor, &d, 1 << BELTUQASH_DONE | 1 << BELTUQASH_FUEL_SPENT | 1 << BELTUQASH_NOT_BELOW | 1 << BELTUQASH_PARTIAL_TEST);
}

/* The tables. */

/* A name and a number for each call. */
static void print_stacks(const char *name, struct stacks stacks)
{
    printf("%-22s", name);
    for (int i = 0; i < CALLS; i++)
        printf(" %8u", stacks.of[i]);
}

static void print_line(const char *name, struct stacks stacks, struct stacks *most)
{
    keep_most(most, stacks);
    print_stacks(name, stacks);
    printf("\n");
}

static void print_shapes(struct stacks *most)
{
    printf("%-22s", "stack, bytes");
    for (int i = 0; i < CALLS; i++)
        printf(" %8s", call_names[i]);
    printf("\n");
    for (int i = 0; i < COMMANDS; i++)
        print_line(commands[i].name, measure_commands(&archive, &commands[i]), most);
    for (int i = 0; i < EXPRESSIONS; i++)
        print_line(expressions[i].name, measure_mixture(&archive, &commands[0], &expressions[i], BELTUQASH_MOST_DEPTH - 1), most);
    print_line("largest sheet", measure_largest(&archive), most);
    print_line("refused: too deep", measure_too_deep(&archive, &commands[COMMANDS - 1]), most);
}

static void print_mixtures(struct stacks *most)
{
    printf("\nrun, an expression below commands, worst of all depths that make 64\n%-22s", "");
    for (int i = 0; i < EXPRESSIONS; i++)
        printf(" %20s", expressions[i].name);
    for (int i = 0; i < COMMANDS; i++) {
        printf("\n%-22s", commands[i].name);
        for (int j = 0; j < EXPRESSIONS; j++) {
            struct stacks stacks = measure_mixtures(&archive, &commands[i], &expressions[j]);
            keep_most(most, stacks);
            printf(" %20u", stacks.of[RUN]);
        }
    }
}

static struct stacks most_by_hand(void)
{
    struct stacks most = {{0}};
    for (int i = 0; i < COMMANDS; i++)
        for (int j = 0; j < EXPRESSIONS; j++)
            keep_most(&most, measure_mixtures(&by_hand, &commands[i], &expressions[j]));
    return most;
}

int main(void)
{
    struct stacks most = {{0}};
    make_stack();
    print_shapes(&most);
    print_mixtures(&most);
    printf("\n\n");
    print_stacks("archive at most", most);
    printf(" of %u\n", STACK_LIMIT);
    print_stacks("C at most", most_by_hand());
    printf("\n");
    for (int i = 0; i < CALLS; i++)
        if (most.of[i] > STACK_LIMIT)
            return EXIT_FAILURE;
    return EXIT_SUCCESS;
}
