/* The monitor by hand in C: load judges a sheet's bytes in place, run works on node numbers by recursion, hand-out reads
 * the store where it lies.
 *
 * Joins and meets are found from the order rows. A field's value and mark are kept in one word, so that an expression's
 * result comes back in a register. No heap, and nothing is kept between calls. */
#include "monitor.h"

#include <stdbool.h>
#include <string.h>

struct section {
    const uint8_t *entries;
    unsigned count;
};

struct sheet {
    struct section levels, fields, constants, nodes;
};

/* The sections: numbers 1 and 2, in byte order. */

struct rest {
    const uint8_t *at;
    size_t length;
};

static unsigned read_section(struct rest *rest, unsigned least, unsigned most, size_t size, struct section *section)
{
    if (rest->length < BELTUQASH_COUNT_BYTES)
        return BELTUQASH_SHEET_LENGTH;
    section->count = beltuqash_read_two(rest->at);
    section->entries = rest->at + BELTUQASH_COUNT_BYTES;
    if (section->count < least || most < section->count)
        return BELTUQASH_COUNT_OUTSIDE;
    size_t covered = BELTUQASH_COUNT_BYTES + section->count * size;
    if (rest->length < covered)
        return BELTUQASH_SHEET_LENGTH;
    rest->at += covered;
    rest->length -= covered;
    return BELTUQASH_DONE;
}

static unsigned read_sheet(const uint8_t *bytes, size_t length, struct sheet *sheet)
{
    struct rest rest = {bytes, length};
    unsigned number = read_section(&rest, 1, BELTUQASH_MOST_LEVELS, BELTUQASH_LEVEL_BYTES, &sheet->levels);
    if (number == BELTUQASH_DONE)
        number = read_section(&rest, 1, BELTUQASH_MOST_FIELDS, BELTUQASH_NAME_BYTES, &sheet->fields);
    if (number == BELTUQASH_DONE)
        number = read_section(&rest, 0, BELTUQASH_MOST_CONSTANTS, BELTUQASH_CONSTANT_BYTES, &sheet->constants);
    if (number == BELTUQASH_DONE)
        number = read_section(&rest, 1, BELTUQASH_MOST_NODES, BELTUQASH_NODE_BYTES, &sheet->nodes);
    if (number == BELTUQASH_DONE && rest.length != 0)
        number = BELTUQASH_SHEET_LENGTH;
    return number;
}

/* The levels: number 3, and what runs ask of them. */

struct levels {
    unsigned count;
    uint16_t rows[BELTUQASH_MOST_LEVELS];
};

static void read_levels(const struct section *section, struct levels *levels)
{
    levels->count = section->count;
    for (unsigned i = 0; i < section->count; i++)
        levels->rows[i] = (uint16_t)beltuqash_read_two(section->entries + BELTUQASH_LEVEL_BYTES * i);
}

static inline bool at_or_below(const struct levels *levels, unsigned i, unsigned j)
{
    return levels->rows[i] >> j & 1;
}

/* The level with this row, or the count if there is none. */
static inline unsigned with_row(const struct levels *levels, unsigned row)
{
    unsigned k = 0;
    while (k < levels->count && levels->rows[k] != row)
        k++;
    return k;
}

/* Above the join of two levels lies exactly what lies above both. */
static inline unsigned join(const struct levels *levels, unsigned i, unsigned j)
{
    if (at_or_below(levels, i, j))
        return j;
    if (at_or_below(levels, j, i))
        return i;
    return with_row(levels, levels->rows[i] & levels->rows[j]);
}

/* Above the meet of two levels lies exactly what lies above every level that is below both. */
static unsigned meet(const struct levels *levels, unsigned i, unsigned j)
{
    unsigned both = 1u << i | 1u << j;
    unsigned row = 0xffff;
    for (unsigned k = 0; k < levels->count; k++)
        if ((levels->rows[k] & both) == both)
            row &= levels->rows[k];
    return with_row(levels, row);
}

static inline unsigned all_levels(const struct levels *levels)
{
    return (1u << levels->count) - 1;
}

static unsigned lowest(const struct levels *levels)
{
    return with_row(levels, all_levels(levels));
}

static unsigned highest(const struct levels *levels)
{
    unsigned row = all_levels(levels);
    for (unsigned k = 0; k < levels->count; k++)
        row &= levels->rows[k];
    return with_row(levels, row);
}

/* Level i in a partial order: at or below itself, below no level that is below it, below all that is above a level
 * above it; and no bit at or past the count. */
static bool ordered(const struct levels *levels, unsigned i)
{
    unsigned row = levels->rows[i];
    if ((row >> i & 1) == 0 || (row & ~all_levels(levels)) != 0)
        return false;
    for (unsigned above = row & ~(1u << i); above != 0; above &= above - 1) {
        unsigned other = levels->rows[__builtin_ctz(above)];
        if ((other >> i & 1) != 0 || (other & ~row) != 0)
            return false;
    }
    return true;
}

static bool joins_with_earlier(const struct levels *levels, unsigned i)
{
    for (unsigned j = 0; j < i; j++)
        if (with_row(levels, levels->rows[i] & levels->rows[j]) == levels->count)
            return false;
    return true;
}

/* Joins and a lowest level give every two levels a meet: the join of all that lie below both. */
static bool levels_right(const struct levels *levels)
{
    for (unsigned i = 0; i < levels->count; i++)
        if (!ordered(levels, i) || !joins_with_earlier(levels, i))
            return false;
    return lowest(levels) < levels->count;
}

/* The names: number 4. */

static inline bool letter(uint8_t byte)
{
    return 'a' <= byte && byte <= 'z';
}

static inline bool letter_digit_or_underscore(uint8_t byte)
{
    return letter(byte) || ('0' <= byte && byte <= '9') || byte == '_';
}

static bool name_right(const uint8_t *name)
{
    if (!letter(name[0]))
        return false;
    unsigned end = 1;
    while (end < BELTUQASH_NAME_BYTES && letter_digit_or_underscore(name[end]))
        end++;
    while (end < BELTUQASH_NAME_BYTES && name[end] == 0)
        end++;
    return end == BELTUQASH_NAME_BYTES;
}

/* Whether name i is none of those before it; names are compared as numbers. */
static inline bool name_new(const uint64_t *names, unsigned i)
{
    for (unsigned j = 0; j < i; j++)
        if (names[j] == names[i])
            return false;
    return true;
}

static bool names_right(const struct section *fields)
{
    uint64_t names[BELTUQASH_MOST_FIELDS];
    memcpy(names, fields->entries, (size_t)BELTUQASH_NAME_BYTES * fields->count);
    for (unsigned i = 0; i < fields->count; i++)
        if (!name_right(fields->entries + BELTUQASH_NAME_BYTES * i) || !name_new(names, i))
            return false;
    return true;
}

/* The nodes: numbers 19 to 22, with the node as the place. */

static inline unsigned at_node(unsigned number, unsigned n)
{
    return number | n << 8;
}

static inline const uint8_t *node_at(const uint8_t *nodes, unsigned n)
{
    return nodes + (size_t)BELTUQASH_NODE_BYTES * n;
}

static inline unsigned a_of(const uint8_t *node)
{
    return beltuqash_read_two(node + 2);
}

static inline unsigned b_of(const uint8_t *node)
{
    return beltuqash_read_two(node + 4);
}

static inline unsigned c_of(const uint8_t *node)
{
    return beltuqash_read_two(node + 6);
}

/* Whether a child's number is lower than n and its sort is the one wanted. */
static inline bool expression(const uint8_t *nodes, unsigned child, unsigned n)
{
    return child < n && node_at(nodes, child)[0] <= SEAL;
}

static inline bool command(const uint8_t *nodes, unsigned child, unsigned n)
{
    return child < n && node_at(nodes, child)[0] > SEAL;
}

static inline bool node_right(const struct sheet *sheet, unsigned n)
{
    const uint8_t *nodes = sheet->nodes.entries;
    const uint8_t *node = node_at(nodes, n);
    unsigned kind = node[0], a = a_of(node), b = b_of(node), c = c_of(node);
    if (node[1] >= (kind == OPERATOR ? OPERATORS : 1))
        return false;
    switch (kind) {
    case CONSTANT:
        return a < sheet->constants.count && (b | c) == 0;
    case FIELD:
        return a < sheet->fields.count && (b | c) == 0;
    case OPERATOR:
        return expression(nodes, a, n) && expression(nodes, b, n) && c == 0;
    case NOT:
    case SEAL:
        return expression(nodes, a, n) && (b | c) == 0;
    case SKIP:
        return (a | b | c) == 0;
    case ASSIGNMENT:
        return a < sheet->fields.count && expression(nodes, b, n) && c == 0;
    case SEQUENCE:
        return command(nodes, a, n) && command(nodes, b, n) && c == 0;
    case IF:
        return expression(nodes, a, n) && command(nodes, b, n) && command(nodes, c, n);
    case WHILE:
        return expression(nodes, a, n) && command(nodes, b, n) && c == 0;
    default:
        return false;
    }
}

/* What the places of a node hold. */
enum held { NOTHING, A_CONSTANT, A_FIELD, A_CHILD };

static const uint8_t held_in[KINDS][PLACES] = {
    [CONSTANT] = {A_CONSTANT},
    [FIELD] = {A_FIELD},
    [OPERATOR] = {A_CHILD, A_CHILD},
    [NOT] = {A_CHILD},
    [SEAL] = {A_CHILD},
    [ASSIGNMENT] = {A_FIELD, A_CHILD},
    [SEQUENCE] = {A_CHILD, A_CHILD},
    [IF] = {A_CHILD, A_CHILD, A_CHILD},
    [WHILE] = {A_CHILD, A_CHILD},
};

/* What stands in such a place of node n is lower than this. */
static unsigned limit(const struct sheet *sheet, enum held held, unsigned n)
{
    switch (held) {
    case NOTHING:
        return 1;
    case A_CONSTANT:
        return sheet->constants.count;
    case A_FIELD:
        return sheet->fields.count;
    default:
        return n;
    }
}

/* Whether the places of node n that its kind uses, or those that it does not, are within their limits. */
static bool places_within(const struct sheet *sheet, unsigned n, bool used)
{
    const uint8_t *node = node_at(sheet->nodes.entries, n);
    for (unsigned k = 0; k < PLACES; k++) {
        enum held held = held_in[node[0]][k];
        if ((held != NOTHING) == used && beltuqash_read_two(node + 2 + 2 * k) >= limit(sheet, held, n))
            return false;
    }
    return true;
}

/* What is wrong with a node that is not right: if nothing else, a child's sort. */
static unsigned fault_of(const struct sheet *sheet, unsigned n)
{
    const uint8_t *node = node_at(sheet->nodes.entries, n);
    unsigned kind = node[0], operator = node[1];
    if (kind >= KINDS || (kind == OPERATOR && operator >= OPERATORS))
        return BELTUQASH_NODE_UNKNOWN;
    if ((kind != OPERATOR && operator != 0) || !places_within(sheet, n, false))
        return BELTUQASH_NODE_UNUSED;
    return places_within(sheet, n, true) ? BELTUQASH_NODE_SORT : BELTUQASH_NODE_RANGE;
}

static unsigned judge_nodes(const struct sheet *sheet)
{
    for (unsigned n = 0; n < sheet->nodes.count; n++)
        if (!node_right(sheet, n))
            return at_node(fault_of(sheet, n), n);
    return BELTUQASH_DONE;
}

/* The tree: numbers 6 and 7. */

/* The depth of each node, 0 while it is nobody's child. */
struct depths {
    uint8_t of[BELTUQASH_MOST_NODES];
    bool used_once;
};

static inline void put_below(struct depths *depths, unsigned child, unsigned depth)
{
    depths->used_once &= depths->of[child] == 0;
    depths->of[child] = (uint8_t)depth;
}

static inline void put_children_below(struct depths *depths, const uint8_t *node, unsigned depth)
{
    switch (node[0]) {
    case IF:
        put_below(depths, c_of(node), depth);
        /* fall through */
    case OPERATOR:
    case SEQUENCE:
    case WHILE:
        put_below(depths, a_of(node), depth);
        /* fall through */
    case ASSIGNMENT:
        put_below(depths, b_of(node), depth);
        break;
    case NOT:
    case SEAL:
        put_below(depths, a_of(node), depth);
        break;
    }
}

/* Parents come after their children, so one walk from the last node down meets each node with its depth known. */
static unsigned judge_tree(const struct section *nodes)
{
    struct depths depths = {{0}, true};
    unsigned last = nodes->count - 1, deepest = 1;
    if (node_at(nodes->entries, last)[0] <= SEAL)
        return BELTUQASH_NOT_USED_ONCE;
    depths.of[last] = 1;
    for (unsigned n = nodes->count; n-- > 0;) {
        unsigned depth = depths.of[n];
        if (depth == 0)
            return BELTUQASH_NOT_USED_ONCE;
        if (deepest < depth)
            deepest = depth;
        put_children_below(&depths, node_at(nodes->entries, n), depth < BELTUQASH_MOST_DEPTH ? depth + 1 : BELTUQASH_MOST_DEPTH + 1);
    }
    if (!depths.used_once)
        return BELTUQASH_NOT_USED_ONCE;
    return deepest <= BELTUQASH_MOST_DEPTH ? BELTUQASH_DONE : BELTUQASH_TOO_DEEP;
}

/* Load: a number, and its place as in the answer word. */

static unsigned judge(const uint8_t *bytes, size_t length, struct sheet *sheet, struct levels *levels)
{
    unsigned number = read_sheet(bytes, length, sheet);
    if (number != BELTUQASH_DONE)
        return number;
    read_levels(&sheet->levels, levels);
    if (!levels_right(levels))
        return BELTUQASH_LEVELS_WRONG;
    if (!names_right(&sheet->fields))
        return BELTUQASH_NAME_WRONG;
    unsigned faulty = judge_nodes(sheet);
    return faulty != BELTUQASH_DONE ? faulty : judge_tree(&sheet->nodes);
}

uint64_t c_load(const uint8_t *sheet, size_t sheet_len)
{
    struct sheet read;
    struct levels levels;
    return judge(sheet, sheet_len, &read, &levels);
}

/* Expressions. A result is a value in bits 0 to 31 and its mark in bits 32 to 36,
 * or STOPPED with the answer word's number and place. */

typedef uint64_t result;

#define STOPPED ((result)1 << 63)

struct run {
    const uint8_t *nodes, *constants;
    struct levels levels;
    unsigned lowest, highest, mode;
    uint32_t left;
    result fields[BELTUQASH_MOST_FIELDS];
};

static inline result marked(unsigned mark, int32_t value)
{
    return (result)mark << 32 | (uint32_t)value;
}

static inline int32_t value_of(result r)
{
    return (int32_t)(uint32_t)r;
}

static inline unsigned mark_of(result r)
{
    return (unsigned)(r >> 32);
}

static inline unsigned join_marks(const struct levels *levels, unsigned m, unsigned k)
{
    if (m == k)
        return m;
    return join(levels, beltuqash_level(m), beltuqash_level(k)) | ((m | k) & BELTUQASH_PARTIAL);
}

struct division {
    int64_t quotient, remainder;
};

/* Rounds down. C drops the fraction toward zero; where something remains that has not the divisor's sign, the quotient
 * is one less. In 64 bits the least by -1 does not overflow. */
static inline struct division divide(int64_t x, int64_t y)
{
    struct division d = {x / y, x % y};
    if (d.remainder != 0 && (d.remainder < 0) != (y < 0)) {
        d.quotient--;
        d.remainder += y;
    }
    return d;
}

/* What an operator gives, or the number that it stops with. */
static inline unsigned apply(unsigned operator, int32_t x, int32_t y, int32_t *value)
{
    int64_t quotient;
    switch (operator) {
    case ADD:
        return __builtin_add_overflow(x, y, value) ? BELTUQASH_OUT_OF_RANGE : BELTUQASH_DONE;
    case SUBTRACT:
        return __builtin_sub_overflow(x, y, value) ? BELTUQASH_OUT_OF_RANGE : BELTUQASH_DONE;
    case MULTIPLY:
        return __builtin_mul_overflow(x, y, value) ? BELTUQASH_OUT_OF_RANGE : BELTUQASH_DONE;
    case DIVIDE:
        if (y == 0)
            return BELTUQASH_DIVISOR_ZERO;
        quotient = divide(x, y).quotient;
        *value = (int32_t)quotient;
        return *value == quotient ? BELTUQASH_DONE : BELTUQASH_OUT_OF_RANGE;
    case REMAINDER:
        if (y == 0)
            return BELTUQASH_DIVISOR_ZERO;
        *value = (int32_t)divide(x, y).remainder;
        return BELTUQASH_DONE;
    case EQUAL:
        *value = x == y;
        return BELTUQASH_DONE;
    case LESS:
        *value = x < y;
        return BELTUQASH_DONE;
    case AT_MOST:
        *value = x <= y;
        return BELTUQASH_DONE;
    case AND:
        *value = x != 0 && y != 0;
        return BELTUQASH_DONE;
    default:
        *value = x != 0 || y != 0;
        return BELTUQASH_DONE;
    }
}

static inline result constant_at(const struct run *run, unsigned index)
{
    return marked(run->lowest, beltuqash_read_four(run->constants + BELTUQASH_CONSTANT_BYTES * index));
}

static result work_out(const struct run *run, unsigned n);

/* Most operands are fields and constants; they need no call. */
static inline result operand(const struct run *run, unsigned n)
{
    const uint8_t *node = node_at(run->nodes, n);
    if (node[0] == FIELD)
        return run->fields[a_of(node)];
    if (node[0] == CONSTANT)
        return constant_at(run, a_of(node));
    return work_out(run, n);
}

static inline result work_out_operator(const struct run *run, const uint8_t *node, unsigned n)
{
    result left = operand(run, a_of(node));
    if (left & STOPPED)
        return left;
    result right = operand(run, b_of(node));
    if (right & STOPPED)
        return right;
    int32_t value;
    unsigned number = apply(node[1], value_of(left), value_of(right), &value);
    if (number != BELTUQASH_DONE)
        return STOPPED | at_node(number, n);
    return marked(join_marks(&run->levels, mark_of(left), mark_of(right)), value);
}

static result work_out(const struct run *run, unsigned n)
{
    const uint8_t *node = node_at(run->nodes, n);
    result inner;
    switch (node[0]) {
    case CONSTANT:
        return constant_at(run, a_of(node));
    case FIELD:
        return run->fields[a_of(node)];
    case OPERATOR:
        return work_out_operator(run, node, n);
    case NOT:
        inner = work_out(run, a_of(node));
        return inner & STOPPED ? inner : marked(mark_of(inner), value_of(inner) == 0);
    default:
        inner = work_out(run, a_of(node));
        return inner & STOPPED ? inner : marked(run->highest, value_of(inner));
    }
}

/* Commands. Each answers 0, or number and place of its stop. */

static inline unsigned assign(struct run *run, const uint8_t *node, unsigned n, unsigned context)
{
    result worked = work_out(run, b_of(node));
    if (worked & STOPPED)
        return (unsigned)worked;
    result *field = &run->fields[a_of(node)];
    unsigned level = beltuqash_level(mark_of(*field));
    if (at_or_below(&run->levels, context, level))
        *field = marked(join_marks(&run->levels, mark_of(worked), context), value_of(worked));
    else if (run->mode == BELTUQASH_STRICT)
        return at_node(BELTUQASH_NOT_BELOW, n);
    else
        *field = marked(meet(&run->levels, context, level) | BELTUQASH_PARTIAL, value_of(worked));
    return BELTUQASH_DONE;
}

static inline unsigned skip_or_assign(struct run *run, const uint8_t *node, unsigned n, unsigned context)
{
    if (run->left == 0)
        return at_node(BELTUQASH_FUEL_SPENT, n);
    run->left--;
    return node[0] == SKIP ? BELTUQASH_DONE : assign(run, node, n, context);
}

/* Spends the test's unit and works it out; its value comes back with the context joined with its level. */
static inline result test(struct run *run, const uint8_t *node, unsigned n, unsigned context)
{
    if (run->left == 0)
        return STOPPED | at_node(BELTUQASH_FUEL_SPENT, n);
    run->left--;
    result worked = work_out(run, a_of(node));
    if (worked & STOPPED)
        return worked;
    if (mark_of(worked) & BELTUQASH_PARTIAL)
        return STOPPED | at_node(BELTUQASH_PARTIAL_TEST, n);
    return marked(join_marks(&run->levels, mark_of(worked), context), value_of(worked));
}

static unsigned go(struct run *run, unsigned n, unsigned context);

static inline unsigned go_while(struct run *run, const uint8_t *node, unsigned n, unsigned context)
{
    for (;;) {
        result tested = test(run, node, n, context);
        if (tested & STOPPED)
            return (unsigned)tested;
        if (value_of(tested) == 0)
            return BELTUQASH_DONE;
        context = mark_of(tested);
        unsigned stopped = go(run, b_of(node), context);
        if (stopped)
            return stopped;
    }
}

/* The second command of a sequence and the chosen one of an if go on in the same frame. */
static unsigned go(struct run *run, unsigned n, unsigned context)
{
    for (;;) {
        const uint8_t *node = node_at(run->nodes, n);
        if (node[0] == SEQUENCE) {
            unsigned stopped = go(run, a_of(node), context);
            if (stopped)
                return stopped;
            n = b_of(node);
        } else if (node[0] == IF) {
            result tested = test(run, node, n, context);
            if (tested & STOPPED)
                return (unsigned)tested;
            context = mark_of(tested);
            n = value_of(tested) != 0 ? b_of(node) : c_of(node);
        } else if (node[0] == WHILE) {
            return go_while(run, node, n, context);
        } else {
            return skip_or_assign(run, node, n, context);
        }
    }
}

/* The store: numbers 8 and 9. */

static inline bool store_fits(const uint8_t *store, size_t length, unsigned fields)
{
    return length == beltuqash_store_length(fields) && beltuqash_count(store) == fields;
}

static inline bool mark_known(const struct levels *levels, unsigned mark, unsigned marks)
{
    return mark < marks && beltuqash_level(mark) < levels->count;
}

/* Run. */

/* Reads the store's entries; number 9. */
static bool read_entries(struct run *run, const uint8_t *store, unsigned fields)
{
    unsigned marks = run->mode == BELTUQASH_STRICT ? BELTUQASH_PARTIAL : MARKS;
    for (unsigned i = 0; i < fields; i++) {
        unsigned mark = beltuqash_mark(store, i);
        if (!mark_known(&run->levels, mark, marks))
            return false;
        run->fields[i] = marked(mark, beltuqash_value(store, i));
    }
    return true;
}

static void write_store(const struct run *run, uint8_t *out, unsigned fields)
{
    beltuqash_write_count(out, fields);
    for (unsigned i = 0; i < fields; i++)
        beltuqash_write_field(out, i, mark_of(run->fields[i]), value_of(run->fields[i]));
}

uint64_t c_run(const uint8_t *sheet, size_t sheet_len, const uint8_t *store, size_t store_len,
               uint32_t mode, uint32_t fuel, uint8_t *out, size_t out_len)
{
    struct sheet read;
    struct run run;
    if (mode > BELTUQASH_PERMISSIVE || fuel > BELTUQASH_MOST_FUEL)
        return BELTUQASH_MODE_OR_FUEL;
    unsigned refused = judge(sheet, sheet_len, &read, &run.levels);
    if (refused)
        return refused;
    unsigned fields = read.fields.count;
    if (!store_fits(store, store_len, fields))
        return BELTUQASH_STORE_MISFIT;
    run.mode = mode;
    if (!read_entries(&run, store, fields))
        return BELTUQASH_MARK_WRONG;
    if (out_len < store_len)
        return BELTUQASH_OUT_SHORT;
    run.nodes = read.nodes.entries;
    run.constants = read.constants.entries;
    run.lowest = lowest(&run.levels);
    run.highest = highest(&run.levels);
    run.left = fuel;
    unsigned stopped = go(&run, read.nodes.count - 1, run.lowest);
    if (!stopped)
        write_store(&run, out, fields);
    return stopped | (uint64_t)(fuel - run.left) << 32;
}

/* Hand-out. */

static bool marks_known(const struct levels *levels, const uint8_t *store, unsigned fields)
{
    for (unsigned i = 0; i < fields; i++)
        if (!mark_known(levels, beltuqash_mark(store, i), MARKS))
            return false;
    return true;
}

/* The request's size, count and field numbers; number 17. */
static bool request_right(const uint8_t *request, size_t length, unsigned fields)
{
    if (length < BELTUQASH_COUNT_BYTES)
        return false;
    unsigned asked = beltuqash_count(request);
    if (asked > BELTUQASH_MOST_ASKED || length != beltuqash_request_length(asked))
        return false;
    for (unsigned i = 0; i < asked; i++)
        if (beltuqash_asked(request, i) >= fields)
            return false;
    return true;
}

/* The first position that asks for a partial field at or below the reader, or the count if there is none; number 18. */
static unsigned first_partial(const struct levels *levels, unsigned reader, const uint8_t *store, const uint8_t *request)
{
    unsigned asked = beltuqash_count(request), i;
    for (i = 0; i < asked; i++) {
        unsigned mark = beltuqash_mark(store, beltuqash_asked(request, i));
        if (beltuqash_is_partial(mark) && at_or_below(levels, beltuqash_level(mark), reader))
            break;
    }
    return i;
}

/* No partial field at or below the reader is asked, so a field at or below him is whole. */
static void write_answer(const struct levels *levels, unsigned reader, const uint8_t *store, const uint8_t *request, uint8_t *answer)
{
    unsigned asked = beltuqash_count(request);
    beltuqash_write_count(answer, asked);
    for (unsigned i = 0; i < asked; i++) {
        unsigned field = beltuqash_asked(request, i);
        bool shown = at_or_below(levels, beltuqash_level(beltuqash_mark(store, field)), reader);
        uint8_t *entry = answer + beltuqash_answer_length(i);
        entry[0] = shown;
        beltuqash_write_four(entry + 1, shown ? beltuqash_value(store, field) : 0);
    }
}

uint64_t c_hand_out(const uint8_t *sheet, size_t sheet_len, const uint8_t *store, size_t store_len, uint32_t reader,
                    const uint8_t *request, size_t request_len, uint8_t *answer, size_t answer_len)
{
    struct sheet read;
    struct levels levels;
    unsigned refused = judge(sheet, sheet_len, &read, &levels);
    if (refused)
        return refused;
    if (!store_fits(store, store_len, read.fields.count))
        return BELTUQASH_STORE_MISFIT;
    if (!marks_known(&levels, store, read.fields.count))
        return BELTUQASH_MARK_WRONG;
    if (reader >= levels.count || !request_right(request, request_len, read.fields.count))
        return BELTUQASH_READER_OR_REQUEST;
    unsigned asked = beltuqash_count(request);
    if (answer_len < beltuqash_answer_length(asked))
        return BELTUQASH_OUT_SHORT;
    unsigned partial = first_partial(&levels, reader, store, request);
    if (partial < asked)
        return BELTUQASH_PARTIAL_ASKED | partial << 8;
    write_answer(&levels, reader, store, request, answer);
    return BELTUQASH_DONE;
}
