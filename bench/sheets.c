/* Sheets and stores, built from their parts. */
#include "sheets.h"

#include <string.h>

void begin(struct draft *draft, unsigned levels, const uint16_t *rows)
{
    memset(draft, 0, sizeof *draft);
    draft->levels = levels;
    memcpy(draft->rows, rows, levels * sizeof *rows);
}

void begin_cube(struct draft *draft)
{
    uint16_t rows[BELTUQASH_MOST_LEVELS] = {0};
    for (unsigned i = 0; i < BELTUQASH_MOST_LEVELS; i++)
        for (unsigned j = 0; j < BELTUQASH_MOST_LEVELS; j++)
            if ((i & j) == i)
                rows[i] |= (uint16_t)(1u << j);
    begin(draft, BELTUQASH_MOST_LEVELS, rows);
}

unsigned new_field(struct draft *draft, unsigned mark, int32_t value)
{
    draft->marks[draft->fields] = (uint8_t)mark;
    draft->values[draft->fields] = value;
    return draft->fields++;
}

/* Nodes. */

static unsigned node(struct draft *draft, enum kind kind, unsigned a, unsigned b, unsigned c)
{
    uint8_t *node = draft->nodes[draft->node_count];
    node[0] = (uint8_t)kind;
    node[1] = 0;
    beltuqash_write_two(node + 2, a);
    beltuqash_write_two(node + 4, b);
    beltuqash_write_two(node + 6, c);
    return draft->node_count++;
}

unsigned constant(struct draft *draft, int32_t value)
{
    unsigned i = 0;
    while (i < draft->constant_count && draft->constants[i] != value)
        i++;
    if (i == draft->constant_count)
        draft->constants[draft->constant_count++] = value;
    return node(draft, CONSTANT, i, 0, 0);
}

unsigned field(struct draft *draft, unsigned field)
{
    return node(draft, FIELD, field, 0, 0);
}

unsigned operation(struct draft *draft, enum operator operator, unsigned left, unsigned right)
{
    unsigned n = node(draft, OPERATOR, left, right, 0);
    draft->nodes[n][1] = (uint8_t)operator;
    return n;
}

unsigned not(struct draft *draft, unsigned expression)
{
    return node(draft, NOT, expression, 0, 0);
}

unsigned seal(struct draft *draft, unsigned expression)
{
    return node(draft, SEAL, expression, 0, 0);
}

unsigned skip(struct draft *draft)
{
    return node(draft, SKIP, 0, 0, 0);
}

unsigned assignment(struct draft *draft, unsigned field, unsigned expression)
{
    return node(draft, ASSIGNMENT, field, expression, 0);
}

unsigned sequence(struct draft *draft, unsigned first, unsigned second)
{
    return node(draft, SEQUENCE, first, second, 0);
}

unsigned if_else(struct draft *draft, unsigned test, unsigned first, unsigned second)
{
    return node(draft, IF, test, first, second);
}

unsigned while_do(struct draft *draft, unsigned test, unsigned body)
{
    return node(draft, WHILE, test, body, 0);
}

unsigned all_of(struct draft *draft, const unsigned *commands, unsigned count)
{
    if (count == 1)
        return commands[0];
    unsigned first = all_of(draft, commands, count / 2);
    unsigned second = all_of(draft, commands + count / 2, count - count / 2);
    return sequence(draft, first, second);
}

/* Bytes. */

static void name_of(unsigned field, uint8_t *name)
{
    memset(name, 0, BELTUQASH_NAME_BYTES);
    name[0] = 'f';
    name[1] = (uint8_t)('0' + field / 10);
    name[2] = (uint8_t)('0' + field % 10);
}

static uint8_t *grow(struct bytes *bytes, size_t size)
{
    uint8_t *at = bytes->at + bytes->length;
    bytes->length += size;
    return at;
}

void sheet_of(const struct draft *draft, struct bytes *sheet)
{
    sheet->length = 0;
    beltuqash_write_two(grow(sheet, BELTUQASH_COUNT_BYTES), draft->levels);
    for (unsigned i = 0; i < draft->levels; i++)
        beltuqash_write_two(grow(sheet, BELTUQASH_LEVEL_BYTES), draft->rows[i]);
    beltuqash_write_two(grow(sheet, BELTUQASH_COUNT_BYTES), draft->fields);
    for (unsigned i = 0; i < draft->fields; i++)
        name_of(i, grow(sheet, BELTUQASH_NAME_BYTES));
    beltuqash_write_two(grow(sheet, BELTUQASH_COUNT_BYTES), draft->constant_count);
    for (unsigned i = 0; i < draft->constant_count; i++)
        beltuqash_write_four(grow(sheet, BELTUQASH_CONSTANT_BYTES), draft->constants[i]);
    beltuqash_write_two(grow(sheet, BELTUQASH_COUNT_BYTES), draft->node_count);
    memcpy(grow(sheet, BELTUQASH_NODE_BYTES * draft->node_count), draft->nodes, BELTUQASH_NODE_BYTES * draft->node_count);
}

void store_of(const struct draft *draft, struct bytes *store)
{
    store->length = beltuqash_store_length(draft->fields);
    beltuqash_write_count(store->at, draft->fields);
    for (unsigned i = 0; i < draft->fields; i++)
        beltuqash_write_field(store->at, i, draft->marks[i], draft->values[i]);
}

void request_of(const struct draft *draft, unsigned asked, struct bytes *request)
{
    request->length = beltuqash_request_length(asked);
    beltuqash_write_count(request->at, asked);
    for (unsigned i = 0; i < asked; i++)
        beltuqash_write_asked(request->at, i, i % draft->fields);
}

/* The flag sheet. */

struct flag_nodes draft_flag(struct draft *d, int32_t cost, bool sealed)
{
    struct flag_nodes nodes;
    begin(d, 2, (const uint16_t[]){3, 2});
    new_field(d, 0, 0);
    new_field(d, 0, 0);
    new_field(d, 1, cost);
    unsigned first = sequence(d, assignment(d, FLAG, constant(d, 0)), assignment(d, Q, constant(d, 0)));
    nodes.set_flag = assignment(d, FLAG, constant(d, 1));
    unsigned cheap = operation(d, LESS, field(d, COST), constant(d, 500));
    unsigned second = if_else(d, cheap, nodes.set_flag, skip(d));
    unsigned read = sealed ? seal(d, field(d, FLAG)) : field(d, FLAG);
    nodes.set_q = assignment(d, Q, constant(d, 1));
    nodes.last_test = if_else(d, operation(d, EQUAL, read, constant(d, 0)), nodes.set_q, skip(d));
    sequence(d, first, sequence(d, second, nodes.last_test));
    return nodes;
}

/* The largest sheet. */

/* One of four commands of four nodes each, which have all kinds but the sequence among them. */
static unsigned four_nodes(struct draft *d, unsigned i)
{
    unsigned f = i % BELTUQASH_MOST_FIELDS;
    int32_t value = (int32_t)i;
    switch (i % 4) {
    case 0:
        return assignment(d, f, operation(d, (enum operator)(i / 4 % OPERATORS), field(d, f), constant(d, value)));
    case 1:
        return assignment(d, f, not(d, seal(d, field(d, f))));
    case 2:
        return if_else(d, field(d, f), skip(d), skip(d));
    default:
        return while_do(d, field(d, f), assignment(d, f, constant(d, value)));
    }
}

/* 205 commands of four nodes and the 204 sequences that join them. */
void draft_largest(struct draft *draft)
{
    unsigned commands[(BELTUQASH_MOST_NODES + 1) / 5];
    unsigned count = sizeof commands / sizeof *commands;
    begin_cube(draft);
    for (unsigned i = 0; i < BELTUQASH_MOST_FIELDS; i++)
        new_field(draft, i % BELTUQASH_MOST_LEVELS, (int32_t)i);
    for (unsigned i = 0; i < BELTUQASH_MOST_CONSTANTS; i++)
        draft->constants[draft->constant_count++] = (int32_t)i;
    for (unsigned i = 0; i < count; i++)
        commands[i] = four_nodes(draft, i);
    all_of(draft, commands, count);
}
