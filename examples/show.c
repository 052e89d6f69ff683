/* Prints the sheet in a file as people read it: its levels, its fields, its constants, the program with the node of each command, and what stands at each
 * node, so that a place can be looked up. Of a sheet that load refuses it tells why, and shows what can be read of it. */
#include "common.h"

#include <stdlib.h>

enum { CONSTANT, FIELD, OPERATOR, NOT, SEAL, SKIP, ASSIGNMENT, SEQUENCE, IF, WHILE, KINDS };

static const char *const operators[] = {"+", "-", "*", "/", "%", "=", "<", "<=", "and", "or"};
static const char *const kinds[KINDS] = {"constant", "field", "operator", "not", "seal", "skip", "assignment", "sequence", "if", "while"};

/* A section of the sheet: its entries, and how many there are. */
struct section {
    const uint8_t *at;
    unsigned count, size;
};

static struct sheet sheet;
static struct section levels, fields, constants, nodes;

/* Takes the section at an offset and moves the offset past it; says whether it stands there whole. */
static int take_section(size_t *at, unsigned size, struct section *section)
{
    if (sheet.length < *at + BELTUQASH_COUNT_BYTES)
        return 0;
    section->count = beltuqash_count(sheet.bytes + *at);
    section->size = size;
    section->at = sheet.bytes + *at + BELTUQASH_COUNT_BYTES;
    *at += BELTUQASH_COUNT_BYTES + (size_t)section->count * size;
    return *at <= sheet.length;
}

static int take_sections(void)
{
    size_t at = 0;
    return take_section(&at, BELTUQASH_LEVEL_BYTES, &levels) && take_section(&at, BELTUQASH_NAME_BYTES, &fields) &&
           take_section(&at, BELTUQASH_CONSTANT_BYTES, &constants) && take_section(&at, BELTUQASH_NODE_BYTES, &nodes);
}

static const uint8_t *entry(const struct section *section, unsigned i) { return section->at + (size_t)i * section->size; }

static unsigned kind(unsigned node) { return entry(&nodes, node)[0]; }
static unsigned slot(unsigned node, unsigned k) { return beltuqash_read_two(entry(&nodes, node) + 2 + 2 * k); }

static void print_levels(void)
{
    printf("levels: %u\n", levels.count);
    for (unsigned i = 0; i < levels.count; i++) {
        printf("  %u lies at or below", i);
        for (unsigned j = 0; j < BELTUQASH_MOST_LEVELS; j++)
            if (beltuqash_read_two(entry(&levels, i)) >> j & 1)
                printf(" %u", j);
        printf("\n");
    }
}

/* Up to its first zero byte; a byte that no name may have shows as a question mark. */
static void print_name(unsigned field)
{
    const uint8_t *name = entry(&fields, field);
    for (unsigned i = 0; i < BELTUQASH_NAME_BYTES && name[i] != 0; i++)
        putchar(name[i] > ' ' && name[i] <= '~' ? name[i] : '?');
}

static void print_fields(void)
{
    printf("fields: %u\n", fields.count);
    for (unsigned i = 0; i < fields.count; i++) {
        printf("  %u ", i);
        print_name(i);
        printf("\n");
    }
}

static void print_constants(void)
{
    printf("constants: %u\n", constants.count);
    for (unsigned i = 0; i < constants.count; i++)
        printf("  %u is %d\n", i, beltuqash_read_four(entry(&constants, i)));
}

/* ---- a sheet that load takes, by its tree ---- */

static void print_expression(unsigned node);

/* In brackets where it has an operator of its own. */
static void print_operand(unsigned node)
{
    int bracketed = kind(node) == OPERATOR;
    printf(bracketed ? "(" : "");
    print_expression(node);
    printf(bracketed ? ")" : "");
}

static void print_expression(unsigned node)
{
    switch (kind(node)) {
    case CONSTANT: printf("%d", beltuqash_read_four(entry(&constants, slot(node, 0)))); break;
    case FIELD: print_name(slot(node, 0)); break;
    case NOT:
        printf("not ");
        print_operand(slot(node, 0));
        break;
    case SEAL:
        printf("seal(");
        print_expression(slot(node, 0));
        printf(")");
        break;
    default:
        print_operand(slot(node, 0));
        printf(" %s ", operators[entry(&nodes, node)[1]]);
        print_operand(slot(node, 1));
    }
}

/* A line of the program, with the node that it stands for; none for a line that only closes or parts. */
static void begin_line(unsigned depth, unsigned node) { printf("%6u  %*s", node, (int)(2 * depth), ""); }
static void print_part(unsigned depth, const char *text) { printf("        %*s%s\n", (int)(2 * depth), "", text); }

static void print_assignment(unsigned node)
{
    print_name(slot(node, 0));
    printf(" := ");
    print_expression(slot(node, 1));
}

static void print_command(unsigned node, unsigned depth)
{
    if (kind(node) == SEQUENCE) {
        print_command(slot(node, 0), depth);
        print_command(slot(node, 1), depth);
        return;
    }
    begin_line(depth, node);
    switch (kind(node)) {
    case SKIP: printf("skip\n"); break;
    case ASSIGNMENT:
        print_assignment(node);
        printf("\n");
        break;
    case IF:
        printf("if ");
        print_expression(slot(node, 0));
        printf(" then\n");
        print_command(slot(node, 1), depth + 1);
        print_part(depth, "else");
        print_command(slot(node, 2), depth + 1);
        print_part(depth, "end");
        break;
    default:
        printf("while ");
        print_expression(slot(node, 0));
        printf(" do\n");
        print_command(slot(node, 1), depth + 1);
        print_part(depth, "end");
    }
}

/* What stands at a node: an expression whole, a command by the nodes that it holds. */
static void print_node(unsigned node)
{
    switch (kind(node)) {
    case SKIP: printf("skip"); break;
    case ASSIGNMENT: print_assignment(node); break;
    case SEQUENCE: printf("node %u, then node %u", slot(node, 0), slot(node, 1)); break;
    case IF:
        printf("if ");
        print_expression(slot(node, 0));
        printf(" then node %u else node %u", slot(node, 1), slot(node, 2));
        break;
    case WHILE:
        printf("while ");
        print_expression(slot(node, 0));
        printf(" do node %u", slot(node, 1));
        break;
    default: print_expression(node);
    }
}

/* ---- any other sheet, node by node ---- */

static void print_raw(unsigned node)
{
    const char *name = kind(node) < KINDS ? kinds[kind(node)] : "unknown";
    printf("kind %u (%s), operator %u, a %u, b %u, c %u", kind(node), name, entry(&nodes, node)[1], slot(node, 0), slot(node, 1), slot(node, 2));
}

static void print_nodes(void (*print)(unsigned))
{
    printf("nodes: %u\n", nodes.count);
    for (unsigned i = 0; i < nodes.count; i++) {
        begin_line(0, i);
        print(i);
        printf("\n");
    }
}

int main(int argc, char **argv)
{
    if (argc != 2) {
        fprintf(stderr, "usage: show SHEET\n");
        return EXIT_FAILURE;
    }
    if (!read_sheet(argv[1], &sheet))
        return EXIT_FAILURE;
    uint64_t word = beltuqash_load(sheet.bytes, sheet.length);
    int taken = beltuqash_number(word) == BELTUQASH_DONE;
    if (!taken) {
        printf("refused: ");
        print_answer(word);
    }
    if (!take_sections()) {
        printf("its sections cannot be read\n");
        return EXIT_FAILURE;
    }
    print_levels();
    print_fields();
    print_constants();
    if (taken) {
        printf("program, with the node of each command\n");
        print_command(nodes.count - 1, 0);
    }
    print_nodes(taken ? print_node : print_raw);
    return taken ? EXIT_SUCCESS : EXIT_FAILURE;
}
