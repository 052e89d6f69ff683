/* Makes the archive's calls for a program that cannot link it. It takes calls from standard input and answers each on standard output.
 *
 * A call is a head of numbers and then the bytes lent: sheet, store, request, and the output with as many guard bytes on both sides as the head says.
 * Each input is lent as an allocation of exactly its size, so that a tool which watches memory sees any read outside. An answer is the word, whether all
 * inputs stayed as they were (1 or 0), and the output with its guards. Numbers are little-endian: 4 bytes each in the head, 8 for the word, 1 for the
 * rest. */
#include "beltuqash.h"

#include <stdio.h>
#include <stdlib.h>
#include <string.h>

enum { LOAD, RUN, HAND_OUT };

/* A call's numbers, in the head's order: a run has mode and fuel, a hand-out its reader. A call without an output has no guards. */
struct head {
    uint32_t call, mode_or_reader, fuel, sheet, store, request, output, guard;
};

static void fail(const char *what)
{
    fprintf(stderr, "shop: %s\n", what);
    exit(EXIT_FAILURE);
}

/* So many bytes, in an allocation of exactly this size. */
static uint8_t *allocate(size_t length)
{
    uint8_t *bytes = malloc(length);
    if (bytes == NULL)
        fail("no memory");
    return bytes;
}

static uint8_t *take(size_t length)
{
    uint8_t *bytes = allocate(length);
    if (fread(bytes, 1, length, stdin) != length)
        fail("a call is cut");
    return bytes;
}

/* Whether there is another call. */
static int take_head(struct head *head)
{
    size_t taken = fread(head, 1, sizeof *head, stdin);
    if (taken != 0 && taken != sizeof *head)
        fail("a head is cut");
    return taken != 0;
}

/* An input: what came, and the copy that is lent. */
struct input {
    size_t length;
    uint8_t *came, *lent;
};

static struct input take_input(size_t length)
{
    struct input input = {length, take(length), allocate(length)};
    memcpy(input.lent, input.came, length);
    return input;
}

/* Whether the input is as it came; it is gone afterwards. */
static int give_back(struct input input)
{
    int kept = memcmp(input.lent, input.came, input.length) == 0;
    free(input.came);
    free(input.lent);
    return kept;
}

static uint64_t make_call(const struct head *head, struct input sheet, struct input store, struct input request, uint8_t *output)
{
    switch (head->call) {
    case LOAD:
        return beltuqash_load(sheet.lent, sheet.length);
    case RUN:
        return beltuqash_run(sheet.lent, sheet.length, store.lent, store.length, head->mode_or_reader, head->fuel, output, head->output);
    case HAND_OUT:
        return beltuqash_hand_out(sheet.lent, sheet.length, store.lent, store.length, head->mode_or_reader, request.lent, request.length, output,
                                  head->output);
    default:
        fail("no such call");
        return 0;
    }
}

static void answer(uint64_t word, uint8_t kept, const uint8_t *memory, size_t length)
{
    fwrite(&word, sizeof word, 1, stdout);
    fwrite(&kept, 1, 1, stdout);
    fwrite(memory, 1, length, stdout);
    if (fflush(stdout) != 0)
        fail("an answer cannot be written");
}

int main(void)
{
    struct head head;
    /* Room for a whole call and a whole answer, so that each takes one read or write. */
    setvbuf(stdin, NULL, _IOFBF, 1 << 16);
    setvbuf(stdout, NULL, _IOFBF, 1 << 16);
    while (take_head(&head)) {
        struct input sheet = take_input(head.sheet), store = take_input(head.store), request = take_input(head.request);
        size_t length = (size_t)head.guard + head.output + head.guard;
        uint8_t *memory = take(length);
        uint64_t word = make_call(&head, sheet, store, request, memory + head.guard);
        int kept = give_back(sheet) & give_back(store) & give_back(request);
        answer(word, (uint8_t)kept, memory, length);
        free(memory);
    }
    return EXIT_SUCCESS;
}
