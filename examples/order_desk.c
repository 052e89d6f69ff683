/* An order desk. It loads the sheet whose file it is given (the flag sheet, plain or sealed), runs it in permissive mode at two costs, and asks for
 * fields as a dealer at level 0 would. What the dealer gets is on lines that begin with "dealer"; places and units go to the house only. */
#include "common.h"

#include <stdlib.h>

enum { FLAG, Q, COST, FIELDS };
enum { OPEN = 0, CLOSED = 1 }; /* the sheet's two levels; the dealer reads at OPEN */
enum { FUEL = 1000 };

static const char *const names[FIELDS] = {"flag", "q", "cost"};

/* For the house: which call was refused, and why. */
static void tell_house(const char *call, uint64_t word)
{
    printf("  house: %s gave ", call);
    print_answer(word);
}

/* The start store: flag and q open with value 0, cost closed. */
static void make_store(uint8_t *store, int32_t cost)
{
    beltuqash_write_count(store, FIELDS);
    beltuqash_write_field(store, FLAG, OPEN, 0);
    beltuqash_write_field(store, Q, OPEN, 0);
    beltuqash_write_field(store, COST, CLOSED, cost);
}

/* The dealer asks for two fields of a store. */
static void ask(const struct sheet *sheet, const uint8_t *store, unsigned first, unsigned second)
{
    const unsigned fields[] = {first, second};
    static const char *const ends[] = {",", "\n"};
    uint8_t request[BELTUQASH_LONGEST_REQUEST], answer[BELTUQASH_LONGEST_ANSWER];
    beltuqash_write_count(request, 2);
    for (unsigned i = 0; i < 2; i++)
        beltuqash_write_asked(request, i, fields[i]);
    uint64_t word = beltuqash_hand_out(sheet->bytes, sheet->length, store, beltuqash_store_length(FIELDS), OPEN, request,
                                       beltuqash_request_length(2), answer, beltuqash_answer_length(2));
    printf("  dealer asks for %s and %s:", names[first], names[second]);
    if (beltuqash_number(word) != BELTUQASH_DONE) {
        printf(" no answer\n");
        tell_house("hand-out", word);
        return;
    }
    for (unsigned i = 0; i < 2; i++) {
        if (beltuqash_shown(answer, i))
            printf(" %s is %d%s", names[fields[i]], beltuqash_shown_value(answer, i), ends[i]);
        else
            printf(" %s is closed to him%s", names[fields[i]], ends[i]);
    }
}

/* One order: run the sheet at this cost, then let the dealer ask. */
static void serve(const struct sheet *sheet, int32_t cost)
{
    uint8_t store[BELTUQASH_LONGEST_STORE], final_store[BELTUQASH_LONGEST_STORE];
    size_t store_len = beltuqash_store_length(FIELDS);
    make_store(store, cost);
    printf(" cost %d\n", cost);
    uint64_t word = beltuqash_run(sheet->bytes, sheet->length, store, store_len, BELTUQASH_PERMISSIVE, FUEL, final_store, store_len);
    if (beltuqash_number(word) != BELTUQASH_DONE) {
        printf("  dealer: no answer\n");
        tell_house("run", word);
        return;
    }
    ask(sheet, final_store, Q, FLAG);
    ask(sheet, final_store, Q, COST);
}

int main(int argc, char **argv)
{
    static struct sheet sheet;
    if (argc != 2) {
        fprintf(stderr, "usage: order_desk FLAG-SHEET\n");
        return EXIT_FAILURE;
    }
    if (!load_sheet(argv[1], &sheet))
        return EXIT_FAILURE;
    printf("order desk, %s\n", argv[1]);
    serve(&sheet, 600);
    serve(&sheet, 400);
    return EXIT_SUCCESS;
}
