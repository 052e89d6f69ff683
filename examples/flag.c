/* Runs the flag sheet, whose file it is given, at cost 600 and at cost 400, in both modes, and prints how each run ends. */
#include "common.h"

#include <stdlib.h>

enum { FLAG, Q, COST, FIELDS };
enum { OPEN = 0, CLOSED = 1, FUEL = 100 }; /* the sheet's two levels, and the units that a run may spend */

static void run(const struct sheet *sheet, int32_t cost, uint32_t mode)
{
    uint8_t store[BELTUQASH_LONGEST_STORE], out[BELTUQASH_LONGEST_STORE];
    beltuqash_write_count(store, FIELDS);
    beltuqash_write_field(store, FLAG, OPEN, 0);
    beltuqash_write_field(store, Q, OPEN, 0);
    beltuqash_write_field(store, COST, CLOSED, cost);
    uint64_t word = beltuqash_run(sheet->bytes, sheet->length, store, beltuqash_store_length(FIELDS), mode, FUEL, out, sizeof out);
    printf("cost %d, %s: ", cost, mode_name(mode));
    print_answer(word);
    for (unsigned i = 0; beltuqash_number(word) == BELTUQASH_DONE && i < FIELDS; i++) {
        print_field(sheet, out, i);
        printf("\n");
    }
}

int main(int argc, char **argv)
{
    static struct sheet sheet;
    if (argc != 2) {
        fprintf(stderr, "usage: flag FLAG-SHEET\n");
        return EXIT_FAILURE;
    }
    if (!load_sheet(argv[1], &sheet))
        return EXIT_FAILURE;
    for (uint32_t mode = BELTUQASH_STRICT; mode <= BELTUQASH_PERMISSIVE; mode++) {
        run(&sheet, 600, mode);
        run(&sheet, 400, mode);
    }
    return EXIT_SUCCESS;
}
