/* Judges the sheets in the files that it is given: says whether load takes each, and of one that it refuses why, with the node if one is faulty. Exit 1 if a
 * sheet is refused or cannot be read. */
#include "common.h"

#include <stdlib.h>

/* Says whether the sheet is taken. */
static int judge(const char *path)
{
    static struct sheet sheet;
    if (!read_sheet(path, &sheet))
        return 0;
    uint64_t word = beltuqash_load(sheet.bytes, sheet.length);
    unsigned number = beltuqash_number(word);
    if (number == BELTUQASH_DONE)
        printf("%s: taken\n", path);
    else if (BELTUQASH_NODE_UNKNOWN <= number && number <= BELTUQASH_NODE_SORT)
        printf("%s: refused with number %u at node %u: %s\n", path, number, beltuqash_place(word), beltuqash_reason(number));
    else
        printf("%s: refused with number %u: %s\n", path, number, beltuqash_reason(number));
    return number == BELTUQASH_DONE;
}

int main(int argc, char **argv)
{
    if (argc < 2) {
        fprintf(stderr, "usage: judge SHEET ...\n");
        return EXIT_FAILURE;
    }
    int status = EXIT_SUCCESS;
    for (int i = 1; i < argc; i++)
        if (!judge(argv[i]))
            status = EXIT_FAILURE;
    return status;
}
