/* Runs a sheet in strict and in permissive mode from one start store, and prints how each run ends, the final store, and what a reader gets who asks for
 * each of its fields by itself. FIELD=VALUE@LEVEL sets a field of the start store, with a * after the level if it is partial; the others are 0, whole at
 * level 0. docs/TEACHING.md shows its runs. */
#include "common.h"

#include <stdlib.h>

enum { FUEL = 1000 };

static struct sheet sheet;
static unsigned fields; /* of the sheet */
static uint8_t store[BELTUQASH_LONGEST_STORE], final_store[BELTUQASH_LONGEST_STORE];
static size_t store_len;

/* Makes a store for the sheet's fields, 0 and whole at level 0. */
static void make_store(void)
{
    fields = beltuqash_fields(sheet.bytes);
    store_len = beltuqash_store_length(fields);
    beltuqash_write_count(store, fields);
    for (unsigned i = 0; i < fields; i++)
        beltuqash_write_field(store, i, 0, 0);
}

/* Takes a number from low to high off the text; says whether there is one. */
static int take_number(const char **text, long long low, long long high, long long *number)
{
    char *end;
    *number = strtoll(*text, &end, 10);
    int found = end != *text && *number >= low && *number <= high;
    *text = end;
    return found;
}

/* The field of this name, or the count of fields if there is none. */
static unsigned field_named(const char *name)
{
    unsigned field = 0;
    while (field < fields && !is_named(&sheet, field, name))
        field++;
    return field;
}

/* Sets a field of the start store as FIELD=VALUE@LEVEL says; says whether it could. */
static int set_field(const char *text)
{
    char name[BELTUQASH_NAME_BYTES + 2]; /* a character more shows a longer name */
    size_t length = strcspn(text, "=");
    snprintf(name, sizeof name, "%.*s", (int)(length < sizeof name ? length : sizeof name), text);
    unsigned field = field_named(name);
    if (field == fields) {
        fprintf(stderr, "%s: no such field\n", text);
        return 0;
    }
    const char *rest = text + length;
    long long value = 0, level = 0;
    int read = *rest++ == '=' && take_number(&rest, INT32_MIN, INT32_MAX, &value) && *rest++ == '@' &&
               take_number(&rest, 0, BELTUQASH_MOST_LEVELS - 1, &level);
    int partial = read && *rest == '*';
    if (!read || rest[partial] != '\0') {
        fprintf(stderr, "%s: not FIELD=VALUE@LEVEL, with a * after the level for partial\n", text);
        return 0;
    }
    beltuqash_write_field(store, field, partial ? beltuqash_partial((unsigned)level) : (unsigned)level, (int32_t)value);
    return 1;
}

/* What the reader gets who asks for a field of the final store. */
static void ask(uint32_t reader, unsigned field)
{
    uint8_t request[BELTUQASH_LONGEST_REQUEST], answer[BELTUQASH_LONGEST_ANSWER];
    beltuqash_write_count(request, 1);
    beltuqash_write_asked(request, 0, field);
    uint64_t word =
        beltuqash_hand_out(sheet.bytes, sheet.length, final_store, store_len, reader, request, beltuqash_request_length(1), answer, sizeof answer);
    if (beltuqash_number(word) != BELTUQASH_DONE)
        printf("no answer, number %u\n", beltuqash_number(word));
    else if (!beltuqash_shown(answer, 0))
        printf("closed\n");
    else
        printf("%d\n", beltuqash_shown_value(answer, 0));
}

static void run(uint32_t mode, uint32_t reader)
{
    uint64_t word = beltuqash_run(sheet.bytes, sheet.length, store, store_len, mode, FUEL, final_store, sizeof final_store);
    printf("%s: ", mode_name(mode));
    print_answer(word);
    for (unsigned i = 0; beltuqash_number(word) == BELTUQASH_DONE && i < fields; i++) {
        print_field(&sheet, final_store, i);
        printf("; the reader gets: ");
        ask(reader, i);
    }
}

int main(int argc, char **argv)
{
    if (argc < 3) {
        fprintf(stderr, "usage: lesson SHEET READER [FIELD=VALUE@LEVEL ...]\n");
        return EXIT_FAILURE;
    }
    const char *rest = argv[2];
    long long reader;
    if (!take_number(&rest, 0, BELTUQASH_MOST_LEVELS - 1, &reader) || *rest != '\0') {
        fprintf(stderr, "%s: no level\n", argv[2]);
        return EXIT_FAILURE;
    }
    if (!load_sheet(argv[1], &sheet))
        return EXIT_FAILURE;
    make_store();
    for (int i = 3; i < argc; i++)
        if (!set_field(argv[i]))
            return EXIT_FAILURE;
    run(BELTUQASH_STRICT, (uint32_t)reader);
    run(BELTUQASH_PERMISSIVE, (uint32_t)reader);
    return EXIT_SUCCESS;
}
