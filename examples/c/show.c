/* Loads a board's image and shows the bank in use: its numbers, its sources, its tables' rows.
   show IMAGE */
#include <inttypes.h>
#include <stdio.h>
#include <stdlib.h>

#include "bankcore.h"

/* The file's bytes, at most one more than a region has; how many there were. */
static uint64_t read_image(const char *name, uint8_t *image)
{
    FILE *file = fopen(name, "rb");
    if (!file) {
        fprintf(stderr, "show: %s can't be read\n", name);
        exit(2);
    }
    uint64_t n = fread(image, 1, TT_REGION_SIZE + 1, file);
    fclose(file);
    return n;
}

static void show_bank(const uint8_t *image, uint64_t n, uint32_t bank)
{
    TtBankNumbers b = tt_validate(image, n, bank);
    if (b.refusal)
        printf("bank %" PRIu32 ": refusal %" PRIu32 " %s\n", bank, b.refusal, tt_refusal_word(b.refusal));
    else
        printf("bank %" PRIu32 ": generation %" PRIu32 "\n", bank, b.generation);
}

/* How many rows a table has after its names line, and whether one is malformed. */
static void show_table(const uint8_t *image, uint64_t n, uint32_t bank, uint32_t source, uint32_t table)
{
    static uint8_t values[TT_MAX_ROW];
    uint64_t ends[TT_MAX_COLUMNS];
    uint64_t place = 0;
    uint64_t rows = 0;
    TtBankRowNumbers row;
    for (;;) {
        row = tt_bank_row(image, n, bank, source, table, place, values, sizeof values, ends, TT_MAX_COLUMNS);
        if (row.refusal || !row.found)
            break;
        rows += 1;
        place = row.next;
    }
    if (row.refusal)
        printf("  %s: refusal %" PRIu32 " %s at %" PRIu64 "\n", tt_table_name(table), row.refusal, tt_refusal_word(row.refusal), place);
    else if (rows)
        printf("  %s: rows %" PRIu64 "\n", tt_table_name(table), rows - 1);
}

static void show_source(const uint8_t *image, uint64_t n, uint32_t bank, uint32_t source)
{
    uint8_t record[TT_RECORD_SIZE];
    uint32_t refusal = tt_source(image, n, bank, source, record, sizeof record);
    if (refusal) {
        printf("source %" PRIu32 ": refusal %" PRIu32 " %s\n", source, refusal, tt_refusal_word(refusal));
        return;
    }
    uint32_t start = tt_get(record, sizeof record, TT_RECORD_START);
    uint32_t end = tt_get(record, sizeof record, TT_RECORD_END);
    printf("source %" PRIu32 ": %" PRIu32 " to %" PRIu32 "\n", source, start, end);
    for (uint32_t table = 0; table < TT_TABLES; table++)
        show_table(image, n, bank, source, table);
}

int main(int argc, char **argv)
{
    static uint8_t image[TT_REGION_SIZE + 1];
    if (argc != 2) {
        fprintf(stderr, "show: name one image, of %d bytes\n", TT_REGION_SIZE);
        return 2;
    }
    uint64_t n = read_image(argv[1], image);
    TtBankNumbers bank = tt_load(image, n);
    if (bank.refusal) {
        printf("load: refusal %" PRIu32 " %s\n", bank.refusal, tt_refusal_word(bank.refusal));
        return 1;
    }
    show_bank(image, n, 0);
    show_bank(image, n, 1);
    if (!bank.found) {
        printf("load: none\n");
        return 0;
    }
    printf("load: bank %" PRIu32 ", generation %" PRIu32 ", ", bank.number, bank.generation);
    printf("%" PRIu32 " bytes, sources %" PRIu32 ", ", bank.length, bank.count);
    printf("key length %" PRIu32 ", checked %" PRId64 "\n", bank.key, bank.checked);
    for (uint32_t source = 0; source < bank.count; source++)
        show_source(image, n, bank.number, source);
    return 0;
}
