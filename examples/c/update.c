/* An update with at most one flash operation a turn of the main loop: cut after each number of
   operations, then whole, then cut inside each operation. update IMAGE */
#include <inttypes.h>
#include <stdio.h>
#include <stdlib.h>
#include <string.h>

#include "bankcore.h"

static const int64_t now = 1790000000;

/* What the host passes, and how much of it is done. */
typedef struct Host {
    uint8_t key[64], record[TT_RECORD_SIZE], dates[TT_DATES_SIZE], table[1024];
    uint64_t key_length, table_length;
    int next;
    uint64_t appended;
    TtState state;
} Host;

static void refused(uint32_t refusal)
{
    if (refusal) {
        printf("refusal %" PRIu32 " %s\n", refusal, tt_refusal_word(refusal));
        exit(1);
    }
}

/* An update of one source with one table. */
static void prepare(Host *h)
{
    static const uint8_t identity[] = "shelter 12", values[] = "r7Harbour3";
    static const uint32_t lengths[TT_ROUTES_COLUMNS] = {2, 7, 1};
    static const TtState begin_with = TT_STATE_INIT;
    memset(h, 0, sizeof *h);
    h->state = begin_with;
    TtKeyNumbers key = tt_key(identity, sizeof identity - 1, NULL, 0, NULL, 0, h->key, sizeof h->key);
    refused(key.refusal);
    h->key_length = key.length;
    refused(tt_put(h->record, TT_RECORD_SIZE, TT_RECORD_START, 20260101));
    refused(tt_put(h->record, TT_RECORD_SIZE, TT_RECORD_END, 20261231));
    refused(tt_put(h->record, TT_RECORD_SIZE, TT_RECORD_PRESENT, 1 << TT_TABLE_ROUTES));
    refused(tt_put_time(h->record, TT_RECORD_SIZE, TT_RECORD_UPDATED, now - 600));
    memcpy(h->dates, h->record + TT_RECORD_START, sizeof h->dates);
    TtRowNumbers line = tt_names_line(TT_TABLE_ROUTES, h->table, sizeof h->table);
    refused(line.refusal);
    h->table_length = line.length;
    for (int i = 0; i < 40; i++) {
        uint8_t *end = h->table + h->table_length;
        line = tt_row(TT_TABLE_ROUTES, values, sizeof values - 1, lengths, TT_ROUTES_COLUMNS, end, sizeof h->table - h->table_length);
        refused(line.refusal);
        h->table_length += line.length;
    }
}

/* Keeps the state that a call returns; its answer. */
static TtUpdateNumbers keep(Host *h, TtUpdateStep step)
{
    refused(step.numbers.refusal);
    h->state = step.state;
    return step.numbers;
}

/* Passes bytes, as many as are appended; whether that was all. */
static bool append(Host *h, const uint8_t *bytes, uint64_t n)
{
    h->appended += keep(h, tt_update_bytes(h->state, bytes + h->appended, n - h->appended)).count;
    if (h->appended < n)
        return false;
    h->appended = 0;
    return true;
}

/* One turn: the due operation if there is one, else what comes next. How many flash operations it
   did, below 0 when all is done. */
static int turn(Host *h, uint8_t *region)
{
    bool over = true;
    if (keep(h, tt_update_due(region, TT_REGION_SIZE, h->state)).answer != TT_ANSWER_NONE_DUE)
        return 1;
    switch (h->next) {
    case 0: over = append(h, h->key, h->key_length); break;
    case 1: keep(h, tt_update_source(h->state, h->record, TT_RECORD_SIZE)); break;
    case 2: over = append(h, h->dates, sizeof h->dates); break;
    case 3: keep(h, tt_update_table(h->state, TT_TABLE_ROUTES)); break;
    case 4: over = append(h, h->table, h->table_length); break;
    case 5: keep(h, tt_update_end(h->state)); break;
    case 6: keep(h, tt_update_close(h->state)); break;
    case 7: keep(h, tt_update_commit(region, TT_REGION_SIZE, h->state, false, 0, true)); break;
    case 8: keep(h, tt_update_commit_word(region, TT_REGION_SIZE, h->state)); break;
    default: return -1;
    }
    if (over)
        h->next += 1;
    return over && h->next > 7;
}

/* An update that loses power after `power` operations: its state is gone then. How many were
   done, and whether it was finished. */
static int update(uint8_t *region, int power, bool *whole)
{
    static Host h;
    int done = 0;
    prepare(&h);
    keep(&h, tt_update_begin(region, TT_REGION_SIZE, false, now, h.state));
    *whole = false;
    while (done < power && !*whole) {
        int operations = turn(&h, region);
        *whole = operations < 0;
        done += *whole ? 0 : operations;
    }
    return done;
}

static TtBankNumbers load(const uint8_t *region)
{
    TtBankNumbers bank = tt_load(region, TT_REGION_SIZE);
    refused(bank.refusal);
    return bank;
}

static void give(TtBankNumbers bank)
{
    if (bank.found)
        printf("load gives bank %" PRIu32 ", generation %" PRIu32, bank.number, bank.generation);
    else
        printf("load gives none");
}

static void show(const char *what, int done, const uint8_t *region)
{
    if (done >= 0)
        printf("%s %d %s: ", what, done, done == 1 ? "operation" : "operations");
    else
        printf("%s: ", what);
    give(load(region));
    printf("\n");
}

/* The bytes of the region that a turn erases or writes; none if the size is 0. */
typedef struct Span {
    uint32_t kind;
    uint64_t offset, size;
} Span;

/* The flash operation of the next turn. */
static Span operation(const Host *h)
{
    TtOperationNumbers next = tt_update_operation(h->state);
    refused(next.refusal);
    Span s = {next.kind, next.bank * (uint64_t)TT_BANK_SIZE + next.offset, next.length};
    return s;
}

static const char *operation_name(uint32_t kind)
{
    switch (kind) {
    case TT_OPERATION_ERASE: return "erase";
    case TT_OPERATION_WRITE: return "write";
    case TT_OPERATION_COMPARE: return "compare";
    case TT_OPERATION_HEADER: return "header";
    case TT_OPERATION_COMMIT_WORD: return "commit word";
    default: return "";
    }
}

static bool same(TtBankNumbers a, TtBankNumbers b)
{
    return a.found == b.found && a.number == b.number && a.generation == b.generation;
}

/* The power fails inside an operation, after each of its bytes: those so far are as the operation
   leaves them, the others as they were. The commit word is shown byte by byte. */
static void cut_inside(int number, Span cut, uint8_t *torn, const uint8_t *after)
{
    TtBankNumbers old = load(torn);
    bool word = cut.kind == TT_OPERATION_COMMIT_WORD;
    uint64_t kept = 0;
    for (uint64_t j = 1; j <= cut.size; j++) {
        torn[cut.offset + j - 1] = after[cut.offset + j - 1];
        TtBankNumbers found = load(torn);
        kept += j < cut.size && same(found, old);
        if (word) {
            printf("operation %d, %s at %" PRIu64 ", ", number, operation_name(cut.kind), cut.offset);
            printf("%" PRIu64 " of %" PRIu64 " bytes: ", j, cut.size);
            give(found);
            printf("\n");
        }
    }
    if (!word) {
        printf("inside operation %d, %s at %" PRIu64 ": ", number, operation_name(cut.kind), cut.offset);
        give(old);
        printf(" at %" PRIu64 " of %" PRIu64 " cuts\n", kept, cut.size - 1);
    }
}

/* The update once more, each operation cut inside. */
static void cuts_inside(uint8_t *region)
{
    static Host h;
    static uint8_t before[TT_REGION_SIZE];
    int number = 0;
    prepare(&h);
    keep(&h, tt_update_begin(region, TT_REGION_SIZE, false, now, h.state));
    for (;;) {
        Span next = operation(&h);
        memcpy(before, region, TT_REGION_SIZE);
        if (turn(&h, region) < 0)
            return;
        if (next.size > 0)
            cut_inside(++number, next, before, region);
    }
}

int main(int argc, char **argv)
{
    static uint8_t image[TT_REGION_SIZE], region[TT_REGION_SIZE];
    bool whole = false;
    FILE *file = argc == 2 ? fopen(argv[1], "rb") : NULL;
    if (!file || fread(image, 1, TT_REGION_SIZE, file) != TT_REGION_SIZE) {
        fprintf(stderr, "update: name one image, of %d bytes\n", TT_REGION_SIZE);
        return 2;
    }
    fclose(file);
    show("at the start", -1, image);
    for (int power = 0; !whole; power++) {
        memcpy(region, image, TT_REGION_SIZE);
        int done = update(region, power, &whole);
        show(whole ? "whole," : "cut after", done, region);
        if (!whole) {
            bool again;
            update(region, 1 << 20, &again);
            show("  and again, whole", -1, region);
        }
    }
    cuts_inside(image);
    return 0;
}
