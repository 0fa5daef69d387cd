/* What bankcore.h says of edges, tried: refused beginnings, empty slices, sums of lengths, numbers
   beside a refusal. edges */
#include <inttypes.h>
#include <stdio.h>

#include "bankcore.h"

static void show(const char *what, uint32_t refusal)
{
    printf("%s: refusal %" PRIu32 " %s\n", what, refusal, tt_refusal_word(refusal));
}

/* A refused first beginning gives back the state that it was passed, on which calls are refused. */
static void beginnings(void)
{
    TtState state = TT_STATE_INIT;
    TtUpdateStep step = tt_update_begin(NULL, 0, false, 0, state);
    show("beginning on no region", step.numbers.refusal);
    printf("  the same stage: %s\n", step.state.stage == state.stage ? "yes" : "no");
    show("  closing it", tt_update_close(step.state).numbers.refusal);
    show("  its next operation", tt_update_operation(step.state).refusal);
}

static void empty_slices(void)
{
    uint8_t key[1];
    TtKeyNumbers written = tt_key(NULL, 0, NULL, 0, NULL, 0, key, sizeof key);
    printf("key of no identity and no picks: %" PRIu64 " byte, %d\n", written.length, key[0]);
    printf("CRC-32 of nothing: %" PRIu32 "\n", tt_crc32(0, NULL, 0));
    show("no filter", tt_filter_query(NULL, 0, NULL, 0).refusal);
    show("no region", tt_load(NULL, 0).refusal);
}

/* The lengths' sum is larger than the texts' length, smaller, and right. */
static void sums(void)
{
    static const uint8_t texts[] = {'a', 'b', 'c'};
    static const uint32_t lengths[3][TT_FEED_INFO_COLUMNS] = {{1, 9}, {1, 0}, {1, 2}};
    for (int i = 0; i < 3; i++) {
        uint8_t row[TT_MAX_ROW];
        TtRowNumbers r = tt_row(TT_TABLE_FEED_INFO, texts, sizeof texts, lengths[i], TT_FEED_INFO_COLUMNS, row, sizeof row);
        printf("lengths %" PRIu32 ", %" PRIu32 ": %.*s", lengths[i][0], lengths[i][1], (int)r.length, (const char *)row);
    }
}

static void beside_a_refusal(void)
{
    TtFreshNumbers fresh = tt_fresh(NULL, 0, 0, 20260101, 20260102, 20260103, true, true, true, 0);
    bool unknown = fresh.checked == TT_UNKNOWN_TIME && fresh.updated == TT_UNKNOWN_TIME;
    show(unknown ? "fresh, with unknown times" : "fresh, with times", fresh.refusal);
    TtTurnNumbers turn = tt_check_start(NULL, 0, 1);
    show(turn.bank == TT_NO_BANK ? "checking, with no bank" : "checking, with a bank", turn.refusal);
}

/* The constants are those of the core. */
static void columns(void)
{
    static const uint64_t counts[TT_TABLES] = {
        TT_ROUTES_COLUMNS, TT_STOPS_COLUMNS, TT_TRIPS_COLUMNS, TT_STOP_TIMES_COLUMNS,
        TT_CALENDAR_COLUMNS, TT_CALENDAR_DATES_COLUMNS, TT_FEED_INFO_COLUMNS, TT_TRANSFERS_COLUMNS,
    };
    uint8_t line[TT_MAX_NAMES_LINE];
    for (uint32_t table = 0; table < TT_TABLES; table++) {
        bool same = tt_column_count(table).count == counts[table];
        TtRowNumbers names = tt_names_line(table, line, sizeof line);
        printf("%s: %" PRIu64 " columns%s, ", tt_table_name(table), counts[table], same ? "" : ", not the core's");
        printf("%.*s", (int)names.length, (const char *)line);
    }
    show("table 8", tt_column_count(TT_TABLES).refusal);
}

int main(void)
{
    beginnings();
    empty_slices();
    sums();
    beside_a_refusal();
    columns();
    return 0;
}
