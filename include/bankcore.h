/* The timetable bank core's C interface. tools/header makes this file from the crates' sources:
   don't edit it. */
/* Link the archive that `rt staticlib bankcore` makes:
     cc -Iinclude program.c target/staticlib/libbankcore.a */
/* Slices. A slice x is a pointer and x_length, its number of elements: the pointer has that many
   elements to read, or to write where it isn't const, and what a call writes overlaps nothing
   else that it is lent. A null pointer with length 0 is an empty slice. A bool's byte is 0 or 1.
   Nothing else is asked: every length, number and byte has an answer. */
/* Refusals. A refusal is a number of the table below, 0 for none. A call gives the first that it
   meets, in the order that its comment has, and then changes nothing that it is lent. Beside a
   refusal, or where nothing is found, an answer's other numbers are 0; but tt_fresh's times are
   TT_UNKNOWN_TIME, and a state is the one that was passed (tt_check_start, which is passed none,
   gives one that every turn refuses). */
/* Joined texts. Several texts are passed one after the other, with the length of each. A length
   past the end of the texts means what is left of them, and bytes after the last text are
   ignored: a sum of lengths unlike the texts' length is no refusal. */
/* Units. Lengths and offsets are in bytes, times in seconds, signed; a date is year × 10000 +
   month × 100 + day. Indexes, and the numbers of banks, sources and tables, count from 0.
   `region` is the whole flash region, TT_REGION_SIZE bytes; another length is refused with 1. */
/* States. A call of an update is passed a state by value and gives back the next one; any bytes
   may be passed. The first beginning is passed TT_STATE_INIT. A call that is refused, a
   beginning too, gives back the state that it was passed: after a refused first beginning every
   other call is refused. */
#ifndef BANKCORE_H
#define BANKCORE_H

#include <stdbool.h>
#include <stddef.h>
#include <stdint.h>

/* Lengths and offsets have 64 bits, as in the proofs. There is no core for a target whose
   pointers have another size, so none is declared there (docs/FIRMWARE.md). */
#ifdef __cplusplus
static_assert(sizeof(size_t) == 8 && sizeof(void *) == 8,
    "bankcore: pointers and lengths must have 64 bits");
#else
_Static_assert(sizeof(size_t) == 8 && sizeof(void *) == 8,
    "bankcore: pointers and lengths must have 64 bits");
#endif

#ifdef __cplusplus
extern "C" {
#endif

/* The refusals, by the words and numbers of documents 01 and 02. No call gives 15 to 23 yet. */
enum tt_refusal {
    TT_REFUSAL_NONE = 0,
    TT_REFUSAL_REGION = 1,
    TT_REFUSAL_ARGUMENT = 2,
    TT_REFUSAL_MARK = 3,
    TT_REFUSAL_SEAL = 4,
    TT_REFUSAL_SPAN = 5,
    TT_REFUSAL_SOURCE = 6,
    TT_REFUSAL_DATA = 7,
    TT_REFUSAL_IDENTITY = 8,
    TT_REFUSAL_SMALL = 9,
    TT_REFUSAL_FULL = 10,
    TT_REFUSAL_TURN = 11,
    TT_REFUSAL_OBSOLETE = 12,
    TT_REFUSAL_UNFIT = 13,
    TT_REFUSAL_ROW = 14,
    TT_REFUSAL_KEY = 15,
    TT_REFUSAL_FUTURE = 16,
    TT_REFUSAL_LINE = 17,
    TT_REFUSAL_RIGHTS = 18,
    TT_REFUSAL_LAST_KEEPER = 19,
    TT_REFUSAL_LIST = 20,
    TT_REFUSAL_ABSENT = 21,
    TT_REFUSAL_LAYOUT = 22,
    TT_REFUSAL_TABLE = 23,
};

/* A refusal's word; empty for 0 and for a number that is no refusal's. */
static inline const char *tt_refusal_word(uint32_t refusal)
{
    switch (refusal) {
    case TT_REFUSAL_REGION: return "region";
    case TT_REFUSAL_ARGUMENT: return "argument";
    case TT_REFUSAL_MARK: return "mark";
    case TT_REFUSAL_SEAL: return "seal";
    case TT_REFUSAL_SPAN: return "span";
    case TT_REFUSAL_SOURCE: return "source";
    case TT_REFUSAL_DATA: return "data";
    case TT_REFUSAL_IDENTITY: return "identity";
    case TT_REFUSAL_SMALL: return "small";
    case TT_REFUSAL_FULL: return "full";
    case TT_REFUSAL_TURN: return "turn";
    case TT_REFUSAL_OBSOLETE: return "obsolete";
    case TT_REFUSAL_UNFIT: return "unfit";
    case TT_REFUSAL_ROW: return "row";
    case TT_REFUSAL_KEY: return "key";
    case TT_REFUSAL_FUTURE: return "future";
    case TT_REFUSAL_LINE: return "line";
    case TT_REFUSAL_RIGHTS: return "rights";
    case TT_REFUSAL_LAST_KEEPER: return "last keeper";
    case TT_REFUSAL_LIST: return "list";
    case TT_REFUSAL_ABSENT: return "absent";
    case TT_REFUSAL_LAYOUT: return "layout";
    case TT_REFUSAL_TABLE: return "table";
    default: return "";
    }
}

/* Sizes, in bytes, and counts. */
#define TT_REGION_SIZE 983040 /* the flash region: two banks */
#define TT_BANKS 2 /* banks 0 and 1 */
#define TT_BANK_SIZE 491520 /* a bank: its header sector, then its data */
#define TT_SECTOR_SIZE 4096 /* a sector, which an erase sets to 255 */
#define TT_CAPACITY 487424 /* the most data bytes of a bank */
#define TT_WRITE_UNIT 4 /* a write has a multiple of this many bytes */
#define TT_TAIL_SIZE 256 /* an update's tail: no write of data has more bytes */
#define TT_HEADER_SIZE 1200 /* a bank's header, which the first commit call writes at the bank's start */
#define TT_COMMIT_WORD_OFFSET 44 /* the commit word's offset in a bank */
#define TT_COMMIT_WORD_SIZE 4 /* the commit word, which the second commit call writes */
#define TT_SOURCES 3 /* the most sources of a bank */
#define TT_TABLES 8 /* tables 0 to 7 */
#define TT_NO_TABLE 8 /* in an update's state: no table is open */
#define TT_MAX_COLUMNS 10 /* the most columns of a table, and so the fewest `ends` that are enough for any */
#define TT_MAX_ROW 8192 /* the longest row, with its row end; an `out` of this size is enough for any row */
#define TT_MAX_KEY 67795 /* the longest key */
#define TT_MAX_IDENTITY 65535 /* the longest identity */
#define TT_MAX_PICKS 16 /* the most picks */
#define TT_PICK_FIELDS 5 /* the fields of a pick: line, route, stop code, stop, stop name */
#define TT_MAX_LINE 8 /* the longest line of a pick */
#define TT_MAX_ROUTE 32 /* the longest route */
#define TT_MAX_STOP_CODE 16 /* the longest stop code */
#define TT_MAX_STOP 32 /* the longest stop */
#define TT_MAX_STOP_NAME 64 /* the longest stop name */
#define TT_MAX_FILTER 65536 /* the largest trip filter; the smallest has 1 byte */
#define TT_NO_BANK 255 /* the bank in the state of a refused beginning of checking */
#define TT_MAX_NAMES_LINE 106 /* the longest names line, with its LF */
#define TT_UNKNOWN_TIME INT64_MIN /* a time that isn't known */

/* A source's record, as version 3 has it: offsets and sizes in bytes. Numbers are little-endian. */
#define TT_RECORD_SIZE 384 /* the record */
#define TT_RECORD_START 0 /* u32: the first date, year × 10000 + month × 100 + day */
#define TT_RECORD_END 4 /* u32: the last date */
#define TT_RECORD_PRESENT 8 /* u32: bit t is set if table t is present */
#define TT_RECORD_UPDATED 12 /* i64: when the source was updated, in seconds, or the unknown time */
#define TT_RECORD_ORIGINALS 20 /* for each table CRC and length of the feed's whole file, two u32 */
#define TT_RECORD_BLOCKS 84 /* for each table offset in the data, length and CRC, three u32 */
#define TT_RECORD_STAMP 180 /* raw */
#define TT_RECORD_ID_LENGTH 192 /* one byte */
#define TT_RECORD_ID 193 /* raw */
#define TT_RECORD_VALIDATOR 273 /* raw: length and kind, a byte each, then the text */
#define TT_ORIGINAL_SIZE 8 /* a table's two numbers at TT_RECORD_ORIGINALS */
#define TT_BLOCK_SIZE 12 /* a table's three numbers at TT_RECORD_BLOCKS */
#define TT_STAMP_SIZE 12 /* the stamp */
#define TT_ID_SIZE 80 /* the id, and the most that commit allows for its length */
#define TT_VALIDATOR_SIZE 66 /* the validator with its length and kind */
#define TT_MAX_VALIDATOR 64 /* the most that commit allows for a validator's length */
#define TT_DATES_SIZE 8 /* the two dates at TT_RECORD_START, which are also in the data before the source's tables */

/* What an update's call answers. */
enum tt_answer {
    TT_ANSWER_DONE = 0,
    TT_ANSWER_APPENDED = 1,
    TT_ANSWER_NONE_DUE = 2,
    TT_ANSWER_SAME = 3,
    TT_ANSWER_DIFFERENT = 4,
};

/* The stage of an update's state: nothing due; an erase, a write or a comparison due; the header
   written; committed. */
enum tt_stage {
    TT_STAGE_IDLE = 0,
    TT_STAGE_ERASE = 1,
    TT_STAGE_WRITE = 2,
    TT_STAGE_COMPARE = 3,
    TT_STAGE_HEADER_WRITTEN = 4,
    TT_STAGE_COMMITTED = 5,
};

/* Whether an update's state has an active bank. */
enum tt_active {
    TT_ACTIVE_NONE = 0,
    TT_ACTIVE_SOME = 1,
};

/* An update's operations. The due call does an erase, a write or a comparison, a commit's first
   call writes the header, its second the commit word. */
enum tt_operation {
    TT_OPERATION_NONE = 0,
    TT_OPERATION_ERASE = 1,
    TT_OPERATION_WRITE = 2,
    TT_OPERATION_COMPARE = 3,
    TT_OPERATION_HEADER = 4,
    TT_OPERATION_COMMIT_WORD = 5,
};

/* The tables. */
enum tt_table {
    TT_TABLE_ROUTES = 0,
    TT_TABLE_STOPS = 1,
    TT_TABLE_TRIPS = 2,
    TT_TABLE_STOP_TIMES = 3,
    TT_TABLE_CALENDAR = 4,
    TT_TABLE_CALENDAR_DATES = 5,
    TT_TABLE_FEED_INFO = 6,
    TT_TABLE_TRANSFERS = 7,
};

/* A table's name; empty for a number that is no table's. */
static inline const char *tt_table_name(uint32_t table)
{
    switch (table) {
    case TT_TABLE_ROUTES: return "routes";
    case TT_TABLE_STOPS: return "stops";
    case TT_TABLE_TRIPS: return "trips";
    case TT_TABLE_STOP_TIMES: return "stop_times";
    case TT_TABLE_CALENDAR: return "calendar";
    case TT_TABLE_CALENDAR_DATES: return "calendar_dates";
    case TT_TABLE_FEED_INFO: return "feed_info";
    case TT_TABLE_TRANSFERS: return "transfers";
    default: return "";
    }
}

/* The columns of each table, by index: value TT_STOPS_STOP_NAME of a row of stops is the stop's
   name. Each enum ends with the number of columns. */
enum tt_routes_column {
    TT_ROUTES_ROUTE_ID = 0,
    TT_ROUTES_ROUTE_SHORT_NAME = 1,
    TT_ROUTES_ROUTE_TYPE = 2,
    TT_ROUTES_COLUMNS = 3,
};

enum tt_stops_column {
    TT_STOPS_STOP_ID = 0,
    TT_STOPS_STOP_CODE = 1,
    TT_STOPS_STOP_NAME = 2,
    TT_STOPS_COLUMNS = 3,
};

enum tt_trips_column {
    TT_TRIPS_ROUTE_ID = 0,
    TT_TRIPS_SERVICE_ID = 1,
    TT_TRIPS_TRIP_ID = 2,
    TT_TRIPS_TRIP_HEADSIGN = 3,
    TT_TRIPS_DIRECTION_ID = 4,
    TT_TRIPS_COLUMNS = 5,
};

enum tt_stop_times_column {
    TT_STOP_TIMES_TRIP_ID = 0,
    TT_STOP_TIMES_STOP_ID = 1,
    TT_STOP_TIMES_STOP_SEQUENCE = 2,
    TT_STOP_TIMES_ARRIVAL_TIME = 3,
    TT_STOP_TIMES_DEPARTURE_TIME = 4,
    TT_STOP_TIMES_PICKUP_TYPE = 5,
    TT_STOP_TIMES_DROP_OFF_TYPE = 6,
    TT_STOP_TIMES_STOP_HEADSIGN = 7,
    TT_STOP_TIMES_COLUMNS = 8,
};

enum tt_calendar_column {
    TT_CALENDAR_SERVICE_ID = 0,
    TT_CALENDAR_MONDAY = 1,
    TT_CALENDAR_TUESDAY = 2,
    TT_CALENDAR_WEDNESDAY = 3,
    TT_CALENDAR_THURSDAY = 4,
    TT_CALENDAR_FRIDAY = 5,
    TT_CALENDAR_SATURDAY = 6,
    TT_CALENDAR_SUNDAY = 7,
    TT_CALENDAR_START_DATE = 8,
    TT_CALENDAR_END_DATE = 9,
    TT_CALENDAR_COLUMNS = 10,
};

enum tt_calendar_dates_column {
    TT_CALENDAR_DATES_SERVICE_ID = 0,
    TT_CALENDAR_DATES_DATE = 1,
    TT_CALENDAR_DATES_EXCEPTION_TYPE = 2,
    TT_CALENDAR_DATES_COLUMNS = 3,
};

enum tt_feed_info_column {
    TT_FEED_INFO_FEED_START_DATE = 0,
    TT_FEED_INFO_FEED_END_DATE = 1,
    TT_FEED_INFO_COLUMNS = 2,
};

enum tt_transfers_column {
    TT_TRANSFERS_FROM_STOP_ID = 0,
    TT_TRANSFERS_TO_STOP_ID = 1,
    TT_TRANSFERS_TRANSFER_TYPE = 2,
    TT_TRANSFERS_MIN_TRANSFER_TIME = 3,
    TT_TRANSFERS_FROM_ROUTE_ID = 4,
    TT_TRANSFERS_TO_ROUTE_ID = 5,
    TT_TRANSFERS_FROM_TRIP_ID = 6,
    TT_TRANSFERS_TO_TRIP_ID = 7,
    TT_TRANSFERS_COLUMNS = 8,
};

/* A bank, if found is 1: its number, format version and generation, the data's length and CRC,
   how many sources it has, the key's length, and when it was checked. */
typedef struct TtBankNumbers {
    uint32_t refusal;
    uint32_t found;
    uint32_t number;
    uint32_t version;
    uint32_t generation;
    uint32_t length;
    uint32_t crc;
    uint32_t count;
    uint32_t key;
    int64_t checked;
} TtBankNumbers;

/* A turn: verdict is 1 if all data were hashed and their CRC is the header's, else count is how
   many bytes were hashed. The state for the next turn is bank, position and CRC. */
typedef struct TtTurnNumbers {
    uint32_t refusal;
    uint32_t verdict;
    uint32_t count;
    uint32_t bank;
    uint32_t position;
    uint32_t crc;
} TtTurnNumbers;

/* A written key's length. */
typedef struct TtKeyNumbers {
    uint32_t refusal;
    uint64_t length;
} TtKeyNumbers;

/* Whether a key is the same: 1 or 0. */
typedef struct TtMatchNumbers {
    uint32_t refusal;
    uint32_t same;
} TtMatchNumbers;

/* When a bank was checked, and when its sources were updated. */
typedef struct TtFreshNumbers {
    uint32_t refusal;
    int64_t checked;
    int64_t updated;
} TtFreshNumbers;

/* A row of a bank: found is 1 if there is one; next is the offset of the row after it, size how
   many bytes its values have, joined. */
typedef struct TtBankRowNumbers {
    uint32_t refusal;
    uint32_t found;
    uint64_t next;
    uint64_t size;
} TtBankRowNumbers;

/* How many columns there are. */
typedef struct TtColumnNumbers {
    uint32_t refusal;
    uint64_t count;
} TtColumnNumbers;

/* A written line's length, with its LF. */
typedef struct TtRowNumbers {
    uint32_t refusal;
    uint64_t length;
} TtRowNumbers;

/* A row that was read: found is 1 if there is one; next is the offset of the row after it, size
   how many bytes its values have, joined. */
typedef struct TtReadNumbers {
    uint32_t refusal;
    uint32_t found;
    uint64_t next;
    uint64_t size;
} TtReadNumbers;

/* Whether an id may be in the filter: 1 or 0. */
typedef struct TtFilterNumbers {
    uint32_t refusal;
    uint32_t present;
} TtFilterNumbers;

/* A bank's numbers; `key` is the key's length. */
typedef struct TtBank {
    uint32_t number;
    uint32_t version;
    uint32_t generation;
    uint32_t length;
    uint32_t crc;
    uint32_t count;
    uint32_t key;
    int64_t checked;
} TtBank;

/* How many sources were begun; the open table (8: none), where it starts, its CRC; which tables
   the last source began. */
typedef struct TtTables {
    uint32_t count;
    uint32_t table;
    uint32_t start;
    uint32_t crc;
    uint32_t begun;
} TtTables;

/* Where a table's bytes are in the data, and their CRC. */
typedef struct TtBlock {
    uint32_t offset;
    uint32_t length;
    uint32_t crc;
} TtBlock;

/* A record. Stamp, id and validator are carried raw. */
typedef struct TtSource {
    uint32_t start;
    uint32_t end;
    uint32_t present;
    int64_t updated;
    uint32_t original[16];
    TtBlock tables[8];
    uint8_t stamp[12];
    uint8_t idlen;
    uint8_t id[80];
    uint8_t validator[66];
} TtSource;

/* The state of an update. The stage is one of TT_STAGE_..; first is the due erase's sector (0 is
   the header's), or the offset in the data of the due write or comparison, and second its
   length, without padding. Active is TT_ACTIVE_NONE or TT_ACTIVE_SOME; with another number, or
   another stage, calls meet 11. A flag is set if its number isn't 0. Written and fill are the
   bytes written and those in the tail. */
typedef struct TtState {
    uint32_t stage;
    uint32_t first;
    uint32_t second;
    uint32_t active;
    TtBank bank;
    int64_t now;
    uint32_t comparing;
    uint32_t written;
    uint32_t fill;
    uint32_t crc;
    uint32_t different;
    uint32_t closed;
    TtTables tables;
    TtSource sources[3];
    uint8_t tail[256];
} TtState;

/* What the first beginning of an update is passed: a state of no stage, on which every other
   call is refused. */
#define TT_STATE_INIT \
    {UINT32_MAX, 0, 0, 0, {0, 0, 0, 0, 0, 0, 0, 0}, 0, 0, 0, 0, 0, 0, 0, {0, 0, 0, 0, 0}, \
    {{0, 0, 0, 0, {0}, {{0, 0, 0}}, {0}, 0, {0}, {0}}}, {0}}

/* What a call of an update answers: answer is one of TT_ANSWER_.., count the number of bytes
   appended. */
typedef struct TtUpdateNumbers {
    uint32_t refusal;
    uint32_t answer;
    uint32_t count;
} TtUpdateNumbers;

/* What a call of an update gives back: its answer, and the state for the next call. */
typedef struct TtUpdateStep {
    TtUpdateNumbers numbers;
    TtState state;
} TtUpdateStep;

/* An operation of an update, by its kind (TT_OPERATION_..): on bytes of a bank, from an offset
   of the bank on. An erase, a write, the header and the commit word are flash operations on the
   bank that isn't active; a write's length is with its padding. A comparison reads the active
   bank, bank 0 if there is none, and does nothing to the chip. */
typedef struct TtOperationNumbers {
    uint32_t refusal;
    uint32_t kind;
    uint32_t bank;
    uint64_t offset;
    uint64_t length;
} TtOperationNumbers;

/* ---- The leaves: numbers in bytes, CRC-32, generations, dates. */

/* The 32-bit number at an offset, little-endian. A byte past the end reads 0.
     b: the bytes
     i: the offset of its first byte */
uint32_t tt_get(const uint8_t *b, uint64_t b_length, uint64_t i);

/* Writes a 32-bit number at an offset, little-endian. Gives 0, or the refusal, and then nothing
   is written.
     b: the bytes to write to; i + 4 are needed
     i: the offset of its first byte
     n: the number
     refusals: 9 */
uint32_t tt_put(uint8_t *b, uint64_t b_length, uint64_t i, uint32_t n);

/* The signed 64-bit time at an offset, little-endian. A byte past the end reads 0.
     b: the bytes
     i: the offset of its first byte */
int64_t tt_get_time(const uint8_t *b, uint64_t b_length, uint64_t i);

/* Writes a signed 64-bit time at an offset, little-endian. Gives 0, or the refusal, and then
   nothing is written.
     b: the bytes to write to; i + 8 are needed
     i: the offset of its first byte
     z: the time, in seconds
     refusals: 9 */
uint32_t tt_put_time(uint8_t *b, uint64_t b_length, uint64_t i, int64_t z);

/* The CRC-32 of bytes (IEEE 802.3), continued from that of the bytes before them. Bytes may be
   fed part after part: each part starts from the answer for the part before it, and the last
   answer is the CRC of all parts joined. An empty part changes nothing.
     start: the CRC of the bytes before, 0 if there are none
     bytes: the bytes */
uint32_t tt_crc32(uint32_t start, const uint8_t *bytes, uint64_t bytes_length);

/* Whether generation a is newer than b: at most 2^31 - 1 steps after it, where 0 follows
   4294967295.
     a: a generation
     b: another */
bool tt_newer(uint32_t a, uint32_t b);

/* The generation after g; 0 follows 4294967295.
     g: a generation */
uint32_t tt_next(uint32_t g);

/* A date's number, year × 10000 + month × 100 + day; 0 if there is no such date.
     year: 1 to 9999
     month: 1 to 12
     day: 1 to 31 */
uint32_t tt_date_new(uint16_t year, uint8_t month, uint8_t day);

/* Whether d is a date's number.
     d: any number */
bool tt_valid_date(uint32_t d);

/* x rotated left by 13 bits.
     x: any number */
uint32_t tt_rotate13(uint32_t x);

/* ---- Keys, and banks: load and the calls on a loaded bank. */

/* Tests a bank except for its data's CRC, and gives its numbers.
     region: the region, TT_REGION_SIZE bytes
     bank: 0 or 1
     refusals: 1, 2, 3, 4, 5, 6 */
TtBankNumbers tt_header(const uint8_t *region, uint64_t region_length, uint32_t bank);

/* Tests a bank, its data's CRC too, and gives its numbers.
     region: the region, TT_REGION_SIZE bytes
     bank: 0 or 1
     refusals: 1, 2, 3, 4, 5, 6, 7 */
TtBankNumbers tt_validate(const uint8_t *region, uint64_t region_length, uint32_t bank);

/* The bank in use: the first to pass all tests, the newer one tried first. If none passes, found
   is 0, and that is no refusal.
     region: the region, TT_REGION_SIZE bytes
     refusals: 1 */
TtBankNumbers tt_load(const uint8_t *region, uint64_t region_length);

/* Begins checking a bank's data in turns: the state for the first one. A refused beginning gives
   a state of bank TT_NO_BANK.
     region: the region, TT_REGION_SIZE bytes
     bank: 0 or 1
     refusals: 1, 2, 3, 4, 5, 6 */
TtTurnNumbers tt_check_start(const uint8_t *region, uint64_t region_length, uint32_t bank);

/* One turn: hashes the next bytes of the data and gives their count; with none left it gives the
   verdict, 1 or refusal 7, and so does a further turn.
     region: the region, TT_REGION_SIZE bytes
     bank: the state's bank, as the last turn gave it
     position: the state's position: the bytes hashed before
     crc: the state's CRC
     n: the most bytes to hash in this turn
     refusals: 1, 11 by the state, 3, 4, 5, 6, 11 by a position past the data, 7 */
TtTurnNumbers tt_check_turn(
    const uint8_t *region,
    uint64_t region_length,
    uint32_t bank,
    uint32_t position,
    uint32_t crc,
    uint32_t n);

/* Writes the key of an identity and picks to the first bytes of out, and gives its length.
     identity: at most TT_MAX_IDENTITY bytes; it may be empty
     texts: the fields of all picks, joined (Joined texts, above)
     lengths: TT_PICK_FIELDS lengths to a pick, of line, route, stop code, stop and stop name, at
         most TT_MAX_PICKS picks; a length that is missing in the last pick is 0
     out: a buffer; TT_MAX_KEY bytes are enough for any key
     refusals: 2, 8, 9 */
TtKeyNumbers tt_key(
    const uint8_t *identity,
    uint64_t identity_length,
    const uint8_t *texts,
    uint64_t texts_length,
    const uint32_t *lengths,
    uint64_t lengths_length,
    uint8_t *out,
    uint64_t out_length);

/* Whether a bank's key is that of an identity and picks: same is 1 or 0.
     region: the region, TT_REGION_SIZE bytes
     bank: 0 or 1
     identity: as for tt_key
     texts: as for tt_key
     lengths: as for tt_key
     refusals: 1, 2, 3, 4, 5, 6, 8 */
TtMatchNumbers tt_same_key(
    const uint8_t *region,
    uint64_t region_length,
    uint32_t bank,
    const uint8_t *identity,
    uint64_t identity_length,
    const uint8_t *texts,
    uint64_t texts_length,
    const uint32_t *lengths,
    uint64_t lengths_length);

/* When a bank was checked, and when the sources that give the wanted days were updated, the
   oldest time; TT_UNKNOWN_TIME if it is not known.
     region: the region, TT_REGION_SIZE bytes
     bank: 0 or 1
     day0: a date
     day1: a date
     day2: a date
     wanted0: whether the first date counts; it must be one in any case
     wanted1: the same of the second
     wanted2: the same of the third
     at: the time now: an updated time after it is unknown
     refusals: 1, 2, 3, 4, 5, 6 */
TtFreshNumbers tt_fresh(
    const uint8_t *region,
    uint64_t region_length,
    uint32_t bank,
    uint32_t day0,
    uint32_t day1,
    uint32_t day2,
    bool wanted0,
    bool wanted1,
    bool wanted2,
    int64_t at);

/* Writes a source's record to the first TT_RECORD_SIZE bytes of out, in version 3's form. Gives
   0 or the refusal.
     region: the region, TT_REGION_SIZE bytes
     bank: 0 or 1
     index: the source's, below the bank's count
     out: a buffer of at least TT_RECORD_SIZE bytes
     refusals: 1, 2, 3, 4, 5, 6, 6 by the index, 9 */
uint32_t tt_source(
    const uint8_t *region,
    uint64_t region_length,
    uint32_t bank,
    uint32_t index,
    uint8_t *out,
    uint64_t out_length);

/* Reads the row at an offset of a source's table: its values, joined, to the first bytes of out,
   and to ends the offset in out where each ends. A row ends in LF or CRLF; a CR outside quotes
   that no LF follows meets 14. Offset 0 is the table's names line. At the table's end found is
   0, and that is no refusal.
     region: the region, TT_REGION_SIZE bytes
     bank: 0 or 1
     source: its index, below the bank's count
     table: TT_TABLE_ROUTES to TT_TABLE_TRANSFERS
     place: the row's offset in the table: 0, or the next that the row before gave
     out: a buffer; TT_MAX_ROW bytes are enough for any row
     ends: at least as many elements as the table has columns; TT_MAX_COLUMNS are enough for any
         table
     refusals: 1, 2, 3, 4, 5, 6, 6 by the source, 14, 9 */
TtBankRowNumbers tt_bank_row(
    const uint8_t *region,
    uint64_t region_length,
    uint32_t bank,
    uint32_t source,
    uint32_t table,
    uint64_t place,
    uint8_t *out,
    uint64_t out_length,
    uint64_t *ends,
    uint64_t ends_length);

/* ---- Rows and the trip filter. */

/* How many columns a table has.
     table: TT_TABLE_ROUTES to TT_TABLE_TRANSFERS
     refusals: 2 */
TtColumnNumbers tt_column_count(uint32_t table);

/* Writes a table's names line to the first bytes of out, with its LF, and gives its length.
     table: TT_TABLE_ROUTES to TT_TABLE_TRANSFERS
     out: a buffer; TT_MAX_NAMES_LINE bytes are enough for any table
     refusals: 2, 9 */
TtRowNumbers tt_names_line(uint32_t table, uint8_t *out, uint64_t out_length);

/* Writes the row of a table's values to the first bytes of out, quoted where needed, with its
   LF, and gives its length.
     table: TT_TABLE_ROUTES to TT_TABLE_TRANSFERS
     texts: the values, joined (Joined texts, above)
     lengths: the length of each value, as many as the table has columns
     out: a buffer; TT_MAX_ROW bytes are enough for any row
     refusals: 2, 14, 9 */
TtRowNumbers tt_row(
    uint32_t table,
    const uint8_t *texts,
    uint64_t texts_length,
    const uint32_t *lengths,
    uint64_t lengths_length,
    uint8_t *out,
    uint64_t out_length);

/* Reads the row at an offset of stored rows: its values, joined, to the first bytes of out, and
   to ends the offset in out where each ends. A row ends in LF or CRLF; a CR outside quotes that
   no LF follows meets 14. At the end of the table found is 0, and that is no refusal.
     table: the rows' bytes; offset 0 of a stored table is its names line
     width: how many values the row must have
     place: the row's offset in the table
     out: a buffer; TT_MAX_ROW bytes are enough for any row
     ends: at least width elements
     refusals: 14, 9 */
TtReadNumbers tt_read_row(
    const uint8_t *table,
    uint64_t table_length,
    uint64_t width,
    uint64_t place,
    uint8_t *out,
    uint64_t out_length,
    uint64_t *ends,
    uint64_t ends_length);

/* Whether a trip id may be in the filter: present is 1 or 0.
     bits: the filter, 1 to TT_MAX_FILTER bytes
     id: the trip id
     refusals: 2 */
TtFilterNumbers tt_filter_query(
    const uint8_t *bits,
    uint64_t bits_length,
    const uint8_t *id,
    uint64_t id_length);

/* Inserts a trip id into the filter; present says whether it may have been there before.
     bits: the filter, 1 to TT_MAX_FILTER bytes
     id: the trip id
     refusals: 2 */
TtFilterNumbers tt_filter_insert(
    uint8_t *bits,
    uint64_t bits_length,
    const uint8_t *id,
    uint64_t id_length);

/* ---- An update's lower calls: each does one flash operation at most. The state is passed by
   value, as numbers; any numbers are allowed. */

/* Begins an update: loads the region. It appends no key. Refused, it gives back the state that
   it was passed.
     region: the region, TT_REGION_SIZE bytes
     comparing: whether the update is compared with the active bank, and nothing is written
     at: the time now; the checked time of the bank, unless the commit has a later stamp
     state: the last update's, which the new one replaces, or TT_STATE_INIT
     refusals: 1 */
TtUpdateStep tt_update_begin(
    const uint8_t *region,
    uint64_t region_length,
    bool comparing,
    int64_t at,
    TtState state);

/* Begins a source, at most TT_SOURCES in an update. Its blocks start as zero.
     state: the update's
     bytes: its record, TT_RECORD_SIZE bytes; missing ones are 0, further ones ignored
     refusals: 11, 10 */
TtUpdateStep tt_update_source(TtState state, const uint8_t *bytes, uint64_t bytes_length);

/* Begins a table of the last source; the first one of the first source is routes.
     state: the update's
     table: TT_TABLE_ROUTES to TT_TABLE_TRANSFERS
     refusals: 2, 11 */
TtUpdateStep tt_update_table(TtState state, uint32_t table);

/* Appends bytes until the tail is full, and gives how many were appended as count; 0 while an
   operation is due. Pass the others again after tt_update_due.
     state: the update's
     bytes: the bytes; all of them count for refusal 10
     refusals: 11, 10 */
TtUpdateStep tt_update_bytes(TtState state, const uint8_t *bytes, uint64_t bytes_length);

/* Ends the open table.
     state: the update's
     refusals: 11 */
TtUpdateStep tt_update_end(TtState state);

/* Closes the update: no more bytes. Those in the tail are then due.
     state: the update's
     refusals: 11 */
TtUpdateStep tt_update_close(TtState state);

/* Does the erase, write or comparison that is due, or answers TT_ANSWER_NONE_DUE.
     region: the region, TT_REGION_SIZE bytes
     state: the update's
     refusals: 1, 11 */
TtUpdateStep tt_update_due(uint8_t *region, uint64_t region_length, TtState state);

/* The operation that comes next, for a driver that does it on a chip: what tt_update_due does;
   else, once an update that isn't compared is closed, the header that tt_update_commit writes
   unless it is refused, then the commit word that tt_update_commit_word writes; else none.
     state: the update's
     refusals: 11 */
TtOperationNumbers tt_update_operation(TtState state);

/* Whether the update that was compared is the same as the active bank: TT_ANSWER_SAME or
   TT_ANSWER_DIFFERENT.
     region: the region, TT_REGION_SIZE bytes
     state: the update's, closed, with nothing due
     refusals: 1, 11 */
TtUpdateStep tt_update_unchanged(const uint8_t *region, uint64_t region_length, TtState state);

/* The first write of a commit: the header, with 255 in the commit word.
     region: the region, TT_REGION_SIZE bytes
     state: the update's, closed, with nothing due
     stamped: whether there is a stamp
     stamp: the checked time, if it is after the time of the beginning; ignored unless stamped
     current: whether the update is still wanted; refusal 12 if not
     refusals: 1, 11, 12, 13 */
TtUpdateStep tt_update_commit(
    uint8_t *region,
    uint64_t region_length,
    TtState state,
    bool stamped,
    int64_t stamp,
    bool current);

/* The second write of a commit: the commit word. From then on load gives the new bank.
     region: the region, TT_REGION_SIZE bytes
     state: the update's, after tt_update_commit
     refusals: 1, 11 */
TtUpdateStep tt_update_commit_word(uint8_t *region, uint64_t region_length, TtState state);

/* ---- An update's upper calls: each does all its flash operations before it returns, and leaves
   none due. Several texts are passed joined, with their lengths. */

/* Begins an update and appends the key of an identity and picks. Refused, it gives back the
   state that it was passed.
     region: the region, TT_REGION_SIZE bytes
     comparing: as for tt_update_begin
     at: as for tt_update_begin
     identity: as for tt_key
     texts: as for tt_key
     lengths: as for tt_key
     state: the last update's, or TT_STATE_INIT
     refusals: 1, 2, 8 */
TtUpdateStep tt_upper_begin(
    uint8_t *region,
    uint64_t region_length,
    bool comparing,
    int64_t at,
    const uint8_t *identity,
    uint64_t identity_length,
    const uint8_t *texts,
    uint64_t texts_length,
    const uint32_t *lengths,
    uint64_t lengths_length,
    TtState state);

/* Begins a source and appends its dates.
     region: the region, TT_REGION_SIZE bytes
     state: the update's
     bytes: its record, as for tt_update_source
     refusals: 1, 11, 10 */
TtUpdateStep tt_upper_source(
    uint8_t *region,
    uint64_t region_length,
    TtState state,
    const uint8_t *bytes,
    uint64_t bytes_length);

/* Begins a table of the last source and appends its names line.
     region: the region, TT_REGION_SIZE bytes
     state: the update's
     table: TT_TABLE_ROUTES to TT_TABLE_TRANSFERS
     refusals: 1, 2, 11, 10 */
TtUpdateStep tt_upper_table(uint8_t *region, uint64_t region_length, TtState state, uint32_t table);

/* Appends a row of the open table.
     region: the region, TT_REGION_SIZE bytes
     state: the update's
     texts: the values, joined (Joined texts, above)
     lengths: the length of each value, as many as the table has columns
     refusals: 1, 11, 14, 10 */
TtUpdateStep tt_upper_row(
    uint8_t *region,
    uint64_t region_length,
    TtState state,
    const uint8_t *texts,
    uint64_t texts_length,
    const uint32_t *lengths,
    uint64_t lengths_length);

/* Ends the open table.
     region: the region, TT_REGION_SIZE bytes
     state: the update's
     refusals: 1, 11 */
TtUpdateStep tt_upper_end(uint8_t *region, uint64_t region_length, TtState state);

/* Closes the update: the bytes in the tail are written, or compared in comparing mode.
     region: the region, TT_REGION_SIZE bytes
     state: the update's
     refusals: 1, 11 */
TtUpdateStep tt_upper_close(uint8_t *region, uint64_t region_length, TtState state);

#ifdef __cplusplus
}
#endif

#endif
