/* include/kavdrell.h, held against the paper: every function is called, every constant is one that the library gives, and every struct and
 * type is as it is written here. Each number due is worked out from the rules. It is C and C++; tests/header_build builds it.
 * The last line counts what passed and failed. */
#include "kavdrell.h"
#include "kavdrell.h"
#include "header_calls.h"
#include <stdio.h>
#include <string.h>

/* The declarations once more: one of another type in the header doesn't compile beside them. */
static inline uint32_t kavdrell_kind(uint64_t answer);
static inline uint32_t kavdrell_value(uint64_t answer);
uint64_t kavdrell_open(uint32_t *, size_t, uint32_t, uint32_t, uint32_t, uint32_t, uint32_t);
uint64_t kavdrell_start(uint32_t *, size_t, uint32_t);
uint64_t kavdrell_look(uint32_t *, size_t, uint32_t, uint32_t);
uint64_t kavdrell_settle(uint32_t *, size_t, uint32_t);
uint64_t kavdrell_make(uint32_t *, size_t, uint32_t);
uint64_t kavdrell_swap(uint32_t *, size_t, uint32_t, uint32_t, uint32_t, uint32_t);
uint64_t kavdrell_retire(uint32_t *, size_t, uint32_t, uint32_t);
uint64_t kavdrell_sweep(uint32_t *, size_t, uint32_t);
uint64_t kavdrell_end(uint32_t *, size_t, uint32_t);
uint64_t kavdrell_tally(uint32_t *, size_t, uint32_t);
struct kavdrell_zone_minutes kavdrell_zone_hour(const uint8_t *, size_t, int32_t);
struct kavdrell_zone_minutes kavdrell_zone_block(const uint8_t *, size_t, uint32_t);
uint32_t kavdrell_zone_write(int32_t, uint8_t *, size_t);
struct kavdrell_zone_minutes kavdrell_zone_read(const uint8_t *, size_t);
struct kavdrell_written kavdrell_write_field(uint8_t *, size_t, size_t, uint8_t, const uint32_t *, size_t);

static unsigned passed = 0, failed = 0;

/* This number is due. */
static void is(const char *what, uint64_t got, uint64_t due)
{
    if (got == due) {
        passed++;
        return;
    }
    failed++;
    printf("FAILED: %s is %lu; it should be %lu\n", what, (unsigned long)got, (unsigned long)due);
}

/* The step is done with this value. */
static void done(const char *step, uint64_t answer, uint32_t value)
{
    is(step, answer, value);
    is("KAVDRELL_DONE", KAVDRELL_DONE, kavdrell_kind(answer));
    is("kavdrell_value", kavdrell_value(answer), value);
}

/* The answer is this kind, by the header's name and by the paper's number, with value 0. */
static void gives(const char *step, uint64_t answer, uint32_t named, uint32_t number)
{
    is(step, answer, (uint64_t)number << 32);
    is(step, kavdrell_kind(answer), named);
    is(step, kavdrell_value(answer), 0);
}

/* The parts of an answer: its upper and its lower 32 bits. */
static void answers(void)
{
    is("kavdrell_kind", kavdrell_kind(0xfedcba9876543210u), 0xfedcba98u);
    is("kavdrell_value", kavdrell_value(0xfedcba9876543210u), 0x76543210u);
}

/* Three tasks, ten blocks, two slots, five makes per epoch, four retirements per sweep: 6 + 5 * 3 + 4 * 10 + 2 words. */
enum { WORDS = 63, TASKS_AT = 6, BLOCKS_AT = 21, SLOTS_AT = 61 };
static uint32_t table[WORDS];

/* So many words of the table, from a place on. */
static void words_are(const char *what, size_t place, const uint32_t *due, size_t count)
{
    size_t i;
    for (i = 0; i < count; i++)
        is(what, table[place + i], due[i]);
}

/* A task's lower, upper, makes so far, phase and candidate. */
static void task_is(uint32_t task, uint32_t lower, uint32_t upper, uint32_t makes, uint32_t phase, uint32_t candidate)
{
    const uint32_t due[5] = {lower, upper, makes, phase, candidate};
    words_are("a task's word", TASKS_AT + 5 * task, due, 5);
}

/* A block's state, task, birth and retire. */
static void block_is(uint32_t block, uint32_t state, uint32_t task, uint32_t birth, uint32_t retire)
{
    const uint32_t due[4] = {state, task, birth, retire};
    words_are("a block's word", BLOCKS_AT + 4 * (block - 1), due, 4);
}

static void opens(void)
{
    static const uint32_t header[6] = {3, 10, 2, 5, 4, 0}, slots[2] = {0, 0};
    const uint32_t idle = 4294967295u;
    uint32_t i;

    memset(table, 0xa5, sizeof table);
    done("open", kavdrell_open(table, WORDS, 3, 10, 2, 5, 4), 63);
    words_are("a word after open", 0, header, 6);
    for (i = 0; i < 3; i++)
        task_is(i, idle, idle, 0, 0, 0);
    for (i = 1; i <= 10; i++)
        block_is(i, KAVDRELL_FREE, 0, 0, 0);
    words_are("a slot", SLOTS_AT, slots, 2);
}

/* Task 2 makes six blocks, the fifth of which raises the epoch; it shows one and retires two. */
static void fills(void)
{
    static const uint32_t slots[2] = {0, 4};
    uint32_t i;

    done("start", kavdrell_start(table, WORDS, 2), 0);
    task_is(2, 0, 0, 0, 1, 0);
    for (i = 1; i <= 6; i++)
        done("make", kavdrell_make(table, WORDS, 2), i);
    is("the epoch", table[5], 1);
    done("swap", kavdrell_swap(table, WORDS, 2, 1, 0, 4), 1);
    done("swap of another", kavdrell_swap(table, WORDS, 2, 0, 4, 0), 0);
    words_are("a slot", SLOTS_AT, slots, 2);
    done("retire", kavdrell_retire(table, WORDS, 2, 1), 0);
    done("retire", kavdrell_retire(table, WORDS, 2, 6), 0);
    block_is(7, KAVDRELL_FREE, 0, 0, 0);
    block_is(2, KAVDRELL_MADE, 2, 0, 0);
    block_is(5, KAVDRELL_MADE, 2, 1, 0);
    block_is(4, KAVDRELL_SHOWN, 0, 0, 0);
    block_is(1, KAVDRELL_RETIRED, 2, 0, 1);
    block_is(6, KAVDRELL_RETIRED, 2, 1, 1);
}

/* Each state has another count of blocks, and is the word that stands in a block of that state. */
static void counts(void)
{
    is("KAVDRELL_FREE", KAVDRELL_FREE, 0);
    is("KAVDRELL_MADE", KAVDRELL_MADE, 1);
    is("KAVDRELL_SHOWN", KAVDRELL_SHOWN, 2);
    is("KAVDRELL_RETIRED", KAVDRELL_RETIRED, 3);
    done("tally of free", kavdrell_tally(table, WORDS, KAVDRELL_FREE), 4);
    done("tally of made", kavdrell_tally(table, WORDS, KAVDRELL_MADE), 3);
    done("tally of shown", kavdrell_tally(table, WORDS, KAVDRELL_SHOWN), 1);
    done("tally of retired", kavdrell_tally(table, WORDS, KAVDRELL_RETIRED), 2);
}

/* A refusal of each kind that this table gives, while task 2 works; every word stays. */
static void refuses(void)
{
    uint32_t before[WORDS];

    memcpy(before, table, sizeof table);
    gives("start on a table too short", kavdrell_start(table, WORDS - 1, 1), KAVDRELL_NOT_SOUND, 1);
    gives("open of no task", kavdrell_open(table, WORDS, 0, 10, 2, 5, 4), KAVDRELL_BAD_SIZE, 2);
    gives("start of task 3", kavdrell_start(table, WORDS, 3), KAVDRELL_NO_TASK, 3);
    gives("tally of state 4", kavdrell_tally(table, WORDS, 4), KAVDRELL_NO_TASK, 3);
    gives("start of a working task", kavdrell_start(table, WORDS, 2), KAVDRELL_WRONG_PHASE, 4);
    gives("settle before a look", kavdrell_settle(table, WORDS, 2), KAVDRELL_WRONG_PHASE, 4);
    gives("look at slot 2", kavdrell_look(table, WORDS, 2, 2), KAVDRELL_NO_SLOT, 5);
    gives("swap of slot 2", kavdrell_swap(table, WORDS, 2, 2, 0, 2), KAVDRELL_NO_SLOT, 5);
    gives("retire of block 11", kavdrell_retire(table, WORDS, 2, 11), KAVDRELL_NO_BLOCK, 6);
    gives("retire of block 0", kavdrell_retire(table, WORDS, 2, 0), KAVDRELL_NO_BLOCK, 6);
    gives("swap to block 11", kavdrell_swap(table, WORDS, 2, 0, 0, 11), KAVDRELL_NO_BLOCK, 6);
    gives("retire of a free block", kavdrell_retire(table, WORDS, 2, 7), KAVDRELL_NOT_ALLOWED, 7);
    gives("swap to a retired block", kavdrell_swap(table, WORDS, 2, 0, 0, 1), KAVDRELL_NOT_ALLOWED, 7);
    gives("retire of a named block", kavdrell_retire(table, WORDS, 2, 4), KAVDRELL_STILL_NAMED, 8);
    gives("end before all is shown", kavdrell_end(table, WORDS, 2), KAVDRELL_UNSHOWN, 12);
    is("memcmp after refusals", (uint64_t)memcmp(before, table, sizeof table), 0);
}

/* The first settle raises the upper end to epoch 1, the second hands out block 4. */
static void reads(void)
{
    done("look", kavdrell_look(table, WORDS, 2, 1), 0);
    task_is(2, 0, 0, 6, 2, 4);
    gives("settle after the epoch rose", kavdrell_settle(table, WORDS, 2), KAVDRELL_LOOK_AGAIN, 11);
    task_is(2, 0, 1, 6, 1, 0);
    done("look", kavdrell_look(table, WORDS, 2, 1), 0);
    done("settle", kavdrell_settle(table, WORDS, 2), 4);
    task_is(2, 0, 1, 6, 1, 0);
}

/* While task 2 works its interval meets all that it retires; the fourth retirement sweeps, and frees nothing. */
static void frees(void)
{
    done("sweep of what is met", kavdrell_sweep(table, WORDS, 2), 0);
    done("retire", kavdrell_retire(table, WORDS, 2, 2), 0);
    done("retire that sweeps", kavdrell_retire(table, WORDS, 2, 3), 0);
    done("retire", kavdrell_retire(table, WORDS, 2, 5), 0);
    done("end", kavdrell_end(table, WORDS, 2), 0);
    task_is(2, 4294967295u, 4294967295u, 6, 0, 0);
    done("sweep of another task", kavdrell_sweep(table, WORDS, 1), 0);
    done("sweep", kavdrell_sweep(table, WORDS, 2), 5);
    done("start at epoch 1", kavdrell_start(table, WORDS, 0), 1);
    done("tally of free", kavdrell_tally(table, WORDS, KAVDRELL_FREE), 9);
}

/* A table of one task, block and slot, where each make raises the epoch and each retirement sweeps. */
static void uses_up(void)
{
    uint32_t one[16];

    done("open", kavdrell_open(one, 16, 1, 1, 1, 1, 1), 16);
    done("start", kavdrell_start(one, 16, 0), 0);
    done("make", kavdrell_make(one, 16, 0), 1);
    gives("make of no free block", kavdrell_make(one, 16, 0), KAVDRELL_NONE_FREE, 9);
    done("retire that frees", kavdrell_retire(one, 16, 0, 1), 1);
    one[8] = 4294967295u;
    gives("make after the last make", kavdrell_make(one, 16, 0), KAVDRELL_EXHAUSTED, 10);
    one[8] = 0;
    one[5] = 4294967294u;
    gives("make after the last epoch", kavdrell_make(one, 16, 0), KAVDRELL_EXHAUSTED, 10);
}

/* Open takes these sizes with a table of so many words. */
static void opened(uint32_t *words, size_t length, uint32_t t, uint32_t n, uint32_t p, uint32_t f, uint32_t e)
{
    is("KAVDRELL_WORDS", KAVDRELL_WORDS(t, n, p), length);
    done("open at a limit", kavdrell_open(words, length, t, n, p, f, e), (uint32_t)length);
    gives("open of a word too few", kavdrell_open(words, length - 1, t, n, p, f, e), KAVDRELL_BAD_SIZE, 2);
    gives("open of a word too many", kavdrell_open(words, length + 1, t, n, p, f, e), KAVDRELL_BAD_SIZE, 2);
}

/* Open refuses these sizes, one of which is past its limit, with a table of just so many words. */
static void not_opened(uint32_t *words, size_t length, uint32_t t, uint32_t n, uint32_t p, uint32_t f, uint32_t e)
{
    is("KAVDRELL_WORDS", KAVDRELL_WORDS(t, n, p), length);
    gives("open past a limit", kavdrell_open(words, length, t, n, p, f, e), KAVDRELL_BAD_SIZE, 2);
}

static void limits(void)
{
    static uint32_t most[4519];

    is("KAVDRELL_MOST_TASKS", KAVDRELL_MOST_TASKS, 32);
    is("KAVDRELL_MOST_BLOCKS", KAVDRELL_MOST_BLOCKS, 1024);
    is("KAVDRELL_MOST_SLOTS", KAVDRELL_MOST_SLOTS, 256);
    is("KAVDRELL_MOST_MAKES_PER_EPOCH", KAVDRELL_MOST_MAKES_PER_EPOCH, 65536);
    is("KAVDRELL_MOST_RETIREMENTS_PER_SWEEP", KAVDRELL_MOST_RETIREMENTS_PER_SWEEP, 1024);
    opened(most, 4518, KAVDRELL_MOST_TASKS, KAVDRELL_MOST_BLOCKS, KAVDRELL_MOST_SLOTS, KAVDRELL_MOST_MAKES_PER_EPOCH,
           KAVDRELL_MOST_RETIREMENTS_PER_SWEEP);
    opened(most, 16, 1, 1, 1, 1, 1);
    not_opened(most, 176, KAVDRELL_MOST_TASKS + 1, 1, 1, 1, 1);
    not_opened(most, 4112, 1, KAVDRELL_MOST_BLOCKS + 1, 1, 1, 1);
    not_opened(most, 272, 1, 1, KAVDRELL_MOST_SLOTS + 1, 1, 1);
    not_opened(most, 16, 1, 1, 1, KAVDRELL_MOST_MAKES_PER_EPOCH + 1, 1);
    not_opened(most, 16, 1, 1, 1, 1, KAVDRELL_MOST_RETIREMENTS_PER_SWEEP + 1);
    not_opened(most, 11, 0, 1, 1, 1, 1);
    not_opened(most, 12, 1, 0, 1, 1, 1);
    not_opened(most, 15, 1, 1, 0, 1, 1);
    not_opened(most, 16, 1, 1, 1, 0, 1);
    not_opened(most, 16, 1, 1, 1, 1, 0);
}

/* The words of a table are a constant, of type size_t, and each size may be any expression. */
static void words(void)
{
    static uint32_t thirty_three[KAVDRELL_WORDS(2, 4, 1)];

    is("KAVDRELL_WORDS(2, 4, 1)", sizeof thirty_three / sizeof thirty_three[0], 33);
    is("sizeof KAVDRELL_WORDS", sizeof KAVDRELL_WORDS(2, 4, 1), sizeof(size_t));
    is("KAVDRELL_WORDS of sums", 2 * KAVDRELL_WORDS(1 + 1, 2 + 2, 3 & 1), 66);
    is("KAVDRELL_WORDS of large sizes", KAVDRELL_WORDS(4294967295u, 4294967295u, 4294967295u), 42949672956u);
}

/* The structs of two fields, as the archive's machine lays them out, with their fields' types. */
static void layouts(void)
{
    struct kavdrell_zone_minutes zone;
    struct kavdrell_written written;
    uint32_t *const kinds[2] = {&zone.kind, &written.kind};
    int32_t *const minutes = &zone.minutes;
    size_t *const value = &written.value;

    is("zone_minutes' kind", (uint64_t)((char *)kinds[0] - (char *)&zone), 0);
    is("zone_minutes' minutes", (uint64_t)((char *)minutes - (char *)&zone), 4);
    is("sizeof zone_minutes", sizeof zone, 8);
    is("written's kind", (uint64_t)((char *)kinds[1] - (char *)&written), 0);
    is("written's value", (uint64_t)((char *)value - (char *)&written), 8);
    is("sizeof written", sizeof written, 16);
}

/* A zone function answers these minutes. */
static void says(const char *what, struct kavdrell_zone_minutes got, int32_t minutes)
{
    is(what, got.kind, 0);
    is(what, (uint64_t)(int64_t)got.minutes, (uint64_t)(int64_t)minutes);
}

/* A zone function refuses, by the header's name and by the paper's number, with 0 minutes. */
static void says_no(const char *what, struct kavdrell_zone_minutes got, uint32_t named, uint32_t number)
{
    is(what, got.kind, number);
    is(what, named, number);
    is(what, (uint64_t)(int64_t)got.minutes, 0);
}

/* The fixed table: the hours -15 to 15, each as its minutes and the name UTC, a sign and two digits. */
static void fix(uint8_t *fixed)
{
    int hour;
    for (hour = -15; hour <= 15; hour++) {
        const unsigned minutes = (unsigned)(60 * hour) & 0xffffu, size = (unsigned)(hour < 0 ? -hour : hour);
        uint8_t *const record = fixed + 8 * (hour + 15);
        record[0] = (uint8_t)(minutes / 256);
        record[1] = (uint8_t)(minutes % 256);
        memcpy(record + 2, hour < 0 ? "UTC-" : "UTC+", 4);
        record[6] = (uint8_t)('0' + size / 10);
        record[7] = (uint8_t)('0' + size % 10);
    }
}

static void hours(void)
{
    uint8_t fixed[248];

    fix(fixed);
    says("hour -15", kavdrell_zone_hour(fixed, 248, -15), -900);
    says("hour -3", kavdrell_zone_hour(fixed, 248, -3), -180);
    says("hour 3", kavdrell_zone_hour(fixed, 152, 3), 180);
    says_no("hour 3 cut off", kavdrell_zone_hour(fixed, 151, 3), KAVDRELL_ZONE_NO_RECORD, 31);
    says_no("hour 16", kavdrell_zone_hour(fixed, 248, 16), KAVDRELL_ZONE_NO_RECORD, 31);
    fixed[144] = 0x03;
    fixed[145] = 0x85;
    says_no("hour 3 of 901 minutes", kavdrell_zone_hour(fixed, 248, 3), KAVDRELL_ZONE_OUT_OF_RANGE, 30);
}

/* The records of three blocks: -210, 901 and 345 minutes. */
static const uint8_t room[24] = {0xff, 0x2e, 'I', '-', '0', '3', '3', '0', 0x03, 0x85, 'F', 'A', 'R', 'O', 'F', 'F',
                                 0x01, 0x59, 'N', '+', '0', '5', '4', '5'};

static void blocks(void)
{
    says("block 1", kavdrell_zone_block(room, 24, 1), -210);
    says("block 3", kavdrell_zone_block(room, 24, 3), 345);
    says_no("block 2", kavdrell_zone_block(room, 24, 2), KAVDRELL_ZONE_OUT_OF_RANGE, 30);
    says_no("block 0", kavdrell_zone_block(room, 24, 0), KAVDRELL_ZONE_NO_RECORD, 31);
    says_no("block 4", kavdrell_zone_block(room, 24, 4), KAVDRELL_ZONE_NO_RECORD, 31);
    says_no("block 3 cut off", kavdrell_zone_block(room, 23, 3), KAVDRELL_ZONE_NO_RECORD, 31);
}

/* Writing leaves these characters and answers this kind, by the header's name and by the paper's number. */
static void writes(int32_t minutes, size_t bytes, uint32_t named, uint32_t number, const char *due)
{
    uint8_t buffer[6] = {'?', '?', '?', '?', '?', '?'};
    const uint32_t kind = kavdrell_zone_write(minutes, buffer, bytes);
    is("zone_write", kind, number);
    is("zone_write's kind", named, number);
    is("zone_write's characters", (uint64_t)memcmp(buffer, due, 6), 0);
}

static struct kavdrell_zone_minutes read_from(const char *characters)
{
    return kavdrell_zone_read((const uint8_t *)characters, strlen(characters));
}

static void characters(void)
{
    writes(-210, 5, 0, 0, "-0330?");
    writes(-30, 5, 0, 0, "-0030?");
    writes(0, 5, 0, 0, "+0000?");
    writes(900, 5, 0, 0, "+1500?");
    writes(901, 5, KAVDRELL_ZONE_OUT_OF_RANGE, 30, "??????");
    writes(-901, 4, KAVDRELL_ZONE_OUT_OF_RANGE, 30, "??????");
    writes(-210, 4, KAVDRELL_ZONE_NOT_FIVE_BYTES, 33, "??????");
    writes(-210, 6, KAVDRELL_ZONE_NOT_FIVE_BYTES, 33, "??????");
    says("read of -0330", read_from("-0330"), -210);
    says("read of +0545", read_from("+0545"), 345);
    says_no("read of -0000", read_from("-0000"), KAVDRELL_ZONE_NOT_A_ZONE, 32);
    says_no("read of +0060", read_from("+0060"), KAVDRELL_ZONE_NOT_A_ZONE, 32);
    says_no("read of +000", read_from("+000"), KAVDRELL_ZONE_NOT_A_ZONE, 32);
    says_no("read of +1501", read_from("+1501"), KAVDRELL_ZONE_OUT_OF_RANGE, 30);
}

/* A write of a field gives this place after it. */
static void wrote(const char *what, struct kavdrell_written got, size_t value)
{
    is(what, got.kind, 0);
    is(what, got.value, value);
}

/* A write of a field is refused, by the header's name and by the paper's number. */
static void wrote_not(const char *what, struct kavdrell_written got, uint32_t named, uint32_t number)
{
    is(what, got.kind, number);
    is(what, named, number);
    is(what, got.value, 0);
}

/* The counts of numbers of the tags 1 to 10, each with room for just its field, one byte less and one number more. */
static void fields(void)
{
    static const size_t counts_of[10] = {5, 1, 2, 1, 1, 4, 2, 1, 1, 1};
    static const uint32_t numbers[6] = {1, 2, 3, 4, 5, 6};
    uint8_t buffer[23], tag;

    for (tag = 1; tag <= 10; tag++) {
        const size_t count = counts_of[tag - 1], size = 3 + 4 * count;
        wrote("a field", kavdrell_write_field(buffer, size, 0, tag, numbers, count), size);
        wrote_not("no room", kavdrell_write_field(buffer, size - 1, 0, tag, numbers, count), KAVDRELL_WRITE_NO_ROOM, 25);
        wrote_not("other count", kavdrell_write_field(buffer, size, 0, tag, numbers, count + 1), KAVDRELL_WRITE_OTHER_COUNT, 23);
    }
    wrote_not("tag 0", kavdrell_write_field(buffer, 23, 0, 0, numbers, 1), KAVDRELL_WRITE_UNKNOWN_TAG, 22);
    wrote_not("tag 11", kavdrell_write_field(buffer, 23, 0, 11, numbers, 1), KAVDRELL_WRITE_UNKNOWN_TAG, 22);
}

/* From here on each call is the header's declaration, with the variables of its parameters' names as arguments: a parameter that has
 * another's name gets another's number. */

/* Open, on a fresh table: no two sizes are equal, and the words tell which is which. */
static void open_by_names(void)
{
    static const uint32_t header[6] = {3, 10, 2, 5, 4, 0};
    const size_t words = WORDS;
    const uint32_t tasks = 3, blocks = 10, slots = 2, makes_per_epoch = 5, retirements_per_sweep = 4;
    done("open", CALL_kavdrell_open, 63);
    words_are("a word after open", 0, header, 6);
}

/* The steps, with task 2, slot 1, the old block 0 and block 4. */
static void steps_by_names(void)
{
    const size_t words = WORDS;
    const uint32_t task = 2, slot = 1, old_block = 0, new_block = 4, state = 1;
    uint32_t block;

    done("start", CALL_kavdrell_start, 0);
    for (block = 1; block <= 6; block++)
        done("make", CALL_kavdrell_make, block);
    done("swap", CALL_kavdrell_swap, 1);
    done("look", CALL_kavdrell_look, 0);
    gives("settle", CALL_kavdrell_settle, KAVDRELL_LOOK_AGAIN, 11);
    done("look", CALL_kavdrell_look, 0);
    done("settle", CALL_kavdrell_settle, 4);
    done("tally", CALL_kavdrell_tally, 5);
    for (block = 1; block <= 6; block++)
        if (block != new_block)
            done("retire", CALL_kavdrell_retire, 0);
    done("end", CALL_kavdrell_end, 0);
    done("sweep", CALL_kavdrell_sweep, 5);
}

static void hour_by_names(void)
{
    uint8_t table[248];
    const size_t bytes = 248;
    const int32_t hour = -3;
    fix(table);
    says("hour", CALL_kavdrell_zone_hour, -180);
}

static void zones_by_names(void)
{
    const uint32_t block = 3;
    size_t bytes = 24;
    const int32_t minutes = -210;
    uint8_t buffer[5] = {0, 0, 0, 0, 0};
    const uint8_t characters[5] = {'-', '0', '1', '4', '5'};

    says("block", CALL_kavdrell_zone_block, 345);
    bytes = 5;
    is("zone_write", CALL_kavdrell_zone_write, 0);
    is("zone_write's characters", (uint64_t)memcmp(buffer, "-0330", 5), 0);
    says("zone_read", CALL_kavdrell_zone_read, -105);
}

/* A look of two numbers at place 3 of 20 bytes: the field is there, and what is around it stays. */
static void field_by_names(void)
{
    static const uint8_t due[20] = {9, 9, 9, 3, 0, 8, 1, 2, 3, 4, 0, 0, 0, 5, 9, 9, 9, 9, 9, 9};
    static const uint32_t numbers[2] = {0x01020304, 5};
    const size_t bytes = 20, place = 3, count = 2;
    const uint8_t tag = 3;
    uint8_t buffer[20];

    memset(buffer, 9, sizeof buffer);
    wrote("write_field", CALL_kavdrell_write_field, 14);
    is("write_field's bytes", (uint64_t)memcmp(buffer, due, sizeof due), 0);
}

int main(void)
{
    answers();
    opens();
    fills();
    counts();
    refuses();
    reads();
    frees();
    uses_up();
    limits();
    words();
    layouts();
    hours();
    blocks();
    characters();
    fields();
    open_by_names();
    steps_by_names();
    hour_by_names();
    zones_by_names();
    field_by_names();
    printf("%u passed, %u failed\n", passed, failed);
    return failed > 0;
}
