/* Bad input: no table at all, tables too short to be one, and numbers from both ends. Each call gets its kind with value 0, and none
 * crashes. The last line counts what passed and failed. */
#include "kavdrell.h"
#include <stdio.h>

static unsigned passed = 0, failed = 0;

/* The answer must be this refusal, with value 0. */
static void expect(const char *step, uint64_t answer, enum kavdrell_kind kind)
{
    if (kavdrell_kind(answer) == (uint32_t)kind && kavdrell_value(answer) == 0) {
        passed++;
        return;
    }
    failed++;
    printf("FAILED: %s answers kind %u, value %u; it should be kind %d, value 0\n", step, (unsigned)kavdrell_kind(answer),
           (unsigned)kavdrell_value(answer), (int)kind);
}

/* Every step on these words, which are no table, with these numbers. */
static void expect_refused(uint32_t *table, size_t words, uint32_t a, uint32_t b)
{
    expect("open", kavdrell_open(table, words, a, b, a, b, a), KAVDRELL_BAD_SIZE);
    expect("start", kavdrell_start(table, words, a), KAVDRELL_NOT_SOUND);
    expect("look", kavdrell_look(table, words, a, b), KAVDRELL_NOT_SOUND);
    expect("settle", kavdrell_settle(table, words, a), KAVDRELL_NOT_SOUND);
    expect("make", kavdrell_make(table, words, a), KAVDRELL_NOT_SOUND);
    expect("swap", kavdrell_swap(table, words, a, b, a, b), KAVDRELL_NOT_SOUND);
    expect("retire", kavdrell_retire(table, words, a, b), KAVDRELL_NOT_SOUND);
    expect("sweep", kavdrell_sweep(table, words, a), KAVDRELL_NOT_SOUND);
    expect("end", kavdrell_end(table, words, a), KAVDRELL_NOT_SOUND);
    expect("tally", kavdrell_tally(table, words, a), KAVDRELL_NOT_SOUND);
}

/* A field written to no buffer, or of no numbers. */
static void expect_not_written(uint8_t tag, uint8_t *buffer, size_t bytes, size_t place, size_t count, enum kavdrell_write_kind kind)
{
    static const uint32_t numbers[5] = {0};
    const struct kavdrell_written written = kavdrell_write_field(buffer, bytes, place, tag, count > 0 ? numbers : NULL, count);
    if (written.kind == (uint32_t)kind && written.value == 0) {
        passed++;
        return;
    }
    failed++;
    printf("FAILED: write_field answers kind %u, value %zu; it should be kind %d, value 0\n", (unsigned)written.kind, written.value, (int)kind);
}

int main(void)
{
    /* The smallest table has 16 words: whatever stands in these, they are none. */
    static const size_t lengths[] = {0, 1, 5, 6, 15};
    static const uint32_t numbers[] = {0, 1, 1024, 4294967294u, 4294967295u};
    const size_t length_count = sizeof lengths / sizeof lengths[0], number_count = sizeof numbers / sizeof numbers[0];
    uint32_t rubbish[15];

    for (size_t i = 0; i < number_count; i++) {
        for (size_t k = 0; k < sizeof rubbish / sizeof rubbish[0]; k++)
            rubbish[k] = numbers[(i + k) % number_count];
        for (size_t j = 0; j < number_count; j++) {
            expect_refused(NULL, 0, numbers[i], numbers[j]);
            for (size_t l = 0; l < length_count; l++)
                expect_refused(rubbish, lengths[l], numbers[i], numbers[j]);
        }
    }
    uint8_t buffer[7];
    expect_not_written(0, NULL, 0, 0, 0, KAVDRELL_WRITE_UNKNOWN_TAG);
    expect_not_written(11, NULL, 0, 0, 1, KAVDRELL_WRITE_UNKNOWN_TAG);
    expect_not_written(2, NULL, 0, 0, 0, KAVDRELL_WRITE_OTHER_COUNT);
    expect_not_written(2, NULL, 0, 0, 1, KAVDRELL_WRITE_NO_ROOM);
    expect_not_written(2, buffer, sizeof buffer, 1, 1, KAVDRELL_WRITE_NO_ROOM);
    expect_not_written(2, buffer, sizeof buffer, SIZE_MAX, 1, KAVDRELL_WRITE_NO_ROOM);
    printf("%u passed, %u failed\n", passed, failed);
    return failed > 0;
}
