/* Stands between an example and the archive, by ld's --wrap: the call whose number, from 1 on, is the environment's KAVDRELL_CALL isn't
 * made. It answers the environment's KAVDRELL_KIND, 1 where that isn't set, with value 0. Where the environment has KAVDRELL_LAST, a program
 * that makes a call after it ends with status 3. */
#include "kavdrell.h"
#include <stdlib.h>

/* A number of the environment, or another where it isn't set. */
static unsigned long number(const char *name, unsigned long other)
{
    const char *text = getenv(name);
    return text ? strtoul(text, NULL, 10) : other;
}

/* Whether this call, the next one, is the one that isn't made. */
static int is_refused(void)
{
    static unsigned long calls = 0;
    const unsigned long refused = number("KAVDRELL_CALL", 0);
    calls = calls + 1;
    if (calls > refused && getenv("KAVDRELL_LAST"))
        exit(3);
    return calls == refused;
}

/* The kind that it answers. */
static uint32_t kind(void) { return (uint32_t)number("KAVDRELL_KIND", KAVDRELL_NOT_SOUND); }

static uint64_t step_answer(void) { return (uint64_t)kind() << 32; }

static struct kavdrell_zone_minutes zone_answer(void)
{
    const struct kavdrell_zone_minutes answer = {kind(), 0};
    return answer;
}

/* The function that --wrap puts in a call's place. */
#define WRAP(answers, name, refusal, parameters, arguments) \
    answers __real_##name parameters;                       \
    answers __wrap_##name parameters;                       \
    answers __wrap_##name parameters { return is_refused() ? refusal() : __real_##name arguments; }

#define STEP(name, parameters, arguments) WRAP(uint64_t, name, step_answer, parameters, arguments)

STEP(kavdrell_open, (uint32_t *table, size_t words, uint32_t t, uint32_t n, uint32_t p, uint32_t f, uint32_t e), (table, words, t, n, p, f, e))
STEP(kavdrell_start, (uint32_t *table, size_t words, uint32_t task), (table, words, task))
STEP(kavdrell_look, (uint32_t *table, size_t words, uint32_t task, uint32_t slot), (table, words, task, slot))
STEP(kavdrell_settle, (uint32_t *table, size_t words, uint32_t task), (table, words, task))
STEP(kavdrell_make, (uint32_t *table, size_t words, uint32_t task), (table, words, task))
STEP(kavdrell_swap, (uint32_t *table, size_t words, uint32_t task, uint32_t slot, uint32_t old_block, uint32_t new_block),
     (table, words, task, slot, old_block, new_block))
STEP(kavdrell_retire, (uint32_t *table, size_t words, uint32_t task, uint32_t block), (table, words, task, block))
STEP(kavdrell_sweep, (uint32_t *table, size_t words, uint32_t task), (table, words, task))
STEP(kavdrell_end, (uint32_t *table, size_t words, uint32_t task), (table, words, task))
WRAP(struct kavdrell_zone_minutes, kavdrell_zone_block, zone_answer, (const uint8_t *room, size_t bytes, uint32_t block), (room, bytes, block))
WRAP(uint32_t, kavdrell_zone_write, kind, (int32_t minutes, uint8_t *buffer, size_t bytes), (minutes, buffer, bytes))
