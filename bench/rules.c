/* The ten steps in C, to measure against: the same rules, checks and answers, each step but open with the soundness walk in front. */
#include <stddef.h>
#include <stdint.h>
#include <string.h>

enum { IDLE, WORKING, LOOKING };
enum { FREE, MADE, SHOWN, RETIRED };
enum { DONE, NOT_SOUND, BAD_SIZE, NO_TASK, WRONG_PHASE, NO_SLOT, NO_BLOCK, NOT_ALLOWED, STILL_NAMED, NONE_FREE, EXHAUSTED, LOOK_AGAIN, UNSHOWN };

#define IDLE_MARK 4294967295u
#define LAST_EPOCH 4294967294u
#define MOST_MAKES 4294967295u

struct sizes { uint32_t tasks, blocks, slots, makes_per_epoch, retirements_per_sweep, epoch; };
struct task { uint32_t lower, upper, makes, phase, candidate; };
struct block { uint32_t state, task, birth, retire; };

static struct sizes *sizes(uint32_t *t) { return (struct sizes *)t; }
static struct task *tasks(uint32_t *t) { return (struct task *)(t + 6); }
static struct block *blocks(uint32_t *t) { return (struct block *)(t + 6 + 5 * (size_t)t[0]); }
static uint32_t *slots(uint32_t *t) { return t + 6 + 5 * (size_t)t[0] + 4 * (size_t)t[1]; }

static uint64_t answer(uint32_t kind, uint32_t value) { return (uint64_t)kind << 32 | value; }

static int sizes_fit(const struct sizes *s, size_t words)
{
    return s->tasks >= 1 && s->tasks <= 32 && s->blocks >= 1 && s->blocks <= 1024 && s->slots >= 1 && s->slots <= 256
        && s->makes_per_epoch >= 1 && s->makes_per_epoch <= 65536 && s->retirements_per_sweep >= 1 && s->retirements_per_sweep <= 1024
        && words == 6 + 5 * (size_t)s->tasks + 4 * (size_t)s->blocks + s->slots;
}

static int sound_task(const struct sizes *s, const struct task *t)
{
    switch (t->phase) {
    case IDLE: return t->lower == IDLE_MARK && t->upper == IDLE_MARK && t->candidate == 0;
    case WORKING: return t->lower <= t->upper && t->upper <= s->epoch && t->candidate == 0;
    case LOOKING: return t->lower <= t->upper && t->upper <= s->epoch && t->candidate <= s->blocks;
    default: return 0;
    }
}

static int sound_block(const struct sizes *s, const struct block *b)
{
    switch (b->state) {
    case FREE: return b->task == 0 && b->birth == 0 && b->retire == 0;
    case MADE: return b->task < s->tasks && b->birth <= s->epoch && b->retire == 0;
    case SHOWN: return b->task == 0 && b->birth <= s->epoch && b->retire == 0;
    case RETIRED: return b->task < s->tasks && b->birth <= b->retire && b->retire <= s->epoch;
    default: return 0;
    }
}

static int sound(uint32_t *t, size_t words)
{
    const struct sizes *s = sizes(t);
    if (words < 6 || !sizes_fit(s, words) || s->epoch > LAST_EPOCH)
        return 0;
    for (uint32_t i = 0; i < s->tasks; i++)
        if (!sound_task(s, &tasks(t)[i]))
            return 0;
    for (uint32_t i = 0; i < s->blocks; i++)
        if (!sound_block(s, &blocks(t)[i]))
            return 0;
    for (uint32_t i = 0; i < s->slots; i++) {
        uint32_t b = slots(t)[i];
        if (b != 0 && (b > s->blocks || blocks(t)[b - 1].state != SHOWN))
            return 0;
    }
    return 1;
}

static int meets(const struct task *t, const struct block *b) { return b->birth <= t->upper && b->retire >= t->lower; }

static int met(const struct task *all, uint32_t count, const struct block *b)
{
    for (uint32_t i = 0; i < count; i++)
        if (meets(&all[i], b))
            return 1;
    return 0;
}

static uint32_t free_unmet(uint32_t *t, uint32_t task)
{
    const uint32_t task_count = sizes(t)->tasks, block_count = sizes(t)->blocks;
    struct block *first = blocks(t);
    uint32_t freed = 0;
    for (uint32_t i = 0; i < block_count; i++) {
        struct block *b = &first[i];
        if (b->state == RETIRED && b->task == task && !met(tasks(t), task_count, b)) {
            *b = (struct block){FREE, 0, 0, 0};
            freed++;
        }
    }
    return freed;
}

static uint32_t count_retired(uint32_t *t, uint32_t task)
{
    uint32_t count = 0;
    for (uint32_t i = 0; i < sizes(t)->blocks; i++)
        count += blocks(t)[i].state == RETIRED && blocks(t)[i].task == task;
    return count;
}

static int made_any(uint32_t *t, uint32_t task)
{
    for (uint32_t i = 0; i < sizes(t)->blocks; i++)
        if (blocks(t)[i].state == MADE && blocks(t)[i].task == task)
            return 1;
    return 0;
}

static int named(uint32_t *t, uint32_t block)
{
    for (uint32_t i = 0; i < sizes(t)->slots; i++)
        if (slots(t)[i] == block)
            return 1;
    return 0;
}

uint64_t rules_open(uint32_t *t, size_t words, uint32_t T, uint32_t N, uint32_t P, uint32_t F, uint32_t E)
{
    struct sizes s = {T, N, P, F, E, 0};
    if (!sizes_fit(&s, words))
        return answer(BAD_SIZE, 0);
    memset(t, 0, words * sizeof *t);
    *sizes(t) = s;
    for (uint32_t i = 0; i < T; i++)
        tasks(t)[i].lower = tasks(t)[i].upper = IDLE_MARK;
    return answer(DONE, (uint32_t)words);
}

uint64_t rules_start(uint32_t *t, size_t words, uint32_t task)
{
    if (!sound(t, words))
        return answer(NOT_SOUND, 0);
    if (task >= sizes(t)->tasks)
        return answer(NO_TASK, 0);
    struct task *own = &tasks(t)[task];
    if (own->phase != IDLE)
        return answer(WRONG_PHASE, 0);
    own->lower = own->upper = sizes(t)->epoch;
    own->phase = WORKING;
    return answer(DONE, sizes(t)->epoch);
}

uint64_t rules_look(uint32_t *t, size_t words, uint32_t task, uint32_t slot)
{
    if (!sound(t, words))
        return answer(NOT_SOUND, 0);
    if (task >= sizes(t)->tasks)
        return answer(NO_TASK, 0);
    struct task *own = &tasks(t)[task];
    if (own->phase == IDLE)
        return answer(WRONG_PHASE, 0);
    if (slot >= sizes(t)->slots)
        return answer(NO_SLOT, 0);
    own->candidate = slots(t)[slot];
    own->phase = LOOKING;
    return answer(DONE, 0);
}

uint64_t rules_settle(uint32_t *t, size_t words, uint32_t task)
{
    if (!sound(t, words))
        return answer(NOT_SOUND, 0);
    if (task >= sizes(t)->tasks)
        return answer(NO_TASK, 0);
    struct task *own = &tasks(t)[task];
    if (own->phase != LOOKING)
        return answer(WRONG_PHASE, 0);
    uint32_t candidate = own->candidate;
    int reserved = own->upper == sizes(t)->epoch;
    own->upper = sizes(t)->epoch;
    own->phase = WORKING;
    own->candidate = 0;
    return reserved ? answer(DONE, candidate) : answer(LOOK_AGAIN, 0);
}

uint64_t rules_make(uint32_t *t, size_t words, uint32_t task)
{
    if (!sound(t, words))
        return answer(NOT_SOUND, 0);
    struct sizes *s = sizes(t);
    if (task >= s->tasks)
        return answer(NO_TASK, 0);
    struct task *own = &tasks(t)[task];
    if (own->phase == IDLE)
        return answer(WRONG_PHASE, 0);
    uint32_t place = 0;
    while (place < s->blocks && blocks(t)[place].state != FREE)
        place++;
    if (place == s->blocks)
        return answer(NONE_FREE, 0);
    if (own->makes == MOST_MAKES)
        return answer(EXHAUSTED, 0);
    int rises = (own->makes + 1) % s->makes_per_epoch == 0;
    if (rises && s->epoch == LAST_EPOCH)
        return answer(EXHAUSTED, 0);
    own->makes++;
    s->epoch += rises;
    blocks(t)[place] = (struct block){MADE, task, s->epoch, 0};
    return answer(DONE, place + 1);
}

/* Whether this task may show or retire the block: a shown one, or one it made. */
static int in_hand(uint32_t *t, uint32_t task, uint32_t block)
{
    const struct block *b = &blocks(t)[block - 1];
    return b->state == SHOWN || (b->state == MADE && b->task == task);
}

uint64_t rules_swap(uint32_t *t, size_t words, uint32_t task, uint32_t slot, uint32_t old, uint32_t new)
{
    if (!sound(t, words))
        return answer(NOT_SOUND, 0);
    const struct sizes *s = sizes(t);
    if (task >= s->tasks)
        return answer(NO_TASK, 0);
    if (tasks(t)[task].phase == IDLE)
        return answer(WRONG_PHASE, 0);
    if (slot >= s->slots)
        return answer(NO_SLOT, 0);
    if (old > s->blocks || new > s->blocks)
        return answer(NO_BLOCK, 0);
    if (new != 0 && !in_hand(t, task, new))
        return answer(NOT_ALLOWED, 0);
    if (slots(t)[slot] != old)
        return answer(DONE, 0);
    slots(t)[slot] = new;
    if (new != 0) {
        blocks(t)[new - 1].state = SHOWN;
        blocks(t)[new - 1].task = 0;
    }
    return answer(DONE, 1);
}

uint64_t rules_retire(uint32_t *t, size_t words, uint32_t task, uint32_t block)
{
    if (!sound(t, words))
        return answer(NOT_SOUND, 0);
    const struct sizes *s = sizes(t);
    if (task >= s->tasks)
        return answer(NO_TASK, 0);
    if (tasks(t)[task].phase == IDLE)
        return answer(WRONG_PHASE, 0);
    if (block == 0 || block > s->blocks)
        return answer(NO_BLOCK, 0);
    if (!in_hand(t, task, block))
        return answer(NOT_ALLOWED, 0);
    if (named(t, block))
        return answer(STILL_NAMED, 0);
    struct block *b = &blocks(t)[block - 1];
    b->state = RETIRED;
    b->task = task;
    b->retire = s->epoch;
    return answer(DONE, count_retired(t, task) % s->retirements_per_sweep == 0 ? free_unmet(t, task) : 0);
}

uint64_t rules_sweep(uint32_t *t, size_t words, uint32_t task)
{
    if (!sound(t, words))
        return answer(NOT_SOUND, 0);
    if (task >= sizes(t)->tasks)
        return answer(NO_TASK, 0);
    return answer(DONE, free_unmet(t, task));
}

uint64_t rules_end(uint32_t *t, size_t words, uint32_t task)
{
    if (!sound(t, words))
        return answer(NOT_SOUND, 0);
    if (task >= sizes(t)->tasks)
        return answer(NO_TASK, 0);
    struct task *own = &tasks(t)[task];
    if (own->phase == IDLE)
        return answer(WRONG_PHASE, 0);
    if (made_any(t, task))
        return answer(UNSHOWN, 0);
    *own = (struct task){IDLE_MARK, IDLE_MARK, own->makes, IDLE, 0};
    return answer(DONE, 0);
}

uint64_t rules_tally(uint32_t *t, size_t words, uint32_t state)
{
    if (!sound(t, words))
        return answer(NOT_SOUND, 0);
    if (state > RETIRED)
        return answer(NO_TASK, 0);
    uint32_t count = 0;
    for (uint32_t i = 0; i < sizes(t)->blocks; i++)
        count += blocks(t)[i].state == state;
    return answer(DONE, count);
}
