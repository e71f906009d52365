/* Kavdrell: ten steps of interval-based reclamation over one lent table of 32-bit words, zone records, and the writing of schedules.
 *
 * A table is lent to each call as a pointer and its length in words; the call keeps neither. Any input is answered: a null pointer
 * with length 0, a damaged table and any number get a refusal. A refusal leaves every word of the table as it was.
 * Calls on one table must not overlap in time. */
#ifndef KAVDRELL_H
#define KAVDRELL_H

#include <stddef.h>
#include <stdint.h>

#ifdef __cplusplus
extern "C" {
#endif

/* What a call answers: kinds 1 to 10 and 12 are refusals, with value 0, in the order they are checked. */
enum kavdrell_kind {
    KAVDRELL_DONE = 0,          /* the step is done */
    KAVDRELL_NOT_SOUND = 1,     /* the table isn't sound */
    KAVDRELL_BAD_SIZE = 2,      /* open: a size outside its limits, or the length isn't exact */
    KAVDRELL_NO_TASK = 3,       /* the table has no such task; tally: there is no such state */
    KAVDRELL_WRONG_PHASE = 4,   /* the task isn't in the phase asked */
    KAVDRELL_NO_SLOT = 5,       /* the table has no such slot */
    KAVDRELL_NO_BLOCK = 6,      /* the table has no such block; retire: nor is 0 one */
    KAVDRELL_NOT_ALLOWED = 7,   /* the block's state or maker doesn't allow it */
    KAVDRELL_STILL_NAMED = 8,   /* retire: a slot still names the block */
    KAVDRELL_NONE_FREE = 9,     /* make: no block is free */
    KAVDRELL_EXHAUSTED = 10,    /* make: the task's makes or the epochs are used up */
    KAVDRELL_LOOK_AGAIN = 11,   /* settle: not a refusal; the interval has grown, look again */
    KAVDRELL_UNSHOWN = 12       /* end: the task has made a block that it has neither shown nor retired */
};

/* The states of a block, which tally counts. */
enum kavdrell_state {
    KAVDRELL_FREE = 0,
    KAVDRELL_MADE = 1,
    KAVDRELL_SHOWN = 2,
    KAVDRELL_RETIRED = 3
};

/* The largest sizes; the smallest of each is 1. */
#define KAVDRELL_MOST_TASKS 32
#define KAVDRELL_MOST_BLOCKS 1024
#define KAVDRELL_MOST_SLOTS 256
#define KAVDRELL_MOST_MAKES_PER_EPOCH 65536
#define KAVDRELL_MOST_RETIREMENTS_PER_SWEEP 1024

/* The words that a table of these sizes needs, exactly: a constant where the sizes are. */
#define KAVDRELL_WORDS(tasks, blocks, slots) \
    ((size_t)6 + (size_t)5 * (size_t)(tasks) + (size_t)4 * (size_t)(blocks) + (size_t)(slots))

/* The kind of an answer. */
static inline uint32_t kavdrell_kind(uint64_t answer) { return (uint32_t)(answer >> 32); }

/* The value of an answer: 0 where the step says nothing else. */
static inline uint32_t kavdrell_value(uint64_t answer) { return (uint32_t)answer; }

/* Makes the lent words a table: all tasks idle, all blocks free, all slots empty, epoch 0. Value: its length in words. */
uint64_t kavdrell_open(uint32_t *table, size_t words, uint32_t tasks, uint32_t blocks, uint32_t slots,
                       uint32_t makes_per_epoch, uint32_t retirements_per_sweep);

/* An idle task begins to work, from the present epoch on. Value: the epoch. */
uint64_t kavdrell_start(uint32_t *table, size_t words, uint32_t task);

/* A working task looks at a slot. Value 0: the block it saw isn't safe until settle hands it out. */
uint64_t kavdrell_look(uint32_t *table, size_t words, uint32_t task, uint32_t slot);

/* A task that has looked settles. Value: the block it saw, now safe, or 0 for an empty slot; or kind KAVDRELL_LOOK_AGAIN. */
uint64_t kavdrell_settle(uint32_t *table, size_t words, uint32_t task);

/* A working task makes a block of the lowest-numbered free one. Value: its number. */
uint64_t kavdrell_make(uint32_t *table, size_t words, uint32_t task);

/* A working task puts block `new_block` into a slot that holds `old_block` (0: none). Value: 1, or 0 where the slot holds another. */
uint64_t kavdrell_swap(uint32_t *table, size_t words, uint32_t task, uint32_t slot, uint32_t old_block, uint32_t new_block);

/* A working task retires a block that no slot names; each time its retired blocks reach a multiple of the retirements per sweep,
 * it sweeps too. Value: the blocks freed. */
uint64_t kavdrell_retire(uint32_t *table, size_t words, uint32_t task, uint32_t block);

/* Frees each block that this task retired and no task's interval meets. Value: how many. */
uint64_t kavdrell_sweep(uint32_t *table, size_t words, uint32_t task);

/* A working task becomes idle: what it was handed is no longer safe. Each block that it made has to be shown or retired before. */
uint64_t kavdrell_end(uint32_t *table, size_t words, uint32_t task);

/* Changes nothing. Value: how many blocks are in this state (enum kavdrell_state). */
uint64_t kavdrell_tally(uint32_t *table, size_t words, uint32_t state);

/* Zone records: eight bytes each, the offset in minutes, signed, two bytes most significant first, then six bytes of name. */

/* What a zone function that reads answers: kind 0 and the minutes, or a refusal's kind and 0 minutes. */
struct kavdrell_zone_minutes {
    uint32_t kind;
    int32_t minutes;
};

enum kavdrell_zone_kind {
    KAVDRELL_ZONE_OUT_OF_RANGE = 30,    /* the offset isn't within -900 to 900 */
    KAVDRELL_ZONE_NO_RECORD = 31,       /* the hour isn't in the table, the block is 0, or the store is too short */
    KAVDRELL_ZONE_NOT_A_ZONE = 32,      /* not five characters, not a sign and four digits, minutes above 59, or -0000 */
    KAVDRELL_ZONE_NOT_FIVE_BYTES = 33   /* the buffer isn't five bytes long */
};

/* The minutes of a whole hour, -15 to 15, in the fixed table of 31 records: 31, then 30. */
struct kavdrell_zone_minutes kavdrell_zone_hour(const uint8_t *table, size_t bytes, int32_t hour);

/* The minutes of block n's record, at byte 8 * (n - 1) of the blocks' room: 31, then 30. It doesn't see that the caller holds the block. */
struct kavdrell_zone_minutes kavdrell_zone_block(const uint8_t *room, size_t bytes, uint32_t block);

/* Writes the five characters of the Fortran ZONE argument, a sign, two digits of hours and two of minutes. Answers the kind: 30, then 33;
 * a refusal writes nothing. */
uint32_t kavdrell_zone_write(int32_t minutes, uint8_t *buffer, size_t bytes);

/* Reads the minutes of such characters: 32, then 30. */
struct kavdrell_zone_minutes kavdrell_zone_read(const uint8_t *characters, size_t bytes);

/* Schedules: a field is a tag byte, 1 to 10 for the steps in the order above, a two-byte length, and the step's numbers in the order of its
 * function, four bytes each; most significant byte first. */

/* What a write answers: kind 0 and the place after the field, or a refusal's kind and 0. */
struct kavdrell_written {
    uint32_t kind;
    size_t value;
};

enum kavdrell_write_kind {
    KAVDRELL_WRITE_UNKNOWN_TAG = 22,    /* no step has this tag */
    KAVDRELL_WRITE_OTHER_COUNT = 23,    /* the count of numbers isn't the tag's */
    KAVDRELL_WRITE_NO_ROOM = 25         /* from the place on there are fewer bytes than the field needs */
};

/* Writes a step and its numbers at a place of the buffer: 22, then 23, then 25; a refusal writes nothing. Bytes outside the field stay. */
struct kavdrell_written kavdrell_write_field(uint8_t *buffer, size_t bytes, size_t place, uint8_t tag, const uint32_t *numbers,
                                             size_t count);

#ifdef __cplusplus
}
#endif

#endif
