/* The night with one reader: task 0 reads slot 0 while task 1 writes it. Prints what each call answers. */
#include "kavdrell.h"
#include <stdio.h>
#include <stdlib.h>

enum { TASKS = 2, BLOCKS = 4, SLOTS = 1, READER = 0, WRITER = 1, SLOT = 0 };

static uint32_t table[KAVDRELL_WORDS(TASKS, BLOCKS, SLOTS)];
static const size_t words = sizeof table / sizeof table[0];

/* What a line calls its step. */
enum tag { OPEN = 1, START, LOOK, SETTLE, MAKE, SWAP, RETIRE, SWEEP, END };

/* Prints the next line of the night, step number, tag, kind and value, and gives the value. Where the answer's kind isn't the one that is
 * due, its value says nothing, and the program ends. */
static uint32_t step(enum tag tag, enum kavdrell_kind due, uint64_t answer)
{
    static int number = 0;
    const uint32_t kind = kavdrell_kind(answer), value = kavdrell_value(answer);

    number = number + 1;
    if (kind != (uint32_t)due) {
        fprintf(stderr, "night: step %d answers kind %u where %u is due\n", number, (unsigned)kind, (unsigned)due);
        exit(EXIT_FAILURE);
    }
    printf("%d %d %u %u\n", number, (int)tag, (unsigned)kind, (unsigned)value);
    return value;
}

/* The writer puts a block in the place of the one that the slot holds; 0 is none. A swap that answers 0 changed nothing: the program ends. */
static void put(uint32_t old_block, uint32_t new_block)
{
    if (step(SWAP, KAVDRELL_DONE, kavdrell_swap(table, words, WRITER, SLOT, old_block, new_block)) != 1) {
        fprintf(stderr, "night: the slot doesn't hold block %u\n", (unsigned)old_block);
        exit(EXIT_FAILURE);
    }
}

/* The reader looks and settles, round again at each 'look again', until it is handed the block that it saw, or 0 for an empty slot. The block
 * is safe until the reader ends. Any other kind ends the program. */
static uint32_t read_slot(void)
{
    for (;;) {
        step(LOOK, KAVDRELL_DONE, kavdrell_look(table, words, READER, SLOT));
        const uint64_t answer = kavdrell_settle(table, words, READER);
        if (kavdrell_kind(answer) != KAVDRELL_LOOK_AGAIN)
            return step(SETTLE, KAVDRELL_DONE, answer);
        step(SETTLE, KAVDRELL_LOOK_AGAIN, answer);
    }
}

int main(void)
{
    uint32_t block;

    printf("step tag kind value\n");
    step(OPEN, KAVDRELL_DONE, kavdrell_open(table, words, TASKS, BLOCKS, SLOTS, 2, 1));
    step(START, KAVDRELL_DONE, kavdrell_start(table, words, READER));
    step(START, KAVDRELL_DONE, kavdrell_start(table, words, WRITER));
    step(MAKE, KAVDRELL_DONE, kavdrell_make(table, words, WRITER));
    block = step(MAKE, KAVDRELL_DONE, kavdrell_make(table, words, WRITER));
    put(0, block);
    /* The read's first round stands apart from its loop, for in this night the writer steps in after it. */
    step(LOOK, KAVDRELL_DONE, kavdrell_look(table, words, READER, SLOT));
    step(SETTLE, KAVDRELL_LOOK_AGAIN, kavdrell_settle(table, words, READER));
    put(block, 0);
    step(RETIRE, KAVDRELL_DONE, kavdrell_retire(table, words, WRITER, block));
    read_slot();
    step(END, KAVDRELL_DONE, kavdrell_end(table, words, READER));
    step(SWEEP, KAVDRELL_DONE, kavdrell_sweep(table, words, WRITER));
    step(MAKE, KAVDRELL_DONE, kavdrell_make(table, words, WRITER));
    if (fflush(stdout) != 0 || ferror(stdout)) {
        fprintf(stderr, "night: its lines could not be written\n");
        return EXIT_FAILURE;
    }
    return 0;
}
