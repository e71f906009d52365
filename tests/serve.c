/* Makes calls of the archive for another process. Reads tag, length in words, five numbers and the words of a table; writes the packed
 * answer and the words as the call left them; until the input ends. It needs no header, for it is built where there may be none. */
typedef __UINT32_TYPE__ u32;
typedef __UINT64_TYPE__ u64;
typedef __SIZE_TYPE__ size;

u64 kavdrell_open(u32 *table, size words, u32 tasks, u32 blocks, u32 slots, u32 makes_per_epoch, u32 retirements_per_sweep);
u64 kavdrell_start(u32 *table, size words, u32 task);
u64 kavdrell_look(u32 *table, size words, u32 task, u32 slot);
u64 kavdrell_settle(u32 *table, size words, u32 task);
u64 kavdrell_make(u32 *table, size words, u32 task);
u64 kavdrell_swap(u32 *table, size words, u32 task, u32 slot, u32 old_block, u32 new_block);
u64 kavdrell_retire(u32 *table, size words, u32 task, u32 block);
u64 kavdrell_sweep(u32 *table, size words, u32 task);
u64 kavdrell_end(u32 *table, size words, u32 task);
u64 kavdrell_tally(u32 *table, size words, u32 state);

long read(int file, void *bytes, size length);
long write(int file, const void *bytes, size length);

enum { MOST_WORDS = 8192 };

/* Reads so many bytes; 0 if the input ends before. */
static int read_all(void *to, size length)
{
    char *at = to;
    while (length > 0) {
        long got = read(0, at, length);
        if (got <= 0)
            return 0;
        at += got;
        length -= (size)got;
    }
    return 1;
}

/* Writes so many bytes; 0 if nobody takes them. */
static int write_all(const void *from, size length)
{
    const char *at = from;
    while (length > 0) {
        long put = write(1, at, length);
        if (put <= 0)
            return 0;
        at += put;
        length -= (size)put;
    }
    return 1;
}

static u64 answer(u32 tag, u32 *table, size words, const u32 *n)
{
    switch (tag) {
    case 1: return kavdrell_open(table, words, n[0], n[1], n[2], n[3], n[4]);
    case 2: return kavdrell_start(table, words, n[0]);
    case 3: return kavdrell_look(table, words, n[0], n[1]);
    case 4: return kavdrell_settle(table, words, n[0]);
    case 5: return kavdrell_make(table, words, n[0]);
    case 6: return kavdrell_swap(table, words, n[0], n[1], n[2], n[3]);
    case 7: return kavdrell_retire(table, words, n[0], n[1]);
    case 8: return kavdrell_sweep(table, words, n[0]);
    case 9: return kavdrell_end(table, words, n[0]);
    default: return kavdrell_tally(table, words, n[0]);
    }
}

int main(void)
{
    static struct { u32 tag, words, numbers[5]; } request;
    static struct { u64 packed; u32 table[MOST_WORDS]; } reply;

    while (read_all(&request, sizeof request)) {
        size bytes = sizeof(u32) * request.words;
        if (request.words > MOST_WORDS || !read_all(reply.table, bytes))
            return 1;
        reply.packed = answer(request.tag, reply.table, request.words, request.numbers);
        if (!write_all(&reply, sizeof reply.packed + bytes))
            return 1;
    }
    return 0;
}
