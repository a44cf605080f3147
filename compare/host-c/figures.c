/* Document 01's opening and its first figures, by a host in C:
 *
 *     (cd crates/entry && rt lib) && cc compare/host-c/figures.c crates/entry/out/libentry.a -o figures && ./figures
 *
 * It prints nothing and ends with 0 where every reply is the papers'. */
#include "table.h"

static uint64_t counts[3], rows[16 * 2], store[48 + 70], free_rows[2], ready[1 + 16 * 2], owners[3], out[17];
static uint8_t pool[3 * 2048];

#define MINE counts, rows, 16 * 2, store, 48 + 70, free_rows, 2, ready, 1 + 16 * 2, owners, 3, pool, sizeof pool, out
#define ANOTHER counts, rows, 16 * 2 - 1, store, 48 + 70, free_rows, 2, ready, 1 + 16 * 2, owners, 3, pool, sizeof pool, out

/* the reply begins with these words */
static bool is(size_t n, const uint64_t *words)
{
    for (size_t i = 0; i < n; i++)
        if (out[i] != words[i])
            return false;
    return true;
}

#define EXPECT(...) \
    do { \
        const uint64_t words[] = {__VA_ARGS__}; \
        if (!is(sizeof words / sizeof words[0], words)) \
            return __LINE__ % 100 + 1; \
    } while (0)

int main(void)
{
    const uint64_t opening[13] = {512, 2, 1000, 16384, 3, 2048, 0, 0, 1, 0, 0, 0, 1};
    const uint64_t plan[70] = {7, 3, 1024, 2048, 2048, 1, 1024, 8192};
    table_open(opening, plan, 70, MINE);
    EXPECT(TABLE_REPLY_OK);
    /* 512 bytes at 256 are off the block: 9, of a write with the region's id, of a read with the range too; nothing changes */
    const uint64_t off_block[9] = {0, 1, 7, 3, 256, 0, 512, 0, 70};
    table_write(off_block, MINE);
    EXPECT(TABLE_REPLY_NO, TABLE_REFUSAL_MISALIGNED, TABLE_CONTEXT_REGION, 7);
    table_read_page(off_block, MINE);
    EXPECT(TABLE_REPLY_NO, TABLE_REFUSAL_MISALIGNED, TABLE_CONTEXT_RANGE, 7, 256, 768);
    const uint64_t request[9] = {0, 1, 7, 3, 512, 0, 1024, 0, 70};
    table_write(request, MINE);
    EXPECT(TABLE_REPLY_PIECE, 0, 1536, 512, 0);
    table_answer(0, TABLE_ANSWER_COUNT, 512, 0, false, true, 0, MINE);
    EXPECT(TABLE_REPLY_PIECE, 0, 8192, 512, 0);
    table_answer(0, TABLE_ANSWER_COUNT, 512, 0, false, true, 0, MINE);
    EXPECT(TABLE_REPLY_DONE, 0);
    /* tag 70, written, region 7, 512 to 1,536, need 1; buffer 0 back with 1,024; generation 3 */
    table_take(MINE);
    EXPECT(TABLE_REPLY_TOOK, 70, TABLE_OUTCOME_WRITTEN, 7, 512, 1536, 1, 0, TABLE_OP_NONE, 0, 0, 1, 0, 1024, 3);
    if (out[TABLE_TOOK_TAG] != 70 || out[TABLE_TOOK_NEED] != 1 || out[TABLE_TOOK_LENGTH] != 1024 || out[TABLE_TOOK_GENERATION] != 3)
        return 1;
    table_take(MINE);
    EXPECT(TABLE_REPLY_NONE);
    /* row 0 then gives tag 4,294,967,296 */
    table_write(request, MINE);
    EXPECT(TABLE_REPLY_PIECE, 4294967296u, 1536, 512, 0);
    /* the old tag is unknown: 14; the buffer is not held: 11; codes that name nothing have a case of their own, and nothing changes */
    table_answer(0, TABLE_ANSWER_COUNT, 512, 0, false, true, 0, MINE);
    EXPECT(TABLE_REPLY_NO, TABLE_REFUSAL_UNKNOWN_TAG, TABLE_CONTEXT_NONE);
    table_write(request, MINE);
    EXPECT(TABLE_REPLY_NO, TABLE_REFUSAL_NOT_HELD, TABLE_CONTEXT_REGION, 7);
    table_set_gate(0, TABLE_GATE_RELEASED + 1, MINE);
    EXPECT(TABLE_REPLY_NAMELESS);
    table_answer(4294967296u, 9, 512, 0, false, true, 0, MINE);
    EXPECT(TABLE_REPLY_NAMELESS);
    table_writes_live(MINE);
    EXPECT(TABLE_REPLY_WRITES, 1);
    table_mark(MINE);
    EXPECT(TABLE_REPLY_MARK, 3);
    /* another length of row memory gets 13 first, also with a code that names nothing */
    table_take(ANOTHER);
    EXPECT(TABLE_REPLY_NO, TABLE_REFUSAL_UNFIT);
    table_set_gate(0, TABLE_GATE_RELEASED + 1, ANOTHER);
    EXPECT(TABLE_REPLY_NO, TABLE_REFUSAL_UNFIT);
    table_answer(4294967296u, 9, 512, 0, false, true, 0, ANOTHER);
    EXPECT(TABLE_REPLY_NO, TABLE_REFUSAL_UNFIT);
    table_flushed(4294967296u, 9, 1, TABLE_OP_NONE, false, 0, ANOTHER);
    EXPECT(TABLE_REPLY_NO, TABLE_REFUSAL_UNFIT);
    table_report_poison(TABLE_OP_FLUSH + 1, false, 0, ANOTHER);
    EXPECT(TABLE_REPLY_NO, TABLE_REFUSAL_UNFIT);
    return 0;
}
