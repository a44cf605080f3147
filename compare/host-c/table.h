/* The functions of crates/entry/out/libentry.a (cd crates/entry && rt lib), for a host in C or C++ on x86-64. The archive needs memcpy, memmove and memset of the host
 * or its C library, and nothing else. A slice of Rattle is a pointer and a length.
 *
 * The host lends: counts, 3 words; the row memory, which is rows, 16 words for each row of the depth, store, 48 + 70 x regions words, free_rows, a word for each
 * row, ready, 1 + 16 x depth words, and owners, a word for each buffer; and the pool, exactly buffers x capacity bytes. Row memory may be longer; rows are a
 * multiple of 16 words. No two of these, nor out, may overlap. The host clears the row memory before the opening: a call may read words that the opening did not
 * write, and believes none of them. Between calls the host writes neither counts nor row memory; of the pool it writes only buffers that it holds and, for a read,
 * the bytes of the piece under way.
 *
 * A later call with another length of row memory or pool gets 13 first, also one with a code that names nothing. The lengths are judged by the store's own words 13
 * to 18, where the opening put those that it was given: rows, store, free_rows, ready, owners, pool. So a host that lends another part of memory as the store has
 * changed the row memory: then each call still replies and stays within what it is lent, but no values are promised.
 *
 * out gets the reply, 17 words; word 0 is its case (TABLE_REPLY_..), and words that a case has no use for are 0. */
#ifndef TABLE_H
#define TABLE_H

#include <stdbool.h>
#include <stddef.h>
#include <stdint.h>

#ifdef __cplusplus
extern "C" {
#endif

/* a reply's case, out[0], and what stands behind it */
enum {
    TABLE_REPLY_PIECE = 1,     /* a piece for the card, whole blocks at a block offset: 1 queue tag, 2 card offset, 3 count, 4 buffer */
    TABLE_REPLY_NO = 2,        /* turned away, nothing has changed: 1 number (TABLE_REFUSAL_..), 2 context (TABLE_CONTEXT_..), 3 to 5 its values */
    TABLE_REPLY_REJECTED = 3,  /* a first piece refused: 1 region, 2 start, 3 end, 4 operation (TABLE_OP_..), 5 whether an error (Io; else QueueFull), 6 the error,
                                * 7 whether the buffer is back, 8 the buffer, 9 its length */
    TABLE_REPLY_DONE = 4,      /* an operation has ended: 1 queue tag */
    TABLE_REPLY_FLUSH = 5,     /* a flush is asked for: 1 queue tag, 2 need */
    TABLE_REPLY_TOOK = 6,      /* a completion is taken: 1 to 16 (TABLE_TOOK_..) */
    TABLE_REPLY_NONE = 7,      /* none is ready, nothing has changed */
    TABLE_REPLY_OK = 8,        /* an opening, a setting or a report was taken */
    TABLE_REPLY_WRITES = 9,    /* 1 whether a write awaits a piece */
    TABLE_REPLY_MARK = 10,     /* 1 the mark */
    TABLE_REPLY_NAMELESS = 11  /* a code names nothing (a fourth gate, a fifth form or operation): nothing was asked, nothing has changed */
};

/* document 01's numbers, out[1] of TABLE_REPLY_NO */
enum {
    TABLE_REFUSAL_FOREIGN_POSITION = 1,
    TABLE_REFUSAL_FOREIGN_BUFFER = 2,
    TABLE_REFUSAL_QUEUE_FULL = 3,
    TABLE_REFUSAL_STALE_GENERATION = 4,
    TABLE_REFUSAL_NOT_READY = 5,
    TABLE_REFUSAL_READ_ONLY = 6,
    TABLE_REFUSAL_POISONED = 7,
    TABLE_REFUSAL_EMPTY = 8,
    TABLE_REFUSAL_MISALIGNED = 9,  /* offset or length off the block, of a write as of a read */
    TABLE_REFUSAL_OUT_OF_BOUNDS = 10,
    TABLE_REFUSAL_NOT_HELD = 11,
    TABLE_REFUSAL_LIFETIME_SPENT = 12,
    TABLE_REFUSAL_UNFIT = 13,
    TABLE_REFUSAL_UNKNOWN_TAG = 14,
    TABLE_REFUSAL_NOT_AWAITED = 15,
    TABLE_REFUSAL_ABOVE_PIECE = 16
};

/* the context, out[2] of TABLE_REPLY_NO */
enum {
    TABLE_CONTEXT_NONE = 0,
    TABLE_CONTEXT_REGION = 1,  /* 3 the region's id */
    TABLE_CONTEXT_RANGE = 2,   /* 3 region, 4 start, 5 end */
    TABLE_CONTEXT_CAUSE = 3    /* the first cause: 3 operation (TABLE_OP_..), 4 whether an error, 5 the error */
};

/* a completion's words in out. Of its ticket and receipt they leave out what the opening was given (volume, class, label, epoch) and what follows: untorn and prefix
 * are false, and a receipt is synced unless its need is 0 or 2^64 - 1. */
enum {
    TABLE_TOOK_TAG = 1,          /* the host's tag */
    TABLE_TOOK_OUTCOME = 2,      /* TABLE_OUTCOME_.. */
    TABLE_TOOK_REGION = 3,       /* the region's id, start and end: of every outcome but a read and poison */
    TABLE_TOOK_START = 4,
    TABLE_TOOK_END = 5,
    TABLE_TOOK_NEED = 6,         /* the ticket's need: of a write, with or without receipt */
    TABLE_TOOK_RECEIPT_NEED = 7, /* the receipt's need */
    TABLE_TOOK_READ_LENGTH = 7,  /* the read's length, in the same word */
    TABLE_TOOK_OP = 8,           /* TABLE_OP_.., whether an error, and the error: of Io, unknown durability and poison */
    TABLE_TOOK_HAS = 9,
    TABLE_TOOK_RAW = 10,
    TABLE_TOOK_BACK = 11,        /* whether the buffer is back, the buffer, and its length */
    TABLE_TOOK_BUFFER = 12,
    TABLE_TOOK_LENGTH = 13,
    TABLE_TOOK_GENERATION = 14   /* the region's generation: of a write, with or without receipt; 15 and 16 are 0 */
};

/* what became of an operation */
enum {
    TABLE_OUTCOME_WRITTEN = 1,     /* with a ticket */
    TABLE_OUTCOME_RECEIPT = 2,     /* written, with a ticket and a receipt */
    TABLE_OUTCOME_READ = 3,
    TABLE_OUTCOME_UNKNOWN = 4,     /* DurabilityUnknown */
    TABLE_OUTCOME_INTERRUPTED = 5,
    TABLE_OUTCOME_CORRUPTION = 6,  /* a media error */
    TABLE_OUTCOME_IO = 7,
    TABLE_OUTCOME_QUEUE_FULL = 8,
    TABLE_OUTCOME_POISONED = 9
};

/* an operation, of a cause or an error */
enum { TABLE_OP_NONE = 0, TABLE_OP_READ = 1, TABLE_OP_WRITE = 2, TABLE_OP_FLUSH = 3 };

#define TABLE_SHARED \
    const uint64_t counts[3], const uint64_t *rows, size_t row_words, const uint64_t *store, size_t store_words, const uint64_t *free_rows, size_t free_words, \
    const uint64_t *ready, size_t ready_words, const uint64_t *owners, size_t owner_words, const uint8_t *pool, size_t pool_bytes, uint64_t out[17]
#define TABLE_LENT \
    uint64_t counts[3], uint64_t *rows, size_t row_words, uint64_t *store, size_t store_words, uint64_t *free_rows, size_t free_words, \
    uint64_t *ready, size_t ready_words, uint64_t *owners, size_t owner_words, uint8_t *pool, size_t pool_bytes, uint64_t out[17]

/* block, depth, lifetime, card, buffers, capacity, read-only, flush policy, volume, class, label, epoch, regions; the plan: 70 words for each region, which are id,
 * generation, first card offset, capacity, data length, count of further runs, then each run's start position and card offset */
void table_open(const uint64_t opening[13], const uint64_t *plan, size_t plan_words,
    uint64_t counts[3], uint64_t *rows, size_t row_words, uint64_t *store, size_t store_words, uint64_t *free_rows, size_t free_words,
    uint64_t *ready, size_t ready_words, uint64_t *owners, size_t owner_words, const uint8_t *pool, size_t pool_bytes, uint64_t out[17]);

/* handle, volume, region, generation, offset, buffer, length, durable (0: plain), the host's tag */
void table_write(const uint64_t request[9], TABLE_LENT);
void table_read_page(const uint64_t request[9], TABLE_LENT);

/* the form of an answer: a count; an OS error, marked media or not; refused by the queue; refused with an OS error, marked likewise */
enum { TABLE_ANSWER_COUNT = 0, TABLE_ANSWER_ERROR = 1, TABLE_ANSWER_REFUSED = 2, TABLE_ANSWER_REFUSED_WITH = 3 };
void table_answer(uint64_t qtag, uint64_t form, uint64_t count, uint32_t raw, bool media, bool back, uint64_t flushes, TABLE_LENT);

/* the form of a flush result: a need; DurabilityUnknown or Poisoned, each with a cause: op (TABLE_OP_..), whether it has an error, the error */
enum { TABLE_FLUSHED_NEED = 0, TABLE_FLUSHED_UNKNOWN = 1, TABLE_FLUSHED_POISONED = 2 };
void table_flushed(uint64_t qtag, uint64_t form, uint64_t need, uint64_t op, bool has, uint32_t raw, TABLE_LENT);

/* with none ready the reply is none and nothing changes, no word and no byte */
void table_take(TABLE_LENT);

enum { TABLE_GATE_OPEN = 0, TABLE_GATE_RECYCLED = 1, TABLE_GATE_RELEASED = 2 };
void table_set_gate(uint64_t handle, uint64_t gate, TABLE_LENT);
void table_set_read_only(uint64_t handle, bool on, TABLE_LENT);
void table_set_forced(uint64_t handle, bool on, TABLE_LENT);

/* a cause: op (TABLE_OP_..), whether it has an error, the error */
void table_report_poison(uint64_t op, bool has, uint32_t raw, TABLE_LENT);

void table_writes_live(TABLE_SHARED);
void table_mark(TABLE_SHARED);

/* the first n bytes turned left by k */
void table_turn(uint8_t *bytes, size_t length, size_t n, size_t k);

#ifdef __cplusplus
}
#endif

#endif
