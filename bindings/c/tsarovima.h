/* Tsarovima for C: the job call, the record calls for a host that keeps one table for many clients, and the texts of the rules.
 *
 * The functions are in libtsarovima_c.a, which `./archive` proves and writes (x86-64-v2):
 *
 *     cc -I bindings/c host.c target/staticlib/libtsarovima_c.a -o host
 *
 * They allocate nothing, keep nothing between calls, and call nothing but memcpy and memset.
 *
 * A pointer and the length after it are one buffer: the length is in elements, not bytes. What no call can look at is for the host
 * to see to: the memory is its own, as long as it says; the pointer is not null, also where the length is 0; a buffer of 16-bit
 * numbers is aligned to 2 bytes (bytes may lie anywhere); no two buffers of a call overlap.
 *
 * docs/FORMATS.md has the bytes: records, answers, jobs, the listing and the texts of the rules, with an example of each. */

#ifndef TSAROVIMA_H
#define TSAROVIMA_H

#include <stddef.h>
#include <stdint.h>

#ifdef __cplusplus
extern "C" {
#endif

/* The first byte of a record: kinds 1 to 16 offer a node. */
enum tsarovima_kind {
    TSAROVIMA_KIND_IDEN = 1,
    TSAROVIMA_KIND_UNIT = 2,
    TSAROVIMA_KIND_INJL = 3,
    TSAROVIMA_KIND_INJR = 4,
    TSAROVIMA_KIND_TAKE = 5,
    TSAROVIMA_KIND_DROP = 6,
    TSAROVIMA_KIND_COMP = 7,
    TSAROVIMA_KIND_CASE = 8,
    TSAROVIMA_KIND_ASSERTL = 9,
    TSAROVIMA_KIND_ASSERTR = 10,
    TSAROVIMA_KIND_PAIR = 11,
    TSAROVIMA_KIND_DISCONNECT = 12,
    TSAROVIMA_KIND_DISCONNECT_ONE = 13, /* without the second child */
    TSAROVIMA_KIND_WITNESS = 14,
    TSAROVIMA_KIND_FAIL = 15,
    TSAROVIMA_KIND_WORD = 16,
    TSAROVIMA_KIND_TAKE_BACK = 64,
    TSAROVIMA_KIND_CLOSE = 65
};

/* The first two bytes of an answer. */
enum tsarovima_code {
    TSAROVIMA_CODE_DONE = 0, /* kept, taken back or closed */
    TSAROVIMA_CODE_MALFORMED = 1,
    TSAROVIMA_CODE_NO_CHILD = 2,
    TSAROVIMA_CODE_FULL = 3,
    TSAROVIMA_CODE_CLASH = 4,
    TSAROVIMA_CODE_CYCLE = 5,
    TSAROVIMA_CODE_TOO_FEW = 6 /* a take-back to more nodes than are kept */
};

/* What the job call returns if it is not 0, in the order in which they are looked for. */
enum tsarovima_refusal {
    TSAROVIMA_REFUSAL_SHORT = 16,   /* under 16 bytes */
    TSAROVIMA_REFUSAL_FORMAT = 17,  /* the format is not 1 */
    TSAROVIMA_REFUSAL_COUNT = 18,   /* more than 4,096 records */
    TSAROVIMA_REFUSAL_OFFSET = 19,  /* the first record is not at 16 */
    TSAROVIMA_REFUSAL_LENGTH = 20,  /* the length field, or the length lent, is not 16 + 8 for each record */
    TSAROVIMA_REFUSAL_ANSWERS = 21, /* under 8 bytes of answers for each record */
    TSAROVIMA_REFUSAL_LISTING = 22  /* a listing of under TSAROVIMA_LISTING numbers */
};

/* The longest job, its answers, and the listing buffer that every job needs (in numbers). */
#define TSAROVIMA_JOB_MOST 32784
#define TSAROVIMA_ANSWERS_MOST 32768
#define TSAROVIMA_LISTING 26727

/* Runs a job from a fresh state.
 *
 * Reads job[0 .. job_len). Returns 0, or a refusal (enum tsarovima_refusal), after which neither buffer was written to.
 * After 0 it has written eight bytes of answers for each record, and the listing of the last record of kind 65 (0, 0, 4, 4 if that
 * was refused, or if there was none). Bytes and numbers past these are as they were.
 *
 * Any bytes may be lent. It takes some 276 KiB of stack (measured: docs/SPEED.md). */
uint32_t tsarovima_job(const uint8_t *job, size_t job_len, uint8_t *answers, size_t answers_len, uint16_t *listing,
                       size_t listing_len);

/* The longest text of a rule, in bytes. */
#define TSAROVIMA_RULE_TEXT 47

/* The text of a rule: what a node needs, in words, for the number that is the first of an answer with TSAROVIMA_CODE_CLASH.
 *
 * Returns how many bytes the text has, 0 if there is no such rule: any number may be asked for. Writes them at the front of `text`
 * if it has room for all of them, else nothing. They are UTF-8, and no zero follows. Bytes past them are as they were. */
size_t tsarovima_rule_text(uint16_t rule, uint8_t *text, size_t text_len);

/* ---- record calls ----
 *
 * The tables are the host's: parent, rank, rows, trail, nodes and live. It must not write to them, copy parts of them over each
 * other, or lend tables to tsarovima_record or tsarovima_close that did not come from tsarovima_open and these calls: what the two
 * promise is proved for such tables alone, and with other numbers in them they may read and write outside the buffers. One set of
 * tables serves one thread at a time. Nothing has to be given back: a host that is done with the tables forgets them.
 *
 * Each of the three looks at the length of every buffer before anything else. A wrong one is answered with TSAROVIMA_WRONG_LENGTH,
 * whatever the tables hold, and then nothing was written to any buffer. */

#define TSAROVIMA_ENTRIES 8225
#define TSAROVIMA_ROWS 32900
#define TSAROVIMA_TRAIL 24675
#define TSAROVIMA_NODES 7168
#define TSAROVIMA_LIVE 3
#define TSAROVIMA_WORK 32900

#define TSAROVIMA_DONE 0
#define TSAROVIMA_WRONG_LENGTH 1

/* Makes the tables a fresh state.
 *
 * Reads nothing: they may hold anything. Writes every number of parent and rank (TSAROVIMA_ENTRIES each), rows (TSAROVIMA_ROWS:
 * kind, left, right and shape of each entry), trail (TSAROVIMA_TRAIL), nodes (TSAROVIMA_NODES) and live (TSAROVIMA_LIVE: entries,
 * links, nodes kept). Returns TSAROVIMA_DONE, or TSAROVIMA_WRONG_LENGTH if one of them is shorter or longer. */
uint32_t tsarovima_open(uint16_t *parent, size_t parent_len, uint16_t *rank, size_t rank_len, uint16_t *rows, size_t rows_len,
                        uint16_t *trail, size_t trail_len, uint16_t *nodes, size_t nodes_len, uint16_t *live, size_t live_len);

/* Puts a record to the state: an offer, a take-back, or (kind 65) a closing.
 *
 * Reads the tables and the first eight bytes of `record`, which may be any bytes. Writes the answer in the first eight bytes of
 * `answer`, and the tables, which a refused record leaves as they were. Kind 65 writes its listing into `listing`, or 0, 0, 4, 4 if
 * it is refused; after code 5 the numbers past these four are not as they were. Any other record leaves `listing` alone. Numbers
 * and bytes past these are as they were. What `work` holds before does not matter, and after a call it means nothing. Returns
 * TSAROVIMA_DONE, whatever the answer's code is, or TSAROVIMA_WRONG_LENGTH if a table has not the length that it was opened with,
 * if work has fewer than TSAROVIMA_WORK numbers or listing fewer than TSAROVIMA_LISTING, or record or answer fewer than 8 bytes.
 * The host must see to it that the tables came from tsarovima_open and these calls. */
uint32_t tsarovima_record(uint16_t *parent, size_t parent_len, uint16_t *rank, size_t rank_len, uint16_t *rows, size_t rows_len,
                          uint16_t *trail, size_t trail_len, uint16_t *nodes, size_t nodes_len, uint16_t *live, size_t live_len,
                          uint16_t *work, size_t work_len, const uint8_t *record, size_t record_len, uint8_t *answer,
                          size_t answer_len, uint16_t *listing, size_t listing_len);

/* Closes: the record of kind 65, with no record to lend. It reads, writes, returns and needs what tsarovima_record does; the tables
 * are as they were after it. */
uint32_t tsarovima_close(uint16_t *parent, size_t parent_len, uint16_t *rank, size_t rank_len, uint16_t *rows, size_t rows_len,
                         uint16_t *trail, size_t trail_len, uint16_t *nodes, size_t nodes_len, uint16_t *live, size_t live_len,
                         uint16_t *work, size_t work_len, uint8_t *answer, size_t answer_len, uint16_t *listing,
                         size_t listing_len);

/* All that a host lends for the record calls, with the right lengths: 281,646 bytes. */
typedef struct {
    uint16_t parent[TSAROVIMA_ENTRIES];
    uint16_t rank[TSAROVIMA_ENTRIES];
    uint16_t rows[TSAROVIMA_ROWS];
    uint16_t trail[TSAROVIMA_TRAIL];
    uint16_t nodes[TSAROVIMA_NODES];
    uint16_t live[TSAROVIMA_LIVE];
    uint16_t work[TSAROVIMA_WORK];
    uint16_t listing[TSAROVIMA_LISTING];
} tsarovima_tables;

/* The three calls with all lengths right, so each returns TSAROVIMA_DONE. What is left for the host to see to: tables are opened
 * before the other two are called, nobody else writes to them, and `record` and `answer` do not overlap. After a closing t->listing
 * is the listing. */
static inline uint32_t tsarovima_tables_open(tsarovima_tables *t)
{
    return tsarovima_open(t->parent, TSAROVIMA_ENTRIES, t->rank, TSAROVIMA_ENTRIES, t->rows, TSAROVIMA_ROWS, t->trail,
                          TSAROVIMA_TRAIL, t->nodes, TSAROVIMA_NODES, t->live, TSAROVIMA_LIVE);
}

static inline uint32_t tsarovima_tables_record(tsarovima_tables *t, const uint8_t record[8], uint8_t answer[8])
{
    return tsarovima_record(t->parent, TSAROVIMA_ENTRIES, t->rank, TSAROVIMA_ENTRIES, t->rows, TSAROVIMA_ROWS, t->trail,
                            TSAROVIMA_TRAIL, t->nodes, TSAROVIMA_NODES, t->live, TSAROVIMA_LIVE, t->work, TSAROVIMA_WORK, record, 8,
                            answer, 8, t->listing, TSAROVIMA_LISTING);
}

static inline uint32_t tsarovima_tables_close(tsarovima_tables *t, uint8_t answer[8])
{
    return tsarovima_close(t->parent, TSAROVIMA_ENTRIES, t->rank, TSAROVIMA_ENTRIES, t->rows, TSAROVIMA_ROWS, t->trail,
                           TSAROVIMA_TRAIL, t->nodes, TSAROVIMA_NODES, t->live, TSAROVIMA_LIVE, t->work, TSAROVIMA_WORK, answer, 8,
                           t->listing, TSAROVIMA_LISTING);
}

#ifdef __cplusplus
}
#endif

#endif
