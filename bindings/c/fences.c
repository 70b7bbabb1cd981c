/* Every buffer of every call lies against a page that may not be touched: at its end in the first round, at its beginning in the
 * second. A call that reads or writes one number outside a buffer stops this program. Random records go to the record calls and, as
 * jobs, to the job call, and both must give the same answers and listings. In a third round each length in turn is wrong by one,
 * and what is lent may not be touched at all. Each rule's text is asked for with every room up to the longest.
 *
 *     cc -I bindings/c bindings/c/fences.c target/staticlib/libtsarovima_c.a -o fences && ./fences */

#define _DEFAULT_SOURCE
#include "tsarovima.h"
#include <stdio.h>
#include <stdlib.h>
#include <string.h>
#include <sys/mman.h>
#include <unistd.h>

enum { RUNS = 120, RECORDS = 400, TAKE_BACK = TSAROVIMA_KIND_TAKE_BACK, CLOSE = TSAROVIMA_KIND_CLOSE };

/* What a host lends: six tables, work and listing as numbers, record and answer as bytes. */
enum { PARENT, RANK, ROWS, TRAIL, NODES, LIVE, WORK, LISTING, NUMBERS, TABLES = WORK };

static const size_t EXACT[NUMBERS] = {TSAROVIMA_ENTRIES, TSAROVIMA_ENTRIES, TSAROVIMA_ROWS, TSAROVIMA_TRAIL,
                                      TSAROVIMA_NODES,   TSAROVIMA_LIVE,    TSAROVIMA_WORK, TSAROVIMA_LISTING};

typedef struct {
    uint16_t *t[NUMBERS];
    size_t len[NUMBERS];
    uint8_t *record, *answer;
    size_t record_len, answer_len;
} host;

static uint32_t open_tables(const host *h)
{
    return tsarovima_open(h->t[PARENT], h->len[PARENT], h->t[RANK], h->len[RANK], h->t[ROWS], h->len[ROWS], h->t[TRAIL],
                          h->len[TRAIL], h->t[NODES], h->len[NODES], h->t[LIVE], h->len[LIVE]);
}

static uint32_t put(const host *h)
{
    return tsarovima_record(h->t[PARENT], h->len[PARENT], h->t[RANK], h->len[RANK], h->t[ROWS], h->len[ROWS], h->t[TRAIL],
                            h->len[TRAIL], h->t[NODES], h->len[NODES], h->t[LIVE], h->len[LIVE], h->t[WORK], h->len[WORK],
                            h->record, h->record_len, h->answer, h->answer_len, h->t[LISTING], h->len[LISTING]);
}

static uint32_t close_tables(const host *h)
{
    return tsarovima_close(h->t[PARENT], h->len[PARENT], h->t[RANK], h->len[RANK], h->t[ROWS], h->len[ROWS], h->t[TRAIL],
                           h->len[TRAIL], h->t[NODES], h->len[NODES], h->t[LIVE], h->len[LIVE], h->t[WORK], h->len[WORK], h->answer,
                           h->answer_len, h->t[LISTING], h->len[LISTING]);
}

static void must(int holds, const char *what)
{
    if (!holds) {
        printf("fences: %s\n", what);
        exit(1);
    }
}

static unsigned char *untouchable(size_t bytes)
{
    unsigned char *all = mmap(NULL, bytes, PROT_NONE, MAP_PRIVATE | MAP_ANONYMOUS, -1, 0);
    must(all != MAP_FAILED, "no memory");
    return all;
}

/* Bytes with a fence at one end. The page at the other end is the buffer's own, and filled with what no call expects. */
static void *fenced(size_t bytes, int at_end)
{
    size_t page = (size_t)sysconf(_SC_PAGESIZE);
    size_t room = (bytes + page - 1) / page * page;
    if (room == 0)
        room = page;
    unsigned char *all = untouchable(room + 2 * page);
    must(mprotect(all + page, room, PROT_READ | PROT_WRITE) == 0, "no memory");
    memset(all + page, 0xA5, room);
    return at_end ? all + page + room - bytes : all + page;
}

static uint64_t seed = 88172645463325252u;

static unsigned below(unsigned end)
{
    seed ^= seed << 13;
    seed ^= seed >> 7;
    seed ^= seed << 17;
    return (unsigned)((seed >> 16) % end);
}

/* Mostly an offer whose children are kept; now and then anything. */
static void make(uint8_t *record, unsigned kept)
{
    unsigned kind = kept < 3 ? 1 + below(2) : below(30) == 0 ? TAKE_BACK + below(2) : 1 + below(16);
    unsigned a = kind == TAKE_BACK ? below(kept + 2) : kind == 16 ? below(33) : kept == 0 || below(50) == 0 ? kept : below(kept);
    unsigned b = kept == 0 ? 0 : below(kept);
    int fields = kind == TAKE_BACK || (kind >= 3 && kind <= 13) || kind == 16;
    int two = kind == 7 || kind == 8 || kind == 11 || kind == 12;
    uint8_t made[8] = {(uint8_t)kind, 0, 0, 0, 0, 0, 0, 0};
    if (fields)
        made[2] = (uint8_t)(a & 255), made[3] = (uint8_t)(a >> 8);
    if (two)
        made[4] = (uint8_t)(b & 255), made[5] = (uint8_t)(b >> 8);
    if (below(40) == 0)
        made[below(8)] = (uint8_t)below(256);
    memcpy(record, made, 8);
}

static void write_header(uint8_t *job, unsigned records)
{
    uint32_t header[4] = {1, records, 16, 16 + 8 * records};
    for (int i = 0; i < 16; i++)
        job[i] = (uint8_t)(header[i / 4] >> 8 * (i % 4));
}

/* The records of a job, one call each; the last is put by tsarovima_close. */
static void run(const host *h, uint8_t *job, unsigned records, uint8_t *answers, uint16_t *listing, int full)
{
    write_header(job, records);
    must(open_tables(h) == TSAROVIMA_DONE, "not opened");
    static uint8_t expected[8 * 4096];
    for (unsigned i = 0; i < records; i++) {
        make(h->record, h->t[LIVE][2]);
        if (full)
            memset(h->record, 0, 8), h->record[0] = i == 0 ? 2 : 8;
        if (i == records - 1)
            memset(h->record, 0, 8), h->record[0] = CLOSE;
        must((i == records - 1 ? close_tables(h) : put(h)) == TSAROVIMA_DONE, "a right length refused");
        memcpy(job + 16 + 8 * i, h->record, 8);
        memcpy(expected + 8 * i, h->answer, 8);
    }
    must(tsarovima_job(job, 16 + 8 * records, answers, 8 * records, listing, TSAROVIMA_LISTING) == 0, "a job refused");
    must(memcmp(answers, expected, 8 * records) == 0, "other answers in the job");
    size_t numbers = 4 + 3 * (size_t)listing[1] + 2 * (size_t)listing[0];
    must(memcmp(listing, h->t[LISTING], 2 * numbers) == 0, "another listing in the job");
}

static unsigned long run_all(int at_end)
{
    host h = {.record = fenced(8, at_end), .answer = fenced(8, at_end), .record_len = 8, .answer_len = 8};
    for (int i = 0; i < NUMBERS; i++)
        h.t[i] = fenced(2 * EXACT[i], at_end), h.len[i] = EXACT[i];
    uint16_t *listing = fenced(2 * TSAROVIMA_LISTING, at_end);
    unsigned long put_in_all = 0;
    for (unsigned i = 0; i < RUNS; i++) {
        unsigned records = i == 0 ? 1 : i == 1 ? 4096 : 1 + below(RECORDS);
        run(&h, fenced(16 + 8 * records, at_end), records, fenced(8 * records, at_end), listing, i == 1);
        put_in_all += records;
    }
    return put_in_all;
}

/* A host whose buffers may be neither read nor written. */
static host closed(void)
{
    host h = {.record = untouchable(8), .answer = untouchable(8), .record_len = 8, .answer_len = 8};
    for (int i = 0; i < NUMBERS; i++)
        h.t[i] = (uint16_t *)(void *)untouchable(2 * (EXACT[i] + 1)), h.len[i] = EXACT[i];
    return h;
}

/* How many calls were refused: each with one length wrong, a table's one short and one long, any other one short. */
static unsigned refuse_lengths(void)
{
    unsigned refused = 0;
    host h = closed();
    for (int i = 0; i < NUMBERS; i++) {
        for (size_t length = EXACT[i] - 1; length <= EXACT[i] + (i < TABLES); length += 2) {
            h.len[i] = length;
            if (i < TABLES)
                must(open_tables(&h) == TSAROVIMA_WRONG_LENGTH, "opened with a wrong length"), refused++;
            must(put(&h) == TSAROVIMA_WRONG_LENGTH, "a record put with a wrong length"), refused++;
            must(close_tables(&h) == TSAROVIMA_WRONG_LENGTH, "closed with a wrong length"), refused++;
        }
        h.len[i] = EXACT[i];
    }
    h.record_len = 7;
    must(put(&h) == TSAROVIMA_WRONG_LENGTH, "seven bytes put"), refused++;
    h.record_len = 8, h.answer_len = 7;
    must(put(&h) == TSAROVIMA_WRONG_LENGTH, "a record put with seven bytes for the answer"), refused++;
    must(close_tables(&h) == TSAROVIMA_WRONG_LENGTH, "closed with seven bytes for the answer"), refused++;
    return refused;
}

/* So for the job call, which may read the job and nothing else. */
static unsigned refuse_jobs(void)
{
    uint8_t *job = fenced(24, 1), *answers = untouchable(8);
    uint16_t *listing = (uint16_t *)(void *)untouchable(2 * TSAROVIMA_LISTING);
    memset(job, 0, 24);
    write_header(job, 1);
    job[16] = CLOSE;
    must(tsarovima_job(job, 15, answers, 8, listing, TSAROVIMA_LISTING) == TSAROVIMA_REFUSAL_SHORT,
         "a job of fifteen bytes run");
    must(tsarovima_job(job, 23, answers, 8, listing, TSAROVIMA_LISTING) == TSAROVIMA_REFUSAL_LENGTH,
         "a job one byte short run");
    must(tsarovima_job(job, 24, answers, 7, listing, TSAROVIMA_LISTING) == TSAROVIMA_REFUSAL_ANSWERS,
         "a job run with seven bytes of answers");
    must(tsarovima_job(job, 24, answers, 8, listing, TSAROVIMA_LISTING - 1) == TSAROVIMA_REFUSAL_LISTING,
         "a job run with a short listing");
    return 4;
}

/* How many bytes of text were written: to the end of a buffer that is long enough, and none to one that is shorter. */
static unsigned long write_texts(void)
{
    unsigned long written = 0;
    for (unsigned rule = 0; rule < 10; rule++) {
        uint8_t whole[TSAROVIMA_RULE_TEXT];
        size_t long_as = tsarovima_rule_text((uint16_t)rule, whole, sizeof whole);
        must((long_as == 0) == (rule < 1 || rule > 7), "a rule has no text, or another number has one");
        for (size_t room = 0; room <= TSAROVIMA_RULE_TEXT; room++) {
            uint8_t *text = room < long_as ? untouchable(room + 1) : fenced(room, 1);
            must(tsarovima_rule_text((uint16_t)rule, text, room) == long_as, "a text of another length");
            if (room < long_as)
                continue;
            must(memcmp(text, whole, long_as) == 0, "another text");
            for (size_t past = long_as; past < room; past++)
                must(text[past] == 0xA5, "a byte written past the text");
            written += long_as;
        }
    }
    return written;
}

int main(void)
{
    unsigned long put_in_all = run_all(1);
    put_in_all += run_all(0);
    printf("fences: %lu records put and run as jobs, none outside its buffers\n", put_in_all);
    unsigned refused = refuse_lengths() + refuse_jobs();
    printf("fences: %u calls with a wrong length refused, nothing touched\n", refused);
    printf("fences: %lu bytes of rules' texts written, none outside its buffer\n", write_texts());
    return 0;
}
