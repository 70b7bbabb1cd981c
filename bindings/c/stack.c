/* How much stack the calls take: they run on a stack that was painted, and what is no longer paint was used. A figure holds the
 * call's arguments and the frame of the function here that makes it.
 *
 *     cc -O2 -I bindings/c bindings/c/stack.c target/staticlib/libtsarovima_c.a -o stack && ./stack */

#include "tsarovima.h"
#include <stdio.h>
#include <stdlib.h>
#include <string.h>
#include <ucontext.h>

enum { STACK = 1 << 20, PAINT = 0xA5, RECORDS = 20000 };
enum { PAIR = TSAROVIMA_KIND_PAIR, WORD = TSAROVIMA_KIND_WORD };
enum { TAKE_BACK = TSAROVIMA_KIND_TAKE_BACK, CLOSE = TSAROVIMA_KIND_CLOSE };

static unsigned char stack[STACK];
static tsarovima_tables tables;

static void must(uint32_t returned)
{
    if (returned != 0) {
        printf("stack: a call returned %u\n", (unsigned)returned);
        exit(1);
    }
}

/* The bytes that the function uses. */
static size_t used(void (*function)(void))
{
    static ucontext_t here, there;
    memset(stack, PAINT, STACK);
    getcontext(&there);
    there.uc_stack.ss_sp = stack;
    there.uc_stack.ss_size = STACK;
    there.uc_link = &here;
    makecontext(&there, function, 0);
    swapcontext(&here, &there);
    size_t left = 0;
    while (left < STACK && stack[left] == PAINT)
        left++;
    return STACK - left;
}

static void nothing(void) {}

static void put(unsigned kind, unsigned a, unsigned b)
{
    static uint8_t record[8], answer[8];
    memcpy(record, (uint8_t[]){(uint8_t)kind, 0, a & 255, a >> 8, b & 255, b >> 8, 0, 0}, 8);
    must(tsarovima_tables_record(&tables, record, answer));
}

/* Every kind, kept and refused, and a tower of 600 pairs. */
static void put_all(int closings)
{
    must(tsarovima_tables_open(&tables));
    for (unsigned i = 0; i < RECORDS; i++) {
        unsigned kept = tables.live[2], kind = i % (WORD + 2), a = kept ? i * 7 % kept : 0, b = kept ? i * 13 % kept : 0;
        int one = (kind >= 3 && kind <= 13), two = kind == 7 || kind == 8 || kind == PAIR || kind == 12;
        put(kind, one ? a : kind == WORD ? i % 33 : 0, two ? b : 0);
        if (i % 999 == 0)
            put(TAKE_BACK, kept / 2, 0);
        if (closings && i % 500 == 0)
            put(CLOSE, 0, 0);
    }
    put(TAKE_BACK, 0, 0);
    put(WORD, 0, 0);
    for (unsigned i = 0; i < 600; i++)
        put(PAIR, i, i);
    if (closings)
        put(CLOSE, 0, 0);
}

static void records(void) { put_all(0); }

static void records_and_closings(void) { put_all(1); }

static void closing(void)
{
    static uint8_t answer[8];
    must(tsarovima_tables_close(&tables, answer));
}

static unsigned records_of_job;

static void job(void)
{
    static uint8_t bytes[TSAROVIMA_JOB_MOST], answers[TSAROVIMA_ANSWERS_MOST];
    static uint16_t listing[TSAROVIMA_LISTING];
    uint32_t header[4] = {1, records_of_job, 16, 16 + 8 * records_of_job};
    memset(bytes, 0, sizeof bytes);
    memcpy(bytes, header, 16);
    for (unsigned i = 0; i < records_of_job; i++)
        bytes[16 + 8 * i] = i == 0 ? 2 : i % 100 == 99 ? CLOSE : 8;
    must(tsarovima_job(bytes, 16 + 8 * records_of_job, answers, 8 * records_of_job, listing, TSAROVIMA_LISTING));
}

int main(void)
{
    /* where memset is called for the first time, the dynamic linker may need more stack than the call */
    job();
    size_t none = used(nothing);
    printf("records without closings: %zu bytes\n", used(records) - none);
    printf("records with closings: %zu bytes\n", used(records_and_closings) - none);
    printf("tsarovima_close: %zu bytes\n", used(closing) - none);
    for (unsigned i = 0; i < 3; i++) {
        records_of_job = i == 0 ? 0 : i == 1 ? 300 : 4096;
        printf("a job of %u records: %zu bytes\n", records_of_job, used(job) - none);
    }
    return 0;
}
