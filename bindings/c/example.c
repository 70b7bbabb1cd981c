/* One table for many clients: each offers its nodes, a bad program is refused, and taking back leaves the table as it was.
 *
 *     cc -I bindings/c bindings/c/example.c target/staticlib/libtsarovima_c.a -o example && ./example */

#include "tsarovima.h"
#include <stdio.h>

static tsarovima_tables tables;

/* A record: kind, zero, a, b, zero, little-endian. */
static void put(uint8_t kind, uint16_t a, uint16_t b)
{
    uint8_t record[8] = {kind, 0, a & 255, a >> 8, b & 255, b >> 8, 0, 0};
    uint8_t answer[8];
    if (tsarovima_tables_record(&tables, record, answer) != TSAROVIMA_DONE)
        return;
    unsigned code = answer[0] | answer[1] << 8, first = answer[2] | answer[3] << 8;
    printf("kind %u: code %u, first %u, second %u\n", kind, code, first,
           answer[4] | answer[5] << 8 | answer[6] << 16 | (unsigned)answer[7] << 24);
    if (code == TSAROVIMA_CODE_CLASH) {
        uint8_t text[TSAROVIMA_RULE_TEXT];
        size_t length = tsarovima_rule_text((uint16_t)first, text, sizeof text);
        printf("    %.*s\n", (int)length, (const char *)text);
    }
}

int main(void)
{
    tsarovima_tables_open(&tables);

    /* The first client's program clashes: rule 1. */
    put(TSAROVIMA_KIND_WORD, 0, 0);
    put(TSAROVIMA_KIND_COMP, 0, 0);
    put(TSAROVIMA_KIND_TAKE_BACK, 0, 0);

    /* The second's is sound. */
    put(TSAROVIMA_KIND_UNIT, 0, 0);
    put(TSAROVIMA_KIND_CASE, 0, 0);

    uint8_t answer[8];
    if (tsarovima_tables_close(&tables, answer) == TSAROVIMA_DONE)
        printf("closed: code %u, %u nodes, %u types\n", answer[0] | answer[1] << 8, tables.listing[0], tables.listing[1]);
    for (int i = 0; i < 20; i++)
        printf("%u%c", tables.listing[i], i == 19 ? '\n' : ' ');

    /* A job of one record: unit. */
    static const uint8_t job[24] = {1, 0, 0, 0, 1, 0, 0, 0, 16, 0, 0, 0, 24, 0, 0, 0, TSAROVIMA_KIND_UNIT};
    static uint8_t answers[8];
    static uint16_t listing[TSAROVIMA_LISTING];
    printf("job %u\n", (unsigned)tsarovima_job(job, sizeof job, answers, sizeof answers, listing, TSAROVIMA_LISTING));
    return 0;
}
